#include "check.h"

struct lanegravel_rulings_params settings(void) {
    struct lanegravel_rulings_params p;
    p.merge_across_xh = 0.25;
    p.merge_gap_xh = 0.5;
    p.rule_min_contrast = 40.0;
    p.fold_min_length_in = 2.0;
    p.join_tol_xh = 0.5;
    p.table_min_horizontal = 3;
    p.table_min_vertical = 2;
    p.line_cluster_xh = 0.25;
    p.table_prior = -1.0;
    p.table_cells_coef = 0.75;
    p.table_cells_cap = 3.0;
    p.table_junction_coef = 1.5;
    p.min_free_rules = 1;
    p.free_rules_prior = -0.5;
    p.free_rules_coef = 0.4;
    p.free_rules_cap = 2.5;
    p.box_min_xh = 1.5;
    p.box_min_in = 0.7;
    p.box_max_xh = 3.0;
    p.box_overshoot_fraction = 0.25;
    p.box_aspect_tol = 0.2;
    p.box_tolerance_px = 0;
    p.box_edge_coverage = 0.6;
    p.box_max_inner_ink = 0.5;
    p.box_checked_ink = 0.1;
    p.grid_align_xh = 0.25;
    p.grid_min_boxes = 2;
    p.grid_prior = -1.5;
    p.grid_coef = 0.8;
    p.grid_cap = 3.5;
    return p;
}

#define AT(field, place) CHECK(offsetof(struct lanegravel_rulings_params, field) == place)

static void test_layout(void) {
    CHECK(sizeof(struct lanegravel_rulings_params) == 232);
    CHECK(sizeof(struct lanegravel_fusion_params) == 16);
    CHECK(offsetof(struct lanegravel_fusion_params, llr_clip) == 0);
    CHECK(offsetof(struct lanegravel_fusion_params, group_cap) == 8);
    AT(merge_across_xh, 0);
    AT(merge_gap_xh, 8);
    AT(rule_min_contrast, 16);
    AT(fold_min_length_in, 24);
    AT(join_tol_xh, 32);
    AT(table_min_horizontal, 40);
    AT(table_min_vertical, 44);
    AT(line_cluster_xh, 48);
    AT(table_prior, 56);
    AT(table_cells_coef, 64);
    AT(table_cells_cap, 72);
    AT(table_junction_coef, 80);
    AT(min_free_rules, 88);
    AT(free_rules_prior, 96);
    AT(free_rules_coef, 104);
    AT(free_rules_cap, 112);
    AT(box_min_xh, 120);
    AT(box_min_in, 128);
    AT(box_max_xh, 136);
    AT(box_overshoot_fraction, 144);
    AT(box_aspect_tol, 152);
    AT(box_tolerance_px, 160);
    AT(box_edge_coverage, 168);
    AT(box_max_inner_ink, 176);
    AT(box_checked_ink, 184);
    AT(grid_align_xh, 192);
    AT(grid_min_boxes, 200);
    AT(grid_prior, 208);
    AT(grid_coef, 216);
    AT(grid_cap, 224);
}

/* With this one field at another value the settings miss this question. */
#define MISSES(number, field, value)                     \
    do {                                                 \
        struct lanegravel_rulings_params p = settings(); \
        p.field = value;                                 \
        CHECK(lanegravel_validate(p) == number);         \
    } while (0)

/* Each field of the questions that only some fields are asked; of question 7 a few. */
static void test_validate(void) {
    CHECK(lanegravel_validate(settings()) == 0);
    MISSES(7, rule_min_contrast, 2e6);
    MISSES(7, table_prior, 2e6);
    MISSES(7, grid_cap, -2e6);
    MISSES(0, rule_min_contrast, -1.0);
    MISSES(8, merge_across_xh, -1.0);
    MISSES(8, merge_gap_xh, -1.0);
    MISSES(8, fold_min_length_in, -1.0);
    MISSES(8, join_tol_xh, -1.0);
    MISSES(8, line_cluster_xh, -1.0);
    MISSES(8, box_min_xh, -1.0);
    MISSES(8, box_min_in, -1.0);
    MISSES(8, grid_align_xh, -1.0);
    MISSES(9, box_max_xh, 1.4);
    MISSES(10, box_overshoot_fraction, 1.5);
    MISSES(10, box_aspect_tol, 1.5);
    MISSES(10, box_tolerance_px, 4);
    MISSES(10, box_edge_coverage, 1.5);
    MISSES(10, box_max_inner_ink, 1.5);
    MISSES(10, box_checked_ink, 1.5);
    MISSES(11, table_min_horizontal, 0);
    MISSES(11, table_min_vertical, 0);
    MISSES(11, grid_min_boxes, 1);
    MISSES(13, min_free_rules, 0);
}

static uint32_t validate_fusion(double llr_clip, double group_cap) {
    struct lanegravel_fusion_params f;
    f.llr_clip = llr_clip;
    f.group_cap = group_cap;
    return lanegravel_validate_fusion(f);
}

void test_settings(void) {
    test_layout();
    test_validate();
    CHECK(validate_fusion(1.0, 2.0) == 0);
    CHECK(validate_fusion(-1.0, 2.0) == 12);
    CHECK(validate_fusion(1.0, -2.0) == 12);
}
