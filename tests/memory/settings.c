/* Settings, at and past the limits of their questions. */
#include "memory.h"

#include <string.h>

static double pick(const double *from, size_t n) { return from[below(n)]; }
#define PICK(list) pick(list, sizeof(list) / sizeof(list)[0])

/* Settings that miss no question. */
struct lanegravel_rulings_params settings(void) {
    static const double lengths[] = {0, 0, 0.25, 0.5, 1, 2, 1e6}, parts[] = {0, 0.1, 0.3, 0.5, 1};
    static const double coefs[] = {0, -0.0, 0.5, -0.4, 1e6, -1e6}, contrasts[] = {-1e6, 0, 40, 40, 1e6};
    struct lanegravel_rulings_params p;
    memset(&p, 0, sizeof p);
    p.merge_across_xh = PICK(lengths);
    p.merge_gap_xh = PICK(lengths);
    p.rule_min_contrast = PICK(contrasts);
    p.fold_min_length_in = PICK(parts);
    p.join_tol_xh = PICK(lengths);
    p.table_min_horizontal = 1 + (uint32_t)below(2);
    p.table_min_vertical = 1 + (uint32_t)below(2);
    p.line_cluster_xh = PICK(lengths);
    p.table_prior = PICK(coefs);
    p.table_cells_coef = PICK(coefs);
    p.table_cells_cap = PICK(coefs);
    p.table_junction_coef = PICK(coefs);
    p.min_free_rules = 1 + (uint32_t)below(3);
    p.free_rules_prior = PICK(coefs);
    p.free_rules_coef = PICK(coefs);
    p.free_rules_cap = PICK(coefs);
    p.box_min_xh = below(2) ? 0 : 0.5;
    p.box_min_in = below(2) ? 0 : 0.01;
    p.box_max_xh = below(8) ? 1e6 : 2;
    p.box_overshoot_fraction = PICK(parts);
    p.box_aspect_tol = PICK(parts);
    p.box_tolerance_px = (uint32_t)below(4);
    p.box_edge_coverage = PICK(parts);
    p.box_max_inner_ink = PICK(parts);
    p.box_checked_ink = PICK(parts);
    p.grid_align_xh = PICK(lengths);
    p.grid_min_boxes = 2 + (uint32_t)below(2);
    p.grid_prior = PICK(coefs);
    p.grid_coef = PICK(coefs);
    p.grid_cap = PICK(coefs);
    return p;
}

/* Any bits in one field, or zeros in all counts. */
void spoil_settings(struct lanegravel_rulings_params *p) {
    uint64_t any = bits();
    size_t at = 8 * (size_t)below(sizeof *p / 8);
    if (below(4) == 0) {
        any = 0;
    }
    memcpy((char *)p + at, &any, sizeof any);
}
