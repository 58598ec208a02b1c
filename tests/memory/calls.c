/* The calls over random inputs; lanegravel_detect has a file of its own. */
#include "memory.h"

/* How many entries list k has that needs n. */
static size_t room(const struct input *in, size_t k, size_t n) {
    return in->short_list < LISTS && k == in->short_list % 13 ? n - (n != 0) : n + in->room[k];
}

/* Declares a list of its own, the number k of its call, that needs n entries. */
#define LEND(k, type, list, n)               \
    size_t list##_count = room(in, k, n);    \
    type *list = lend(list##_count * sizeof(type))

static void call_floats(const struct input *in) {
    size_t n = in->values_count;
    const double *values = give(in->values, n * sizeof *values);
    answer_float(lanegravel_pairwise_sum(values, n));
    answer_float(lanegravel_log_odds(in->values[0], values, n, in->values[1]));
    answer_float(lanegravel_round_output(in->values[2]));
    answer_float(lanegravel_round(in->values[3]));
    answer((uint64_t)lanegravel_rounded_product(in->values[4], in->values[5]));
}

static void call_members_of(const struct input *in) {
    size_t n = in->values_count, k = in->ends_count;
    const uint32_t *members = give(in->wholes, n * sizeof *members);
    const uint32_t *ends = give(in->wholes, k * sizeof *ends);
    struct lanegravel_members_of_answer a =
        lanegravel_members_of(members, n, ends, k, in->place, in->set);
    answer(a.start);
    answer(a.count);
    if (a.start > n || a.count > n - a.start) {
        fail("a part outside the member list");
    }
}

static void call_validate(const struct input *in) {
    answer(lanegravel_validate(in->p));
    answer(lanegravel_validate_fusion(in->f));
}

static void call_level_gray(const struct input *in) {
    size_t out_count = in->ink_count + (in->short_list == 0) - (in->short_list == 1 && in->ink_count != 0);
    uint8_t *out = lend(out_count);
    uint32_t number = lanegravel_level_gray(in->page_width, in->page_height, in->width, in->height,
                                   GIVE(gray), GIVE(shear),
                                   GIVE(shear_x), out, out_count);
    answer(number);
    number == 0 ? answer_in(out, out_count) : refused();
}

/* The ink stands in for a levelled raster, which has as many bytes. */
static void call_unlevel(const struct input *in) {
    size_t out_count = in->gray_count + (in->short_list == 0) - (in->short_list == 1 && in->gray_count != 0);
    uint8_t *out = lend(out_count);
    uint32_t number = lanegravel_unlevel(in->page_width, in->page_height, in->width, in->height,
                                         GIVE(ink), GIVE(shear), GIVE(shear_x), out, out_count);
    answer(number);
    number == 0 ? answer_in(out, out_count) : refused();
}

static void call_to_page(const struct input *in) {
    const uint32_t *r = in->pieces;
    struct lanegravel_to_page_answer a = lanegravel_to_page(
        in->page_width, in->page_height, in->width, in->height, GIVE(shear),
        GIVE(shear_x), r[0], r[1]);
    answer(a.number);
    answer((uint64_t)a.x);
    answer((uint64_t)a.y);
}

static void call_rect_to_page(const struct input *in) {
    const uint32_t *r = in->pieces;
    struct lanegravel_rect_to_page_answer a = lanegravel_rect_to_page(
        in->page_width, in->page_height, in->width, in->height, GIVE(shear),
        GIVE(shear_x), r[0], r[1], r[2], r[3]);
    answer(a.number);
    answer(a.x0), answer(a.y0), answer(a.x1), answer(a.y1);
}

/* The ink stands for a raster: any bytes do. */
static void call_segments(const struct input *in) {
    size_t n = in->pieces_count / 4;
    LEND(0, uint32_t, rects, 4 * n);
    LEND(1, uint32_t, directions, n);
    LEND(2, double, contrasts, n);
    LEND(3, uint32_t, members, n);
    LEND(4, uint32_t, ends, n);
    LEND(5, uint32_t, parents, n);
    LEND(6, uint32_t, listed, n);
    LEND(7, uint32_t, listed_ends, n);
    LEND(8, uint32_t, work, n);
    LEND(9, uint64_t, keys, n);
    struct lanegravel_segments_answer a = lanegravel_segments(
        GIVE(ink), in->width, in->height, in->xheight,
        GIVE(pieces), in->p, rects, rects_count, directions, directions_count,
        contrasts, contrasts_count, members, members_count, ends, ends_count, parents,
        parents_count, listed, listed_count, listed_ends, listed_ends_count, work, work_count,
        keys, keys_count);
    answer(a.number);
    answer(a.count);
    if (a.number != 0) {
        refused();
        return;
    }
    answer_in(rects, a.count * 4 * sizeof *rects);
    answer_in(directions, a.count * sizeof *directions);
    answer_in(contrasts, a.count * sizeof *contrasts);
    answer_in(members, n * sizeof *members);
    answer_in(ends, a.count * sizeof *ends);
}

static void call_tables(const struct input *in) {
    size_t n = in->pieces_count / 4;
    LEND(0, uint32_t, members, n);
    LEND(1, uint32_t, ends, n);
    LEND(2, uint32_t, numbers, n);
    LEND(3, uint32_t, bounds, 4 * n);
    LEND(4, uint32_t, rows, n);
    LEND(5, uint32_t, columns, n);
    LEND(6, uint32_t, rulings, n);
    LEND(7, double, shares, n);
    LEND(8, uint32_t, free, n);
    LEND(9, uint32_t, chosen, n);
    LEND(10, uint32_t, parents, n);
    LEND(11, uint32_t, work, n);
    LEND(12, uint64_t, keys, n);
    struct lanegravel_tables_answer a = lanegravel_tables(
        in->xheight, in->p, GIVE(pieces), GIVE(directions),
        members, members_count, ends, ends_count, numbers, numbers_count, bounds, bounds_count, rows,
        rows_count, columns, columns_count, rulings, rulings_count, shares, shares_count, free,
        free_count, chosen, chosen_count, parents, parents_count, work, work_count, keys, keys_count);
    answer(a.number);
    answer(a.sets), answer(a.tables), answer(a.free);
    if (a.number != 0) {
        refused();
        return;
    }
    answer_in(members, n * sizeof *members);
    answer_in(ends, a.sets * sizeof *ends);
    answer_in(numbers, a.tables * sizeof *numbers);
    answer_in(bounds, a.tables * 4 * sizeof *bounds);
    answer_in(rows, a.tables * sizeof *rows);
    answer_in(columns, a.tables * sizeof *columns);
    answer_in(rulings, a.tables * sizeof *rulings);
    answer_in(shares, a.tables * sizeof *shares);
    answer_in(free, a.free * sizeof *free);
}

static void call_boxes(const struct input *in) {
    size_t m = in->glyphs_count / 4;
    LEND(0, uint32_t, rects, 4 * m);
    LEND(1, uint32_t, marks, m);
    LEND(2, double, coverages, m);
    struct lanegravel_boxes_answer a = lanegravel_boxes(
        in->width, in->height, in->dpi, in->xheight, GIVE(ink),
        GIVE(glyphs), in->p, rects, rects_count, marks, marks_count, coverages,
        coverages_count);
    answer(a.number);
    answer(a.count);
    if (a.number != 0) {
        refused();
        return;
    }
    answer_in(rects, a.count * 4 * sizeof *rects);
    answer_in(marks, a.count * sizeof *marks);
    answer_in(coverages, a.count * sizeof *coverages);
}

static void call_box_grids(const struct input *in) {
    size_t m = in->glyphs_count / 4;
    LEND(0, uint32_t, members, m);
    LEND(1, uint32_t, ends, m);
    LEND(2, uint32_t, reading, m);
    LEND(3, uint32_t, numbers, m);
    LEND(4, uint32_t, parents, m);
    LEND(5, uint32_t, work, m);
    LEND(6, uint64_t, keys, m);
    struct lanegravel_box_grids_answer a = lanegravel_box_grids(
        in->xheight, in->p, GIVE(glyphs), members, members_count, ends, ends_count,
        reading, reading_count, numbers, numbers_count, parents, parents_count, work, work_count, keys,
        keys_count);
    answer(a.number);
    answer(a.sets), answer(a.grids);
    if (a.number != 0) {
        refused();
        return;
    }
    answer_in(members, m * sizeof *members);
    answer_in(ends, a.sets * sizeof *ends);
    answer_in(reading, m * sizeof *reading);
    answer_in(numbers, a.grids * sizeof *numbers);
}

/* Lists of findings with any content, a few entries each and one now and then shorter. */
static void call_finding_at(const struct input *in) {
    size_t n[13], k;
    const uint32_t *w[5];
    const double *d[8];
    struct lanegravel_finding_at_answer a;
    for (k = 0; k < 13; k++) {
        n[k] = (k == 0 ? 4 : 1) * (2 + (in->short_list == k ? 0 : in->room[k]));
    }
    for (k = 0; k < 5; k++) {
        w[k] = give(in->wholes, n[k] * sizeof(uint32_t));
    }
    for (k = 0; k < 8; k++) {
        d[k] = give(in->values, n[k + 5] * sizeof(double));
    }
    a = lanegravel_finding_at(w[0], n[0], w[1], n[1], w[2], n[2], w[3], n[3], w[4], n[4], d[0], n[5],
                              d[1], n[6], d[2], n[7], d[3], n[8], d[4], n[9], d[5], n[10], d[6], n[11],
                              d[7], n[12], in->set, in->place);
    answer(a.found), answer(a.kind), answer(a.x0), answer(a.y0), answer(a.x1), answer(a.y1);
    answer(a.a), answer(a.b), answer(a.c), answer_float(a.log_odds), answer_float(a.first_value);
    answer_float(a.first_threshold), answer_float(a.first_llr), answer_float(a.second_value);
    answer_float(a.second_threshold), answer_float(a.second_llr), answer_float(a.length);
}

call_of *const calls[] = {
    call_floats,   call_members_of, call_validate, call_level_gray, call_unlevel,    call_to_page,
    call_rect_to_page, call_segments, call_tables, call_boxes,      call_box_grids,  call_finding_at,
    call_detect,   call_detect,     call_detect,
};
const size_t calls_count = sizeof calls / sizeof calls[0];
