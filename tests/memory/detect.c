/* lanegravel_detect over random pages. */
#include "memory.h"

/* Lends the next list, which needs n entries. */
#define LEND(list, n)                                                             \
    (l.list.count = (n) + (k == in->short_list ? (size_t)0 - ((n) != 0) : in->room[k]), k++, \
     l.list.entries = lend(l.list.count * sizeof *l.list.entries))

static struct lanegravel_lists lend_lists(const struct input *in) {
    size_t n = in->pieces_count / 4, m = in->glyphs_count / 4, k = 1;
    struct lanegravel_lists l;
    l.levelled.count = in->ink_count - (in->short_list == 0 && in->ink_count != 0);
    l.levelled.entries = lend(l.levelled.count);
    LEND(rects, 4 * n), LEND(directions, n), LEND(contrasts, n), LEND(printed, n), LEND(faint, n);
    LEND(bounds, 4 * n), LEND(rows, n), LEND(columns, n), LEND(rulings, n), LEND(shares, n);
    LEND(free, n), LEND(boxes, 4 * m), LEND(marks, m), LEND(coverages, m), LEND(reading, m);
    LEND(piece_members, n), LEND(printed_members, n), LEND(box_members, m), LEND(piece_ends, n);
    LEND(printed_ends, n), LEND(box_ends, m), LEND(table_numbers, n), LEND(grid_numbers, m);
    LEND(page, 4 * (n + m)), LEND(kinds, n + m), LEND(fact_a, n + m), LEND(fact_b, n + m);
    LEND(fact_c, n + m), LEND(log_odds, n + m), LEND(first_values, n + m);
    LEND(first_thresholds, n + m), LEND(first_llrs, n + m), LEND(second_values, n + m);
    LEND(second_thresholds, n + m), LEND(second_llrs, n + m), LEND(lengths, n + m);
    LEND(parents, n), LEND(listed, n), LEND(listed_ends, n), LEND(order, n), LEND(keys, n);
    LEND(box_parents, m), LEND(box_order, m), LEND(box_keys, m);
    return l;
}

#define ANSWERED(list, n) answer_in(l->list.entries, (n) * sizeof *l->list.entries)

/* The work lists are of free content, and every other list is answered in from its front. */
static void answered(const struct lanegravel_lists *l, const struct lanegravel_detect_answer *a,
                     size_t pieces) {
    ANSWERED(levelled, l->levelled.count);
    ANSWERED(rects, 4 * a->rulings), ANSWERED(directions, a->rulings), ANSWERED(contrasts, a->rulings);
    ANSWERED(printed, a->printed), ANSWERED(faint, a->faint);
    ANSWERED(bounds, 4 * a->tables), ANSWERED(rows, a->tables), ANSWERED(columns, a->tables);
    ANSWERED(rulings, a->tables), ANSWERED(shares, a->tables), ANSWERED(free, a->free);
    ANSWERED(boxes, 4 * a->boxes), ANSWERED(marks, a->boxes), ANSWERED(coverages, a->boxes);
    ANSWERED(reading, a->boxes), ANSWERED(piece_members, pieces);
    ANSWERED(printed_members, a->printed), ANSWERED(box_members, a->boxes);
    ANSWERED(piece_ends, a->rulings), ANSWERED(printed_ends, a->printed_sets);
    ANSWERED(box_ends, a->box_sets), ANSWERED(table_numbers, a->tables);
    ANSWERED(grid_numbers, a->grids);
    ANSWERED(page, 4 * a->findings), ANSWERED(kinds, a->findings), ANSWERED(fact_a, a->findings);
    ANSWERED(fact_b, a->findings), ANSWERED(fact_c, a->findings), ANSWERED(log_odds, a->findings);
    ANSWERED(first_values, a->findings), ANSWERED(first_thresholds, a->findings);
    ANSWERED(first_llrs, a->findings), ANSWERED(second_values, a->findings);
    ANSWERED(second_thresholds, a->findings), ANSWERED(second_llrs, a->findings);
    ANSWERED(lengths, a->findings);
}

void call_detect(const struct input *in) {
    struct lanegravel_lists l = lend_lists(in);
    struct lanegravel_page page = {
        in->page_width, in->page_height, in->width,   in->height,    in->dpi,      in->xheight,
        in->p,          in->f,           GIVE(gray),  GIVE(ink),     GIVE(shear),  GIVE(shear_x),
        GIVE(pieces),   GIVE(glyphs),
    };
    struct lanegravel_detect_answer a = lanegravel_detect_into(&page, &l);
    answer(a.number);
    answer(a.rulings), answer(a.printed), answer(a.faint), answer(a.tables), answer(a.boxes);
    answer(a.grids), answer(a.findings), answer(a.printed_sets), answer(a.free), answer(a.box_sets);
    if (a.number == LANEGRAVEL_ACCEPTED) {
        answered(&l, &a, in->pieces_count / 4);
    } else if (a.number == LANEGRAVEL_QUESTION_EVIDENCE) {
        answer_in(l.levelled.entries, l.levelled.count);
    } else {
        refused();
    }
    tally(a.number);
}
