#include "check.h"

#include <stdlib.h>

enum { PAGE_WIDTH = 43, PAGE_HEIGHT = 40, WIDTH = 44, HEIGHT = 42, DPI = 10 };

/* Eleven pieces and three glyph boxes. */
enum { N = 11, M = 3 };

/* Every list of another length, at least as long as question 14 asks. */
struct store {
    uint8_t levelled[WIDTH * HEIGHT];
    uint32_t rects[4 * N + 1], directions[N];
    double contrasts[N + 1];
    uint32_t printed[N + 2], faint[N + 3], bounds[4 * N + 2], rows[N + 4], columns[N + 5];
    uint32_t rulings[N + 6];
    double shares[N + 7];
    uint32_t free[N + 8], boxes[4 * M + 1], marks[M];
    double coverages[M + 1];
    uint32_t reading[M + 2], piece_members[N + 9], printed_members[N + 10], box_members[M + 3];
    uint32_t piece_ends[N + 11], printed_ends[N + 12], box_ends[M + 4];
    uint32_t table_numbers[N + 13], grid_numbers[M + 5];
    uint32_t page[4 * (N + M) + 3], kinds[N + M], fact_a[N + M + 1], fact_b[N + M + 2];
    uint32_t fact_c[N + M + 3];
    double log_odds[N + M + 4], first_values[N + M + 5], first_thresholds[N + M + 6];
    double first_llrs[N + M + 7], second_values[N + M + 8], second_thresholds[N + M + 9];
    double second_llrs[N + M + 10], lengths[N + M + 11];
    uint32_t parents[N + 14], listed[N + 15], listed_ends[N + 16], order[N + 17];
    uint64_t keys[N + 18];
    uint32_t box_parents[M + 6], box_order[M + 7];
    uint64_t box_keys[M + 8];
};

#define LEND(list) (l.list.entries = s->list, l.list.count = COUNT(s->list))

static struct lanegravel_lists lend(struct store *s) {
    struct lanegravel_lists l;
    memset(s, PATTERN, sizeof *s);
    LEND(levelled), LEND(rects), LEND(directions), LEND(contrasts), LEND(printed), LEND(faint);
    LEND(bounds), LEND(rows), LEND(columns), LEND(rulings), LEND(shares), LEND(free);
    LEND(boxes), LEND(marks), LEND(coverages), LEND(reading);
    LEND(piece_members), LEND(printed_members), LEND(box_members);
    LEND(piece_ends), LEND(printed_ends), LEND(box_ends), LEND(table_numbers), LEND(grid_numbers);
    LEND(page), LEND(kinds), LEND(fact_a), LEND(fact_b), LEND(fact_c), LEND(log_odds);
    LEND(first_values), LEND(first_thresholds), LEND(first_llrs);
    LEND(second_values), LEND(second_thresholds), LEND(second_llrs), LEND(lengths);
    LEND(parents), LEND(listed), LEND(listed_ends), LEND(order), LEND(keys);
    LEND(box_parents), LEND(box_order), LEND(box_keys);
    return l;
}

/* A table of three rules each way, the horizontals in two pieces that touch; a loose rule; a fold. */
static const uint32_t pieces[] = {14, 3,  33, 3,  5,  3,  11, 3,  14, 11, 33, 11, 5,  11, 11,
                                  11, 14, 19, 33, 19, 5,  19, 11, 19, 5,  3,  5,  19, 19, 3,
                                  19, 19, 33, 3,  33, 19, 2,  25, 18, 25, 1,  38, 40, 38};
static const uint8_t greys[] = {60, 50, 60, 50, 60, 50, 40, 40, 40, 30, 235};

/* Three squares from right to left. */
static const uint32_t glyphs[] = {24, 27, 31, 34, 14, 27, 21, 34, 4, 27, 11, 34};

struct given {
    uint8_t gray[PAGE_WIDTH * PAGE_HEIGHT], ink[WIDTH * HEIGHT];
    int32_t shear[PAGE_WIDTH], shear_x[HEIGHT];
};

/* The page lies one column to the right and two rows down in its picture. The right square has a break
 * in its left edge, and the middle one a mark of two pixels. */
static void draw(struct given *g) {
    uint32_t x, y, k;
    memset(g, 0, sizeof *g);
    memset(g->gray, 250, sizeof g->gray);
    for (k = 0; k < PAGE_WIDTH; k++) {
        g->shear[k] = 2;
    }
    for (k = 0; k < HEIGHT; k++) {
        g->shear_x[k] = 1;
    }
    for (k = 0; k < N; k++) {
        const uint32_t *r = pieces + 4 * k;
        for (y = r[1]; y <= r[3]; y++) {
            memset(g->gray + (y - 2) * PAGE_WIDTH + r[0] - 1, greys[k], r[2] - r[0] + 1);
        }
    }
    for (k = 0; k < M; k++) {
        const uint32_t *r = glyphs + 4 * k;
        for (x = 0; x < 8; x++) {
            g->ink[r[1] * WIDTH + r[0] + x] = g->ink[r[3] * WIDTH + r[0] + x] = 1;
            g->ink[(r[1] + x) * WIDTH + r[0]] = g->ink[(r[1] + x) * WIDTH + r[2]] = 1;
        }
    }
    g->ink[29 * WIDTH + 24] = 0;
    g->ink[30 * WIDTH + 17] = g->ink[30 * WIDTH + 18] = 1;
}

static struct lanegravel_fusion_params caps(void) {
    struct lanegravel_fusion_params f;
    f.llr_clip = 2.0;
    f.group_cap = 2.5;
    return f;
}

static struct lanegravel_detect_answer call(const struct lanegravel_lists *l, uint16_t dpi,
                                            size_t pieces_count,
                                            struct lanegravel_fusion_params f) {
    struct given g;
    struct lanegravel_page page;
    draw(&g);
    page.page_width = PAGE_WIDTH, page.page_height = PAGE_HEIGHT;
    page.width = WIDTH, page.height = HEIGHT;
    page.dpi = dpi, page.xheight = 4.0, page.params = settings(), page.fusion = f;
    page.gray = g.gray, page.gray_count = COUNT(g.gray);
    page.ink = g.ink, page.ink_count = COUNT(g.ink);
    page.shear = g.shear, page.shear_count = COUNT(g.shear);
    page.shear_x = g.shear_x, page.shear_x_count = COUNT(g.shear_x);
    page.pieces = pieces, page.pieces_count = pieces_count;
    page.glyphs = glyphs, page.glyphs_count = COUNT(glyphs);
    return lanegravel_detect_into(&page, l);
}

static void is_empty(struct lanegravel_detect_answer a, uint32_t number) {
    CHECK(a.number == number);
    CHECK(a.rulings == 0 && a.printed == 0 && a.faint == 0);
    CHECK(a.tables == 0 && a.boxes == 0 && a.grids == 0 && a.findings == 0);
    CHECK(a.printed_sets == 0 && a.free == 0 && a.box_sets == 0);
}

static void test_rulings(const struct store *s) {
    static const uint32_t rects[] = {5,  3, 33, 3,  5, 3,  5,  19, 19, 3,  19, 19, 33, 3,  33, 19,
                                     5, 11, 33, 11, 5, 19, 33, 19, 2,  25, 18, 25, 1,  38, 40, 38};
    static const uint32_t directions[] = {0, 1, 1, 1, 0, 0, 0, 0};
    static const double across = 250.0 - 2000.0 / 29.0;
    static const uint32_t printed[] = {0, 1, 2, 3, 4, 5, 6}, faint[] = {7};
    static const uint32_t piece_members[] = {0, 1, 6, 7, 8, 2, 3, 4, 5, 9, 10};
    static const uint32_t piece_ends[] = {2, 3, 4, 5, 7, 9, 10, 11};
    const double contrasts[] = {across, 210, 210, 210, across, across, 220, 15};
    ANSWERED(s->rects, rects);
    ANSWERED(s->directions, directions);
    ANSWERED(s->contrasts, contrasts);
    ANSWERED(s->printed, printed);
    ANSWERED(s->faint, faint);
    ANSWERED(s->piece_members, piece_members);
    ANSWERED(s->piece_ends, piece_ends);
}

static void test_tables_and_boxes(const struct store *s) {
    static const uint32_t bounds[] = {5, 3, 33, 19}, rows[] = {2}, columns[] = {2}, rulings[] = {6};
    static const double shares[] = {1.0}, coverages[] = {0.625, 1.0, 1.0};
    static const uint32_t free[] = {6}, printed_members[] = {0, 1, 2, 3, 4, 5, 6};
    static const uint32_t printed_ends[] = {6, 7}, table_numbers[] = {0}, marks[] = {0, 1, 0};
    static const uint32_t reading[] = {2, 1, 0}, box_members[] = {0, 1, 2}, box_ends[] = {3};
    static const uint32_t grid_numbers[] = {0};
    ANSWERED(s->bounds, bounds);
    ANSWERED(s->rows, rows);
    ANSWERED(s->columns, columns);
    ANSWERED(s->rulings, rulings);
    ANSWERED(s->shares, shares);
    ANSWERED(s->free, free);
    ANSWERED(s->printed_members, printed_members);
    ANSWERED(s->printed_ends, printed_ends);
    ANSWERED(s->table_numbers, table_numbers);
    ANSWERED(s->boxes, glyphs);
    ANSWERED(s->marks, marks);
    ANSWERED(s->coverages, coverages);
    ANSWERED(s->reading, reading);
    ANSWERED(s->box_members, box_members);
    ANSWERED(s->box_ends, box_ends);
    ANSWERED(s->grid_numbers, grid_numbers);
}

static void test_lists_of_findings(const struct store *s) {
    static const uint32_t page[] = {4, 1,  32, 17, 1, 23, 17, 23, 3, 25, 30, 32, 0, 36, 39, 36};
    static const uint32_t kinds[] = {16, 17, 18, 19};
    static const uint32_t fact_a[] = {2, 1, 3, 0}, fact_b[] = {2, 0, 1, 0}, fact_c[] = {6, 17, 0, 0};
    static const double log_odds[] = {1.5, -0.5 + 0.4, 0.5, 2.0};
    static const double first_values[] = {4, 1, 3, 15}, first_thresholds[] = {0, 0, 2, 40};
    static const double first_llrs[] = {2.0, 0.4, 2.0, 2.0}, second_values[] = {1, 220, 0.875, 0};
    static const double second_thresholds[] = {0.5, 40, 0.6, 0}, second_llrs[] = {0.75, 0, 0, 0};
    static const double lengths[] = {0, 0, 0, 4};
    ANSWERED(s->page, page);
    ANSWERED(s->kinds, kinds);
    ANSWERED(s->fact_a, fact_a);
    ANSWERED(s->fact_b, fact_b);
    ANSWERED(s->fact_c, fact_c);
    ANSWERED(s->log_odds, log_odds);
    ANSWERED(s->first_values, first_values);
    ANSWERED(s->first_thresholds, first_thresholds);
    ANSWERED(s->first_llrs, first_llrs);
    ANSWERED(s->second_values, second_values);
    ANSWERED(s->second_thresholds, second_thresholds);
    ANSWERED(s->second_llrs, second_llrs);
    ANSWERED(s->lengths, lengths);
}

static void test_accepted(void) {
    struct store s;
    struct lanegravel_lists l = lend(&s);
    struct lanegravel_detect_answer a = call(&l, DPI, COUNT(pieces), caps());
    CHECK(a.number == 0);
    CHECK(a.rulings == 8 && a.printed == 7 && a.faint == 1);
    CHECK(a.tables == 1 && a.boxes == 3 && a.grids == 1 && a.findings == 4);
    CHECK(a.printed_sets == 2 && a.free == 1 && a.box_sets == 1);
    CHECK(s.levelled[0] == 255 && s.levelled[2 * WIDTH + 1] == 250);
    CHECK(s.levelled[3 * WIDTH + 5] == 40 && s.levelled[38 * WIDTH + 40] == 235);
    test_rulings(&s);
    test_tables_and_boxes(&s);
    test_lists_of_findings(&s);
}

static void test_refused(void) {
    struct store s;
    struct lanegravel_lists l = lend(&s);
    struct lanegravel_fusion_params f = caps();
    is_empty(call(&l, 0, COUNT(pieces), f), 2);
    is_empty(call(&l, DPI, COUNT(pieces) - 1, f), 5);
    f.group_cap = -1.0;
    is_empty(call(&l, DPI, COUNT(pieces), f), 12);
    CHECK(kept(&s, sizeof s));
}

/* What question 14 asks of each list; they lie in their struct one behind the other. */
static const size_t asked[LISTS] = {
    WIDTH * HEIGHT,                                          /* the levelled raster */
    4 * N, N, N, N, N,                                       /* rulings */
    4 * N, N, N, N, N, N,                                    /* tables */
    4 * M, M, M, M,                                          /* boxes */
    N, N, M, N, N, M, N, M,                                  /* sets */
    4 * (N + M), N + M, N + M, N + M, N + M,                 /* findings: facts */
    N + M, N + M, N + M, N + M, N + M, N + M, N + M, N + M,  /* and scores */
    N, N, N, N, N, M, M, M,                                  /* work */
};

static char *count_of(struct lanegravel_lists *l, size_t k) {
    char *list = (char *)l + k * sizeof(struct lanegravel_u32_list);
    return list + offsetof(struct lanegravel_u32_list, count);
}

/* Each list in turn an entry shorter. */
static void test_short(void) {
    size_t k;
    CHECK(sizeof(struct lanegravel_lists) == LISTS * sizeof(struct lanegravel_u32_list));
    for (k = 0; k < LISTS; k++) {
        struct store s;
        struct lanegravel_lists l = lend(&s);
        size_t fewer = asked[k] - 1;
        memcpy(count_of(&l, k), &fewer, sizeof fewer);
        is_empty(call(&l, DPI, COUNT(pieces), caps()), 14);
        CHECK(kept(&s, sizeof s));
    }
}

/* Over memory as the header lays the lists, no larger than it says. */
static void test_laid(void) {
    size_t size = lanegravel_lists_size(N, M, WIDTH, HEIGHT), k;
    void *memory = malloc(size);
    struct lanegravel_lists l = lanegravel_lists_over(memory, N, M, WIDTH, HEIGHT);
    struct lanegravel_detect_answer a = call(&l, DPI, COUNT(pieces), caps());
    CHECK(a.number == LANEGRAVEL_ACCEPTED && a.findings == 4);
    CHECK(l.kinds.entries[0] == LANEGRAVEL_TABLE && l.kinds.entries[1] == LANEGRAVEL_FREE_RULES);
    CHECK(l.kinds.entries[2] == LANEGRAVEL_GRID && l.kinds.entries[3] == LANEGRAVEL_FOLD);
    CHECK(lanegravel_finding_in(&l, a.findings, 0).c == 6);
    CHECK(lanegravel_finding_in(&l, a.findings, 2).second_value == 0.875);
    CHECK(lanegravel_finding_in(&l, a.findings, 3).length == 4);
    CHECK(lanegravel_finding_in(&l, a.findings, 4).found == 0);
    for (k = 0; k < LISTS; k++) {
        CHECK(memcmp(count_of(&l, k), &asked[k], sizeof asked[k]) == 0);
    }
    free(memory);
}

/* A page of one pixel, without pieces and glyph boxes, over lists that are not there. */
static void test_nothing(size_t room, uint32_t number) {
    static const uint8_t gray[] = {77}, ink[] = {1};
    static const int32_t table[] = {0};
    uint8_t raster[] = {PATTERN};
    struct lanegravel_u8_list levelled;
    struct lanegravel_u32_list u[4];
    struct lanegravel_u64_list k[1];
    struct lanegravel_f64_list d[8];
    levelled.entries = raster;
    levelled.count = room;
    memset(u, 0, sizeof u);
    memset(k, 0, sizeof k);
    memset(d, 0, sizeof d);
    is_empty(lanegravel_detect(1, 1, 1, 1, DPI, 4.0, settings(), caps(), gray, 1, ink, 1, table, 1,
                               table, 1, NULL, 0, NULL, 0, &levelled, u, u, d, u, u, u, u, u, u, u,
                               u, u, u, u, d, u, u, u, u, k, k),
             number);
    CHECK(raster[0] == (number == 0 ? 77 : PATTERN));
}

void test_detect(void) {
    test_accepted();
    test_refused();
    test_short();
    test_laid();
    test_nothing(1, 0);
    test_nothing(0, 14);
}
