#include "check.h"

#include <stdio.h>
#include <stdlib.h>

enum { N = 5, M = 3, WIDTH = 7, HEIGHT = 6 };

/* A list as bytes: where it begins, where it ends, and how wide an entry is. */
struct part {
    const unsigned char *from, *to;
    size_t width;
};

#define PART(list) \
    (p->from = (const unsigned char *)l->list.entries, p->width = sizeof *l->list.entries, \
     p->to = p->from + l->list.count * p->width, p++)

static size_t parts(const struct lanegravel_lists *l, struct part *first) {
    struct part *p = first;
    PART(levelled), PART(rects), PART(directions), PART(contrasts), PART(printed), PART(faint);
    PART(bounds), PART(rows), PART(columns), PART(rulings), PART(shares), PART(free), PART(boxes);
    PART(marks), PART(coverages), PART(reading), PART(piece_members), PART(printed_members);
    PART(box_members), PART(piece_ends), PART(printed_ends), PART(box_ends), PART(table_numbers);
    PART(grid_numbers), PART(page), PART(kinds), PART(fact_a), PART(fact_b), PART(fact_c);
    PART(log_odds), PART(first_values), PART(first_thresholds), PART(first_llrs);
    PART(second_values), PART(second_thresholds), PART(second_llrs), PART(lengths), PART(parents);
    PART(listed), PART(listed_ends), PART(order), PART(keys), PART(box_parents), PART(box_order);
    PART(box_keys);
    return (size_t)(p - first);
}

/* The lists fill the memory to its last byte, each aligned, and no two overlap. */
static void test_laid(size_t pieces, size_t glyphs, size_t width, size_t height) {
    size_t size = lanegravel_lists_size(pieces, glyphs, width, height), bytes = 0, i, k, count;
    unsigned char *memory = (unsigned char *)malloc(size);
    struct lanegravel_lists l = lanegravel_lists_over(memory, pieces, glyphs, width, height);
    struct part all[LISTS];
    count = parts(&l, all);
    CHECK(count == LISTS);
    for (i = 0; i < count; i++) {
        CHECK(all[i].from >= memory && all[i].to <= memory + size);
        CHECK((size_t)(all[i].from - memory) % all[i].width == 0);
        bytes += (size_t)(all[i].to - all[i].from);
        for (k = 0; k < i; k++) {
            CHECK(all[k].to <= all[i].from || all[i].to <= all[k].from);
        }
    }
    CHECK(bytes == size);
    free(memory);
}

/* What no accepted page has counts as the most that one has. */
static void test_limits(void) {
    size_t most = lanegravel_lists_size(LANEGRAVEL_MOST_PIECES, LANEGRAVEL_MOST_GLYPHS,
                                        LANEGRAVEL_LONGEST_SIDE, LANEGRAVEL_LONGEST_SIDE);
    size_t past = (size_t)-1;
    CHECK(lanegravel_lists_size(past, past, past, past) == most);
    CHECK(lanegravel_lists_size(N, M, WIDTH, HEIGHT) < most);
    CHECK(lanegravel_lists_size(0, 0, 0, HEIGHT) == 0);
    CHECK(LANEGRAVEL_NUMBERS(N) == 20);
}

static void test_version(void) {
    char version[32];
    sprintf(version, "%d.%d.%d", LANEGRAVEL_VERSION_MAJOR, LANEGRAVEL_VERSION_MINOR,
            LANEGRAVEL_VERSION_PATCH);
    CHECK(strcmp(version, LANEGRAVEL_VERSION) == 0);
}

static uint32_t pieces_missed(size_t pieces) {
    static uint32_t rects[LANEGRAVEL_NUMBERS(LANEGRAVEL_MOST_PIECES + 1)];
    return lanegravel_segments(NULL, 0, 1, 1, 1.0, rects, LANEGRAVEL_NUMBERS(pieces), settings(), NULL, 0,
                               NULL, 0, NULL, 0, NULL, 0, NULL, 0, NULL, 0, NULL, 0, NULL, 0, NULL, 0,
                               NULL, 0)
        .number;
}

static uint32_t boxes_missed(size_t boxes) {
    static uint32_t rects[LANEGRAVEL_NUMBERS(LANEGRAVEL_MOST_GLYPHS + 1)];
    return lanegravel_box_grids(1.0, settings(), rects, LANEGRAVEL_NUMBERS(boxes), NULL, 0, NULL, 0,
                                NULL, 0, NULL, 0, NULL, 0, NULL, 0, NULL, 0)
        .number;
}

static uint32_t side_missed(size_t side) {
    return lanegravel_level_gray(1, 1, side, 1, NULL, 0, NULL, 0, NULL, 0, NULL, 0);
}

/* The library's limits are the header's. */
static void test_library_limits(void) {
    CHECK(pieces_missed(LANEGRAVEL_MOST_PIECES) == LANEGRAVEL_QUESTION_ROOM);
    CHECK(pieces_missed(LANEGRAVEL_MOST_PIECES + 1) == LANEGRAVEL_QUESTION_COUNTS);
    CHECK(boxes_missed(LANEGRAVEL_MOST_GLYPHS) == LANEGRAVEL_QUESTION_ROOM);
    CHECK(boxes_missed(LANEGRAVEL_MOST_GLYPHS + 1) == LANEGRAVEL_QUESTION_COUNTS);
    CHECK(side_missed(LANEGRAVEL_LONGEST_SIDE) == LANEGRAVEL_QUESTION_LENGTHS);
    CHECK(side_missed(LANEGRAVEL_LONGEST_SIDE + 1) == LANEGRAVEL_QUESTION_SIDES);
}

void test_lists_of_a_page(void) {
    test_laid(N, M, WIDTH, HEIGHT);
    test_laid(0, M, WIDTH, HEIGHT);
    test_laid(N, 0, WIDTH, HEIGHT);
    test_laid(4 * N + 1, 2 * M, 1, 1);
    test_limits();
    test_version();
    test_library_limits();
}
