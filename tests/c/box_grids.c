#include "check.h"

/* Every list of another length, at least one entry for each of three boxes. */
struct lists {
    uint32_t members[3];
    uint32_t ends[4];
    uint32_t reading[5];
    uint32_t numbers[6];
    uint32_t parents[7];
    uint32_t work[8];
    uint64_t keys[9];
};

/* A box alone, and two in a row, the right one first. */
static struct lanegravel_box_grids_answer call(struct lists *l, uint32_t last) {
    uint32_t rects[] = {40, 40, 49, 49, 20, 0, 29, 9, 0, 0, 9, 9};
    rects[11] = last;
    memset(l, PATTERN, sizeof *l);
    return lanegravel_box_grids(4.0, settings(), rects, COUNT(rects), l->members,
                                COUNT(l->members), l->ends, COUNT(l->ends), l->reading,
                                COUNT(l->reading), l->numbers, COUNT(l->numbers), l->parents,
                                COUNT(l->parents), l->work, COUNT(l->work), l->keys,
                                COUNT(l->keys));
}

static void is_answer(struct lanegravel_box_grids_answer a, uint32_t number, size_t sets,
                      size_t grids) {
    CHECK(a.number == number);
    CHECK(a.sets == sets);
    CHECK(a.grids == grids);
}

void test_box_grids(void) {
    static const uint32_t members[] = {0, 1, 2}, ends[] = {1, 3};
    static const uint32_t reading[] = {0, 2, 1}, numbers[] = {1};
    struct lists l;
    is_answer(call(&l, 9), 0, 2, 1);
    ANSWERED(l.members, members);
    ANSWERED(l.ends, ends);
    ANSWERED(l.reading, reading);
    ANSWERED(l.numbers, numbers);
    is_answer(call(&l, 8192), 6, 0, 0);
    CHECK(kept(&l, sizeof l));
    is_answer(lanegravel_box_grids(4.0, settings(), NULL, 0, NULL, 0, NULL, 0, NULL, 0, NULL, 0,
                                   NULL, 0, NULL, 0, NULL, 0),
              0, 0, 0);
}
