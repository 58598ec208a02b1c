#include "check.h"

/* Every list of another length, at least one entry for each of seven rulings. */
struct lists {
    uint32_t members[7];
    uint32_t ends[8];
    uint32_t numbers[9];
    uint32_t bounds[30];
    uint32_t rows[10];
    uint32_t columns[11];
    uint32_t rulings[12];
    double shares[13];
    uint32_t free[14];
    uint32_t chosen[15];
    uint32_t parents[16];
    uint32_t work[17];
    uint64_t keys[18];
};

/* Three horizontals, the second too short for the right one of two verticals; between them, at 1 and
 * at 4, two loose horizontals. */
static const uint32_t rects[] = {10, 10, 30, 10, 0, 50, 5,  50, 10, 20, 26, 20, 10, 40,
                                 30, 40, 0,  60, 5, 60, 10, 10, 10, 40, 30, 10, 30, 40};

static struct lanegravel_tables_answer call(struct lists *l, uint32_t last_direction) {
    uint32_t directions[] = {0, 0, 0, 0, 0, 1, 1};
    directions[6] = last_direction;
    memset(l, PATTERN, sizeof *l);
    return lanegravel_tables(
        4.0, settings(), rects, COUNT(rects), directions, COUNT(directions), l->members,
        COUNT(l->members), l->ends, COUNT(l->ends), l->numbers, COUNT(l->numbers), l->bounds,
        COUNT(l->bounds), l->rows, COUNT(l->rows), l->columns, COUNT(l->columns), l->rulings,
        COUNT(l->rulings), l->shares, COUNT(l->shares), l->free, COUNT(l->free), l->chosen,
        COUNT(l->chosen), l->parents, COUNT(l->parents), l->work, COUNT(l->work), l->keys,
        COUNT(l->keys));
}

static void is_answer(struct lanegravel_tables_answer a, uint32_t number, size_t sets,
                      size_t tables, size_t free) {
    CHECK(a.number == number);
    CHECK(a.sets == sets);
    CHECK(a.tables == tables);
    CHECK(a.free == free);
}

static void test_lists(const struct lists *l) {
    static const uint32_t members[] = {0, 2, 3, 5, 6, 1, 4}, ends[] = {5, 6, 7};
    static const uint32_t numbers[] = {0}, bounds[] = {10, 10, 30, 40};
    static const uint32_t rows[] = {2}, columns[] = {1}, rulings[] = {5}, free[] = {1, 4};
    static const double shares[] = {0.9};
    ANSWERED(l->members, members);
    ANSWERED(l->ends, ends);
    ANSWERED(l->numbers, numbers);
    ANSWERED(l->bounds, bounds);
    ANSWERED(l->rows, rows);
    ANSWERED(l->columns, columns);
    ANSWERED(l->rulings, rulings);
    ANSWERED(l->shares, shares);
    ANSWERED(l->free, free);
}

void test_tables(void) {
    struct lists l;
    is_answer(call(&l, 1), 0, 3, 1, 2);
    test_lists(&l);
    is_answer(call(&l, 2), 5, 0, 0, 0);
    CHECK(kept(&l, sizeof l));
    is_answer(lanegravel_tables(4.0, settings(), NULL, 0, NULL, 0, NULL, 0, NULL, 0, NULL, 0, NULL,
                                0, NULL, 0, NULL, 0, NULL, 0, NULL, 0, NULL, 0, NULL, 0, NULL, 0,
                                NULL, 0, NULL, 0),
              0, 0, 0, 0);
}
