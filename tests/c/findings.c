#include "check.h"

/* Lists of three findings; every entry differs from its neighbours. */
static const uint32_t rects[] = {11, 12, 13, 14, 21, 22, 23, 24, 31, 32, 33, 34};
static const uint32_t kinds[] = {16, 19, 19};
static const uint32_t a[] = {101, 1, 2};
static const uint32_t b[] = {102, 202, 302};
static const uint32_t c[] = {103, 203, 303};
static const double log_odds[] = {1.5, 2.5, 3.5};
static const double first_values[] = {1.25, 2.25, 3.25};
static const double first_thresholds[] = {1.125, 2.125, 3.125};
static const double first_llrs[] = {-1.5, -2.5, -3.5};
static const double second_values[] = {-1.25, -2.25, -3.25};
static const double second_thresholds[] = {-1.125, -2.125, -3.125};
static const double second_llrs[] = {10.5, 20.5, 30.5};
static const double lengths[] = {10.25, 20.25, 30.25};

/* The lists are lent with so many entries, rects with four times as many. */
static struct lanegravel_finding_at_answer read_lent(const size_t *n, size_t count, size_t i) {
    return lanegravel_finding_at(
        rects, 4 * n[0], kinds, n[1], a, n[2], b, n[3], c, n[4], log_odds, n[5], first_values, n[6],
        first_thresholds, n[7], first_llrs, n[8], second_values, n[9], second_thresholds, n[10],
        second_llrs, n[11], lengths, n[12], count, i);
}

static void test_log_odds(void) {
    static const double llrs[] = {2, 1, -7};
    CHECK(lanegravel_log_odds(0.5, llrs, 2, 4) == 3.5);
    CHECK(lanegravel_log_odds(0.5, llrs, 3, 3) == -2.5);
    CHECK(lanegravel_log_odds(0.5, llrs, 1, 1) == 1.5);
    CHECK(lanegravel_log_odds(0.5, NULL, 0, 4) == 0.5);
}

void test_findings(void) {
    size_t n[] = {3, 3, 3, 3, 3, 3, 3, 3, 3, 3, 3, 3, 3};
    struct lanegravel_finding_at_answer r;
    size_t k;

    test_log_odds();

    r = read_lent(n, 3, 0);
    CHECK(r.found == 1 && r.kind == 16);
    CHECK(r.x0 == 11 && r.y0 == 12 && r.x1 == 13 && r.y1 == 14);
    CHECK(r.a == 101 && r.b == 102 && r.c == 103);
    CHECK(r.log_odds == 1.5);
    CHECK(r.first_value == 1.25 && r.first_threshold == 1.125 && r.first_llr == -1.5);
    CHECK(r.second_value == -1.25 && r.second_threshold == -1.125 && r.second_llr == 10.5);
    CHECK(r.length == 0);

    r = read_lent(n, 3, 1);
    CHECK(r.found == 1 && r.kind == 19);
    CHECK(r.x0 == 21 && r.y0 == 22 && r.x1 == 23 && r.y1 == 24);
    CHECK(r.a == 1 && r.b == 0 && r.c == 0);
    CHECK(r.log_odds == 2.5);
    CHECK(r.first_value == 2.25 && r.first_threshold == 2.125 && r.first_llr == -2.5);
    CHECK(r.second_value == 0 && r.second_threshold == 0 && r.second_llr == 0);
    CHECK(r.length == 20.25);

    /* a direction that no fold has, and places past the count */
    r = read_lent(n, 3, 2);
    CHECK(r.found == 0 && r.kind == 0 && r.y1 == 0 && r.log_odds == 0 && r.length == 0);
    CHECK(read_lent(n, 1, 1).found == 0);
    CHECK(read_lent(n, 3, SIZE_MAX).found == 0);

    /* any one list that ends before the place */
    for (k = 0; k < COUNT(n); k++) {
        n[k] = 1;
        CHECK(read_lent(n, 3, 0).found == 1);
        CHECK(read_lent(n, 3, 1).found == 0);
        n[k] = 3;
    }
    r = lanegravel_finding_at(NULL, 0, NULL, 0, NULL, 0, NULL, 0, NULL, 0, NULL, 0, NULL, 0, NULL, 0, NULL,
                              0, NULL, 0, NULL, 0, NULL, 0, NULL, 0, 1, 0);
    CHECK(r.found == 0);
}
