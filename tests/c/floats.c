#include "check.h"

/* To the bit, so that the sign of a zero counts. */
static int same(double a, double b) {
    return memcmp(&a, &b, sizeof a) == 0;
}

void test_floats(void) {
    /* four and five: the ones of the second half are added to each other first */
    static const double values[] = {1e16, 1, 1, 1, 1, 1, 1, 1, 1};
    CHECK(same(lanegravel_pairwise_sum(values, 9), 10000000000000004.0));
    CHECK(same(lanegravel_pairwise_sum(values + 1, 3), 3.0));
    CHECK(same(lanegravel_pairwise_sum(NULL, 0), 0.0));

    CHECK(same(lanegravel_round_output(1234.56789049), 1234.56789));
    CHECK(same(lanegravel_round_output(-0.0000004), 0.0));

    CHECK(lanegravel_rounded_product(3.0, 2.5) == 8);
    CHECK(lanegravel_rounded_product(-1e300, 1e10) == INT64_MIN);

    CHECK(same(lanegravel_round(0.49999999999999994), 0.0));
    CHECK(same(lanegravel_round(-2.5), -3.0));
    CHECK(same(lanegravel_round(-0.25), -0.0));
}
