#include "check.h"

static void check_empty(struct lanegravel_members_of_answer a) {
    CHECK(a.start == 0);
    CHECK(a.count == 0);
}

void test_members_of(void) {
    static const uint32_t members[] = {10, 11, 12, 13, 14, 15, 16};
    static const uint32_t ends[] = {2, 5, 7};
    struct lanegravel_members_of_answer a = lanegravel_members_of(members, 7, ends, 3, 3, 1);
    CHECK(a.start == 2);
    CHECK(a.count == 3);
    check_empty(lanegravel_members_of(members, 7, ends, 3, 3, 3));
    check_empty(lanegravel_members_of(members, 6, ends, 3, 3, 2));
    check_empty(lanegravel_members_of(members, 7, ends, 2, 3, 2));
    check_empty(lanegravel_members_of(NULL, 0, NULL, 0, 1, 0));
}
