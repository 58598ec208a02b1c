/* Calls every function of include/lanegravel.h, as C99 and as C++ (run compiles it both ways), with
 * arguments whose order shows in the answer. */
#include "check.h"

#include <stdio.h>

static int checks, failures;

void check(int holds, const char *condition, const char *file, int line) {
    checks++;
    if (!holds) {
        failures++;
        fprintf(stderr, "%s:%d: not so: %s\n", file, line, condition);
    }
}

int kept(const void *lists, size_t bytes) {
    const unsigned char *at = (const unsigned char *)lists;
    size_t i;
    for (i = 0; i < bytes; i++) {
        if (at[i] != PATTERN) {
            return 0;
        }
    }
    return 1;
}

int answered(const void *list, size_t list_bytes, const void *answer, size_t answer_bytes) {
    const unsigned char *at = (const unsigned char *)list;
    return memcmp(list, answer, answer_bytes) == 0 &&
           kept(at + answer_bytes, list_bytes - answer_bytes);
}

int main(void) {
    test_floats();
    test_settings();
    test_levelling();
    test_members_of();
    test_segments();
    test_tables();
    test_boxes();
    test_box_grids();
    test_findings();
    test_detect();
    test_lists_of_a_page();
    printf("%d checks, %d failed\n", checks, failures);
    return failures != 0;
}
