#include "check.h"

/* A page of 2 by 3 in a picture of 4 by 5. */
static const uint8_t gray[] = {10, 11, 20, 21, 30, 31};
static const int32_t shear[] = {0, 2};
static const int32_t shear_x[] = {0, 1, 2, 1, 0};

static const int32_t too_far[] = {0, 3};
static const uint8_t levelled[] = {10,  255, 255, 255, 255, 20,  255, 255, 255, 255,
                                   30,  11,  255, 255, 21,  255, 255, 31,  255, 255};

static void test_level_gray(void) {
    uint8_t out[20];
    memset(out, PATTERN, sizeof out);
    CHECK(lanegravel_level_gray(2, 3, 4, 5, gray, 6, too_far, 2, shear_x, 5, out, 20) == 4);
    CHECK(lanegravel_level_gray(2, 3, 4, 5, gray, 6, shear, 2, shear_x, 5, out, 19) == 14);
    CHECK(lanegravel_level_gray(2, 3, 4, 5, NULL, 0, NULL, 0, NULL, 0, NULL, 0) == 3);
    CHECK(kept(out, sizeof out));
    CHECK(lanegravel_level_gray(2, 3, 4, 5, gray, 6, shear, 2, shear_x, 5, out, 20) == 0);
    ANSWERED(out, levelled);
}

static void test_unlevel(void) {
    uint8_t out[6], archived[20];
    memset(out, PATTERN, sizeof out);
    CHECK(lanegravel_unlevel(0, 3, 4, 5, levelled, 20, shear, 2, shear_x, 5, out, 6) == 1);
    CHECK(lanegravel_unlevel(2, 3, 4, 5, levelled, 19, shear, 2, shear_x, 5, out, 5) == 3);
    CHECK(lanegravel_unlevel(2, 3, 4, 5, levelled, 20, too_far, 2, shear_x, 5, out, 6) == 4);
    CHECK(lanegravel_unlevel(2, 3, 4, 5, levelled, 19, shear, 2, shear_x, 5, out, 6) == 14);
    CHECK(lanegravel_unlevel(2, 3, 4, 5, NULL, 0, NULL, 0, NULL, 0, NULL, 0) == 3);
    CHECK(kept(out, sizeof out));
    CHECK(lanegravel_unlevel(2, 3, 4, 5, levelled, 20, shear, 2, shear_x, 5, out, 6) == 0);
    ANSWERED(out, gray);
    /* What stands in the padding is of no account. */
    memcpy(archived, levelled, sizeof archived);
    archived[1] = 7;
    memset(out, PATTERN, sizeof out);
    CHECK(lanegravel_unlevel(2, 3, 4, 5, archived, 20, shear, 2, shear_x, 5, out, 6) == 0);
    ANSWERED(out, gray);
}

static void to_page(uint32_t x, uint32_t y, uint32_t number, int64_t page_x, int64_t page_y) {
    struct lanegravel_to_page_answer a =
        lanegravel_to_page(2, 3, 4, 5, shear, 2, shear_x, 5, x, y);
    CHECK(a.number == number);
    CHECK(a.x == page_x);
    CHECK(a.y == page_y);
}

static void test_to_page(void) {
    to_page(3, 2, 0, 1, 0);
    to_page(2, 3, 0, 1, 1);
    to_page(0, 2, 0, -2, 2); /* in the padding */
    to_page(2, 5, 6, 0, 0);
    CHECK(lanegravel_to_page(2, 3, 4, 5, NULL, 0, NULL, 0, 3, 2).number == 3);
}

/* A page of 6 by 7 in a picture of 9 by 11, moved right by 2 and down by 1. */
static void rect_to_page(const uint32_t rect[4], uint32_t number, const uint32_t page[4]) {
    static const int32_t down[] = {1, 1, 1, 1, 1, 1};
    static const int32_t right[] = {2, 2, 2, 2, 2, 2, 2, 2, 2, 2, 2};
    struct lanegravel_rect_to_page_answer a = lanegravel_rect_to_page(
        6, 7, 9, 11, down, 6, right, 11, rect[0], rect[1], rect[2], rect[3]);
    CHECK(a.number == number);
    CHECK(a.x0 == page[0]);
    CHECK(a.y0 == page[1]);
    CHECK(a.x1 == page[2]);
    CHECK(a.y1 == page[3]);
}

static void test_rect_to_page(void) {
    static const uint32_t inside[] = {2, 3, 5, 6}, on_page[] = {0, 2, 3, 5};
    static const uint32_t clamped[] = {0, 3, 8, 10}, in_page[] = {0, 2, 5, 6};
    static const uint32_t unordered[] = {5, 3, 2, 6}, none[] = {0, 0, 0, 0};
    rect_to_page(inside, 0, on_page);
    rect_to_page(clamped, 0, in_page);
    rect_to_page(unordered, 6, none);
    CHECK(lanegravel_rect_to_page(6, 7, 9, 11, NULL, 0, NULL, 0, 2, 3, 5, 6).number == 3);
}

void test_levelling(void) {
    test_level_gray();
    test_unlevel();
    test_to_page();
    test_rect_to_page();
}
