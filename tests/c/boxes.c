#include "check.h"

enum { WIDTH = 20, HEIGHT = 16 };

/* Every list of another length, at least one entry for each of three glyph boxes. */
struct lists {
    uint32_t rects[14];
    uint32_t marks[3];
    double coverages[4];
};

/* One that is too small, and two squares of eight. */
static const uint32_t glyphs[] = {0, 0, 3, 3, 2, 3, 9, 10, 11, 4, 18, 11};

static void frame(uint8_t *ink, int x, int y) {
    int i;
    for (i = 0; i < 8; i++) {
        ink[y * WIDTH + x + i] = 1;
        ink[(y + 7) * WIDTH + x + i] = 1;
        ink[(y + i) * WIDTH + x] = 1;
        ink[(y + i) * WIDTH + x + 7] = 1;
    }
}

/* The second square has a break in its left edge, and a mark of four pixels inside. */
static void draw(uint8_t *ink) {
    memset(ink, 0, WIDTH * HEIGHT);
    frame(ink, 2, 3);
    frame(ink, 11, 4);
    ink[5 * WIDTH + 11] = 0;
    ink[7 * WIDTH + 14] = ink[7 * WIDTH + 15] = 1;
    ink[8 * WIDTH + 14] = ink[8 * WIDTH + 15] = 1;
}

static struct lanegravel_boxes_answer call(struct lists *l, uint16_t dpi, size_t room) {
    uint8_t ink[WIDTH * HEIGHT];
    draw(ink);
    memset(l, PATTERN, sizeof *l);
    return lanegravel_boxes(WIDTH, HEIGHT, dpi, 4.0, ink, COUNT(ink), glyphs, COUNT(glyphs),
                            settings(), l->rects, COUNT(l->rects), l->marks, room, l->coverages,
                            COUNT(l->coverages));
}

static void refused(uint16_t dpi, size_t room, uint32_t number) {
    struct lists l;
    struct lanegravel_boxes_answer a = call(&l, dpi, room);
    CHECK(a.number == number);
    CHECK(a.count == 0);
    CHECK(kept(&l, sizeof l));
}

static void test_no_glyphs(const uint8_t *ink, size_t ink_count, uint32_t number) {
    struct lanegravel_boxes_answer a = lanegravel_boxes(
        WIDTH, HEIGHT, 10, 4.0, ink, ink_count, NULL, 0, settings(), NULL, 0, NULL, 0, NULL, 0);
    CHECK(a.number == number);
    CHECK(a.count == 0);
}

void test_boxes(void) {
    static const uint32_t rects[] = {2, 3, 9, 10, 11, 4, 18, 11}, marks[] = {0, 1};
    static const double coverages[] = {1.0, 0.75};
    uint8_t ink[WIDTH * HEIGHT];
    struct lists l;
    struct lanegravel_boxes_answer a = call(&l, 10, 3);
    CHECK(a.number == 0);
    CHECK(a.count == 2);
    ANSWERED(l.rects, rects);
    ANSWERED(l.marks, marks);
    ANSWERED(l.coverages, coverages);
    refused(0, 3, 2);
    refused(10, 2, 14);
    draw(ink);
    test_no_glyphs(ink, COUNT(ink), 0);
    test_no_glyphs(NULL, 0, 3);
}
