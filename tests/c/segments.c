#include "check.h"

enum { WIDTH = 12, HEIGHT = 9 };

/* Every list of another length, at least one entry for each of three pieces. */
struct lists {
    uint32_t rects[14];
    uint32_t directions[3];
    double contrasts[4];
    uint32_t members[5];
    uint32_t ends[6];
    uint32_t parents[7];
    uint32_t listed[8];
    uint32_t listed_ends[9];
    uint32_t work[10];
    uint64_t keys[11];
};

/* Two horizontals that touch, centres one row apart, a gap of two columns; and a vertical that begins
 * above them. */
static const uint32_t pieces[] = {1, 4, 3, 4, 6, 5, 8, 5, 10, 1, 10, 7};

static void draw(uint8_t *raster) {
    int x, y;
    memset(raster, 200, WIDTH * HEIGHT);
    for (y = 1; y <= 7; y++) {
        raster[y * WIDTH + 10] = 50;
    }
    for (x = 1; x <= 3; x++) {
        raster[4 * WIDTH + x] = 30;
        raster[5 * WIDTH + x + 5] = 30;
    }
}

static struct lanegravel_segments_answer call(struct lists *l, double xheight, size_t room) {
    uint8_t raster[WIDTH * HEIGHT];
    draw(raster);
    memset(l, PATTERN, sizeof *l);
    return lanegravel_segments(
        raster, COUNT(raster), WIDTH, HEIGHT, xheight, pieces, COUNT(pieces), settings(),
        l->rects, COUNT(l->rects), l->directions, room, l->contrasts, COUNT(l->contrasts),
        l->members, COUNT(l->members), l->ends, COUNT(l->ends), l->parents, COUNT(l->parents),
        l->listed, COUNT(l->listed), l->listed_ends, COUNT(l->listed_ends), l->work,
        COUNT(l->work), l->keys, COUNT(l->keys));
}

static void refused(double xheight, size_t room, uint32_t number) {
    struct lists l;
    struct lanegravel_segments_answer a = call(&l, xheight, room);
    CHECK(a.number == number);
    CHECK(a.count == 0);
    CHECK(kept(&l, sizeof l));
}

static void test_no_pieces(const uint8_t *raster, size_t raster_count, uint32_t number) {
    struct lanegravel_segments_answer a = lanegravel_segments(
        raster, raster_count, WIDTH, HEIGHT, 4.0, NULL, 0, settings(), NULL, 0, NULL, 0, NULL, 0,
        NULL, 0, NULL, 0, NULL, 0, NULL, 0, NULL, 0, NULL, 0, NULL, 0);
    CHECK(a.number == number);
    CHECK(a.count == 0);
}

void test_segments(void) {
    static const uint32_t rects[] = {10, 1, 10, 7, 1, 4, 8, 5};
    static const uint32_t directions[] = {1, 0}, members[] = {2, 0, 1}, ends[] = {1, 3};
    static const double contrasts[] = {150.0, 127.5};
    uint8_t raster[WIDTH * HEIGHT];
    struct lists l;
    struct lanegravel_segments_answer a = call(&l, 4.0, 3);
    CHECK(a.number == 0);
    CHECK(a.count == 2);
    ANSWERED(l.rects, rects);
    ANSWERED(l.directions, directions);
    ANSWERED(l.contrasts, contrasts);
    ANSWERED(l.members, members);
    ANSWERED(l.ends, ends);
    refused(0.0, 3, 2);
    refused(4.0, 2, 14);
    draw(raster);
    test_no_pieces(raster, COUNT(raster), 0);
    test_no_pieces(NULL, 0, 14);
}
