/* How much stack a call of lanegravel_detect takes: it runs in a thread on memory that was painted before,
 * and what was painted over is counted. The page is as large as pages come: 8,192 square, 4,096 pieces in
 * a net of rulings, 16,384 glyph boxes, of which every second one is a box. */
#define _POSIX_C_SOURCE 200809L
#include <pthread.h>
#include <stdio.h>
#include <stdlib.h>
#include <string.h>

#include "lanegravel.h"

enum { SIDE = 8192, PIECES = 4096, GLYPHS = 16384, STACK = 1 << 22, PAINT = 0xa5 };

static struct lanegravel_page page;
static struct lanegravel_lists lists;
static struct lanegravel_detect_answer answer;

static void *nothing(void *unused) {
    return unused;
}

static void *detect(void *unused) {
    answer = lanegravel_detect_into(&page, &lists);
    return unused;
}

static size_t depth(void *(*run)(void *)) {
    unsigned char *stack;
    pthread_attr_t attributes;
    pthread_t thread;
    size_t unused = 0;
    void *memory = NULL;
    if (posix_memalign(&memory, 4096, STACK) != 0) {
        exit(1);
    }
    stack = (unsigned char *)memory;
    memset(stack, PAINT, STACK);
    if (pthread_attr_init(&attributes) != 0 || pthread_attr_setstack(&attributes, stack, STACK) != 0 ||
        pthread_create(&thread, &attributes, run, NULL) != 0 || pthread_join(thread, NULL) != 0) {
        exit(1);
    }
    while (unused < STACK && stack[unused] == PAINT) {
        unused++;
    }
    free(stack);
    return STACK - unused;
}

static struct lanegravel_rulings_params settings(void) {
    struct lanegravel_rulings_params p;
    memset(&p, 0, sizeof p);
    p.merge_gap_xh = 0.125;
    p.rule_min_contrast = -300.0;
    p.join_tol_xh = 0.5;
    p.table_min_horizontal = 1;
    p.table_min_vertical = 1;
    p.min_free_rules = 1;
    p.box_max_xh = 4.0;
    p.box_overshoot_fraction = 0.5;
    p.box_aspect_tol = 0.5;
    p.box_edge_coverage = 0.5;
    p.box_max_inner_ink = 1.0;
    p.box_checked_ink = 0.5;
    p.grid_align_xh = 0.5;
    p.grid_min_boxes = 2;
    return p;
}

static void rect(uint32_t *list, size_t k, uint32_t x0, uint32_t y0, uint32_t x1, uint32_t y1) {
    list[4 * k] = x0;
    list[4 * k + 1] = y0;
    list[4 * k + 2] = x1;
    list[4 * k + 3] = y1;
}

static void *memory_of(size_t size) {
    void *memory = calloc(size, 1);
    if (memory == NULL) {
        exit(1);
    }
    return memory;
}

static void draw(uint8_t *ink, uint32_t *pieces, uint32_t *glyphs) {
    size_t k;
    for (k = 0; k < PIECES / 2; k++) {
        rect(pieces, 2 * k, 0, (uint32_t)(4 * k), SIDE - 1, (uint32_t)(4 * k + 1));
        rect(pieces, 2 * k + 1, (uint32_t)(4 * k), 0, (uint32_t)(4 * k + 1), SIDE - 1);
    }
    for (k = 0; k < GLYPHS; k++) {
        uint32_t x = (uint32_t)(k % 128) * 64, y = (uint32_t)(k / 128) * 64, i;
        rect(glyphs, k, x, y, x + 15, y + 15);
        for (i = 0; k % 2 == 0 && i < 16; i++) {
            ink[(size_t)y * SIDE + x + i] = 1;
            ink[(size_t)(y + 15) * SIDE + x + i] = 1;
            ink[(size_t)(y + i) * SIDE + x] = 1;
            ink[(size_t)(y + i) * SIDE + x + 15] = 1;
        }
    }
}

int main(void) {
    size_t places = (size_t)SIDE * SIDE, base, whole;
    uint8_t *gray = (uint8_t *)memory_of(places), *ink = (uint8_t *)memory_of(places);
    uint32_t *pieces = (uint32_t *)memory_of(4 * PIECES * sizeof(uint32_t));
    uint32_t *glyphs = (uint32_t *)memory_of(4 * GLYPHS * sizeof(uint32_t));
    int32_t *shear = (int32_t *)memory_of(SIDE * sizeof(int32_t));
    draw(ink, pieces, glyphs);
    page.page_width = page.page_height = page.width = page.height = SIDE;
    page.dpi = 300;
    page.xheight = 8.0;
    page.params = settings();
    page.fusion.llr_clip = 4.0;
    page.fusion.group_cap = 8.0;
    page.gray = gray;
    page.ink = ink;
    page.gray_count = page.ink_count = places;
    page.shear = page.shear_x = shear;
    page.shear_count = page.shear_x_count = SIDE;
    page.pieces = pieces;
    page.pieces_count = 4 * PIECES;
    page.glyphs = glyphs;
    page.glyphs_count = 4 * GLYPHS;
    lists = lanegravel_lists_over(memory_of(lanegravel_lists_size(PIECES, GLYPHS, SIDE, SIDE)), PIECES, GLYPHS, SIDE, SIDE);
    base = depth(nothing);
    whole = depth(detect);
    printf("number %u, %zu rulings, %zu tables, %zu boxes, %zu grids, %zu findings\n", (unsigned)answer.number,
           answer.rulings, answer.tables, answer.boxes, answer.grids, answer.findings);
    printf("stack: %zu bytes, beside the %zu of an empty thread\n", whole - base, base);
    return answer.number == 0 ? 0 : 1;
}
