/* Reads one page through include/lanegravel.h and prints its findings. The page is drawn here, in place of
 * the scanner and of what finds rule pieces and glyph boxes: a table with broken rules, a loose rule, four
 * answer boxes with one ticked, and a fold, scanned a little askew.
 *
 *   gcc -std=c99 -I include examples/detect.c crates/lanegravel/out/liblanegravel.a -o detect && ./detect
 *
 * It is C++ as well as C. */
#include <stdio.h>
#include <stdlib.h>
#include <string.h>

#include "lanegravel.h"

enum { PAGE_WIDTH = 300, PAGE_HEIGHT = 200, DPI = 100 };
/* The levelled picture has room for the three rows and two columns that the page is askew. */
enum { WIDTH = PAGE_WIDTH + 2, HEIGHT = PAGE_HEIGHT + 3 };
enum { MOST_PIECES = 32, MOST_GLYPHS = 8 };

struct form {
    uint8_t picture[WIDTH * HEIGHT]; /* levelled, to draw on */
    uint8_t gray[PAGE_WIDTH * PAGE_HEIGHT];
    uint8_t ink[WIDTH * HEIGHT];
    int32_t shear[PAGE_WIDTH], shear_x[HEIGHT];
    uint32_t pieces[LANEGRAVEL_NUMBERS(MOST_PIECES)], glyphs[LANEGRAVEL_NUMBERS(MOST_GLYPHS)];
    size_t pieces_count, glyphs_count; /* of numbers, four a rectangle */
};

static void fill(struct form *f, uint32_t x0, uint32_t y0, uint32_t x1, uint32_t y1, uint8_t grey) {
    uint32_t y;
    for (y = y0; y <= y1; y++) {
        memset(f->picture + y * WIDTH + x0, grey, x1 - x0 + 1);
    }
}

static void add(uint32_t *list, size_t *count, uint32_t x0, uint32_t y0, uint32_t x1, uint32_t y1) {
    list[(*count)++] = x0;
    list[(*count)++] = y0;
    list[(*count)++] = x1;
    list[(*count)++] = y1;
}

static void rule(struct form *f, uint32_t x0, uint32_t y0, uint32_t x1, uint32_t y1, uint8_t grey) {
    fill(f, x0, y0, x1, y1, grey);
    add(f->pieces, &f->pieces_count, x0, y0, x1, y1);
}

/* A frame of 14 by 14, two pixels thick. */
static void box(struct form *f, uint32_t x, uint32_t y, int ticked) {
    fill(f, x, y, x + 13, y + 13, 40);
    fill(f, x + 2, y + 2, x + 11, y + 11, 240);
    if (ticked) {
        fill(f, x + 4, y + 6, x + 9, y + 8, 40);
    }
    add(f->glyphs, &f->glyphs_count, x, y, x + 13, y + 13);
}

static void draw(struct form *f) {
    uint32_t k;
    memset(f, 0, sizeof *f);
    memset(f->picture, 240, sizeof f->picture);
    for (k = 0; k < 4; k++) { /* four rules across, each in two pieces */
        rule(f, 20, 20 + 20 * k, 70, 21 + 20 * k, 60);
        rule(f, 74, 20 + 20 * k, 200, 21 + 20 * k, 60);
    }
    for (k = 0; k < 3; k++) {
        rule(f, 20 + 90 * k, 20, 21 + 90 * k, 81, 60);
    }
    rule(f, 20, 110, 150, 111, 80);
    rule(f, 2, 170, WIDTH - 3, 170, 225); /* so faint that it is a fold */
    for (k = 0; k < 4; k++) {
        box(f, 20 + 30 * k, 130, k == 1);
    }
}

/* The page as the scanner gives it, with the tables that level it, and the ink of the levelled picture. */
static void scan(struct form *f) {
    size_t x, y;
    for (x = 0; x < PAGE_WIDTH; x++) {
        f->shear[x] = (int32_t)(x / 75);
    }
    for (y = 0; y < HEIGHT; y++) {
        f->shear_x[y] = 2 - (int32_t)(y / 75);
    }
    for (y = 0; y < PAGE_HEIGHT; y++) {
        for (x = 0; x < PAGE_WIDTH; x++) {
            size_t row = y + (size_t)f->shear[x];
            f->gray[y * PAGE_WIDTH + x] = f->picture[row * WIDTH + x + (size_t)f->shear_x[row]];
        }
    }
    for (x = 0; x < sizeof f->ink; x++) {
        f->ink[x] = f->picture[x] < 128;
    }
}

/* No setting has a default: each page says what it is read by. */
static struct lanegravel_rulings_params settings(void) {
    struct lanegravel_rulings_params p;
    p.merge_across_xh = 0.25; /* pieces of one ruling */
    p.merge_gap_xh = 0.5;
    p.rule_min_contrast = 40.0; /* printed from here on, else faint */
    p.fold_min_length_in = 2.0;
    p.join_tol_xh = 0.5; /* tables */
    p.table_min_horizontal = 2;
    p.table_min_vertical = 2;
    p.line_cluster_xh = 0.5;
    p.table_prior = -1.0;
    p.table_cells_coef = 0.5;
    p.table_cells_cap = 6.0;
    p.table_junction_coef = 2.0;
    p.min_free_rules = 1; /* free rules */
    p.free_rules_prior = -1.0;
    p.free_rules_coef = 0.5;
    p.free_rules_cap = 4.0;
    p.box_min_xh = 0.8; /* boxes */
    p.box_min_in = 0.05;
    p.box_max_xh = 3.0;
    p.box_overshoot_fraction = 0.2;
    p.box_aspect_tol = 0.3;
    p.box_tolerance_px = 1;
    p.box_edge_coverage = 0.7;
    p.box_max_inner_ink = 0.6;
    p.box_checked_ink = 0.05;
    p.grid_align_xh = 0.25; /* grids */
    p.grid_min_boxes = 3;
    p.grid_prior = -1.0;
    p.grid_coef = 0.5;
    p.grid_cap = 6.0;
    return p;
}

static struct lanegravel_page given(const struct form *f) {
    struct lanegravel_page page;
    page.page_width = PAGE_WIDTH;
    page.page_height = PAGE_HEIGHT;
    page.width = WIDTH;
    page.height = HEIGHT;
    page.dpi = DPI;
    page.xheight = 8.0;
    page.params = settings();
    page.fusion.llr_clip = 4.0;
    page.fusion.group_cap = 6.0;
    page.gray = f->gray;
    page.gray_count = sizeof f->gray;
    page.ink = f->ink;
    page.ink_count = sizeof f->ink;
    page.shear = f->shear;
    page.shear_count = PAGE_WIDTH;
    page.shear_x = f->shear_x;
    page.shear_x_count = HEIGHT;
    page.pieces = f->pieces;
    page.pieces_count = f->pieces_count;
    page.glyphs = f->glyphs;
    page.glyphs_count = f->glyphs_count;
    return page;
}

static void print(struct lanegravel_finding_at_answer f) {
    printf("%u,%u to %u,%u: ", f.x0, f.y0, f.x1, f.y1);
    switch (f.kind) {
    case LANEGRAVEL_TABLE:
        printf("table, %u rows, %u columns, %u rulings, joined share %.2f", f.a, f.b, f.c,
               f.second_value);
        break;
    case LANEGRAVEL_FREE_RULES:
        printf("free rules, %u horizontal, %u vertical, the longest %u pixels, mean contrast %.1f", f.a,
               f.b, f.c, f.second_value);
        break;
    case LANEGRAVEL_GRID:
        printf("grid, %u boxes, %u ticked, mean edge coverage %.2f", f.a, f.b, f.second_value);
        break;
    default:
        printf("fold, %s, %.2f inches", f.a == 0 ? "horizontal" : "vertical", f.length);
    }
    printf(", log odds %.2f\n", f.log_odds);
}

/* Prints what was found, or which question was missed. */
static int report(const struct lanegravel_lists *lists, struct lanegravel_detect_answer answer) {
    size_t i;
    if (answer.number != LANEGRAVEL_ACCEPTED) {
        fprintf(stderr, "the page misses question %u\n", answer.number);
        return EXIT_FAILURE;
    }
    for (i = 0; i < answer.findings; i++) {
        print(lanegravel_finding_in(lists, answer.findings, i));
    }
    return EXIT_SUCCESS;
}

int main(void) {
    static struct form form;
    struct lanegravel_page page;
    struct lanegravel_lists lists;
    size_t pieces, glyphs, bytes;
    void *memory;
    int status;
    draw(&form);
    scan(&form);
    page = given(&form);
    pieces = page.pieces_count / 4;
    glyphs = page.glyphs_count / 4;
    bytes = lanegravel_lists_size(pieces, glyphs, page.width, page.height);
    memory = malloc(bytes);
    if (memory == NULL) {
        fputs("no memory\n", stderr);
        return EXIT_FAILURE;
    }
    printf("%u pieces, %u glyph boxes, %lu bytes lent\n", (unsigned)pieces, (unsigned)glyphs,
           (unsigned long)bytes);
    lists = lanegravel_lists_over(memory, pieces, glyphs, page.width, page.height);
    status = report(&lists, lanegravel_detect_into(&page, &lists));
    free(memory);
    return status;
}
