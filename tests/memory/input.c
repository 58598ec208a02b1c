/* Random small inputs: pages with rules and frames, most of them accepted. */
#include "memory.h"

#include <string.h>

static uint64_t state;

void start_random(uint64_t seed) { state = seed; }

uint64_t bits(void) {
    uint64_t z = state += 0x9e3779b97f4a7c15;
    z = (z ^ (z >> 30)) * 0xbf58476d1ce4e5b9;
    z = (z ^ (z >> 27)) * 0x94d049bb133111eb;
    return z ^ (z >> 31);
}

uint64_t below(uint64_t n) { return bits() % n; }

static uint32_t upto(size_t most) { return (uint32_t)below(most + 1); }

static void swap_if_less(uint32_t *low, uint32_t *high) {
    if (*high < *low) {
        uint32_t t = *low;
        *low = *high;
        *high = t;
    }
}

/* A rectangle in the picture: thin either way, a near square, or any. */
static void rectangle(const struct input *in, uint32_t *r) {
    size_t right = in->width - 1, bottom = in->height - 1;
    r[0] = upto(right), r[1] = upto(bottom), r[2] = upto(right), r[3] = upto(bottom);
    swap_if_less(&r[0], &r[2]);
    swap_if_less(&r[1], &r[3]);
    switch (below(4)) {
    case 0:
        r[3] = r[1];
        break;
    case 1:
        r[2] = r[0];
        break;
    case 2:
        if (r[0] + (r[3] - r[1]) <= right) {
            r[2] = r[0] + (r[3] - r[1]);
        }
        break;
    default:
        break;
    }
}

/* A byte along the rim of each rectangle, or all over it. */
static void paint(uint8_t *raster, size_t width, const uint32_t *r, int rim, uint8_t byte) {
    uint32_t x, y;
    for (y = r[1]; y <= r[3]; y++) {
        for (x = r[0]; x <= r[2]; x++) {
            if (!rim || x == r[0] || x == r[2] || y == r[1] || y == r[3]) {
                raster[y * width + x] = byte;
            }
        }
    }
}

static void draw_sides(struct input *in) {
    size_t k, down = below(5), across = below(5);
    in->page_width = 1 + below(MOST_SIDE - across);
    in->page_height = 1 + below(MOST_SIDE - down);
    in->width = in->page_width + across;
    in->height = in->page_height + down;
    for (k = 0; k < in->page_width; k++) {
        in->shear[k] = (int32_t)upto(down);
    }
    for (k = 0; k < in->height; k++) {
        in->shear_x[k] = (int32_t)upto(across);
    }
    in->shear_count = in->page_width;
    in->shear_x_count = in->height;
    in->gray_count = in->page_width * in->page_height;
    in->ink_count = in->width * in->height;
}

static void draw_rectangles(struct input *in) {
    size_t k, pieces = below(MOST_RECTS + 1), glyphs = below(MOST_RECTS + 1);
    static const uint8_t bytes[] = {1, 1, 255, 0};
    memset(in->gray, 250, sizeof in->gray);
    memset(in->ink, 0, sizeof in->ink);
    for (k = 0; k < in->gray_count; k++) {
        if (below(3) == 0) {
            in->gray[k] = (uint8_t)bits();
        }
    }
    for (k = 0; k < pieces; k++) {
        rectangle(in, in->pieces + 4 * k);
        in->directions[k] = (uint32_t)below(2);
    }
    for (k = 0; k < glyphs; k++) {
        rectangle(in, in->glyphs + 4 * k);
        paint(in->ink, in->width, in->glyphs + 4 * k, below(4) != 0, bytes[below(4)]);
    }
    in->pieces_count = 4 * pieces;
    in->directions_count = pieces;
    in->glyphs_count = 4 * glyphs;
}

static void draw_values(struct input *in) {
    size_t k;
    in->values_count = below(MOST_VALUES + 1);
    for (k = 0; k < MOST_VALUES; k++) {
        uint64_t any = bits();
        if (below(2)) {
            memcpy(&in->values[k], &any, sizeof any);
        } else {
            in->values[k] = (double)below(1000) / 8 - 60;
        }
        in->wholes[k] = (uint32_t)below(below(2) ? 8 : 30);
    }
    in->ends_count = below(MOST_VALUES + 1);
    in->place = below(16) ? below(8) : (size_t)bits();
    in->set = below(16) ? below(6) : (size_t)bits();
}

void draw(struct input *in) {
    static const double xheights[] = {0.25, 1, 1, 4, 10, 4096}, bounds[] = {0, 0.5, 4, 1e6};
    static const uint16_t dpis[] = {1, 10, 100, 65535};
    size_t k;
    memset(in, 0, sizeof *in);
    draw_sides(in);
    draw_rectangles(in);
    draw_values(in);
    in->dpi = dpis[below(4)];
    in->xheight = xheights[below(6)];
    in->p = settings();
    in->f.llr_clip = bounds[below(4)];
    in->f.group_cap = bounds[below(4)];
    for (k = 0; k < LISTS; k++) {
        in->room[k] = below(3);
    }
    in->short_list = below(20) ? LISTS : below(LISTS);
}

/* One count less or more, a side or an entry of any size, other settings. */
void spoil(struct input *in) {
    size_t *const sides[] = {&in->page_width, &in->page_height, &in->width, &in->height};
    size_t *const lengths[] = {&in->gray_count,    &in->ink_count,        &in->shear_count,
                               &in->shear_x_count, &in->pieces_count,     &in->glyphs_count,
                               &in->directions_count};
    size_t *side = sides[below(4)], *length = lengths[below(7)];
    uint64_t any = bits();
    switch (below(9)) {
    case 0:
        *side = below(2) ? (size_t)any : *side + 1;
        break;
    case 1:
        *length -= *length != 0;
        break;
    case 2:
        in->dpi = 0;
        break;
    case 3:
        memcpy(&in->xheight, &any, sizeof any);
        break;
    case 4:
        in->shear[below(MOST_SIDE)] = (int32_t)any;
        break;
    case 5:
        in->shear_x[below(MOST_SIDE)] = (int32_t)any;
        break;
    case 6:
        (below(2) ? in->pieces : in->glyphs)[below(4 * MOST_RECTS)] = (uint32_t)any;
        break;
    case 7:
        memcpy(below(2) ? &in->f.llr_clip : &in->f.group_cap, &any, sizeof any);
        break;
    default:
        spoil_settings(&in->p);
    }
}
