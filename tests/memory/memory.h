/* What the memory run is made of: random inputs, memory that is lent, and the calls over both. */
#ifndef MEMORY_H
#define MEMORY_H

#include <stddef.h>
#include <stdint.h>

#include "lanegravel.h"

enum { MOST_SIDE = 40, MOST_RECTS = 12, MOST_VALUES = 40, LISTS = 45 };

/* Numbers by splitmix64. */
uint64_t bits(void);
uint64_t below(uint64_t n);
void start_random(uint64_t seed);

/* What any call may be given. A count is that of the list it stands behind. */
struct input {
    size_t page_width, page_height, width, height;
    uint16_t dpi;
    double xheight;
    struct lanegravel_rulings_params p;
    struct lanegravel_fusion_params f;
    uint8_t gray[MOST_SIDE * MOST_SIDE], ink[MOST_SIDE * MOST_SIDE];
    size_t gray_count, ink_count;
    int32_t shear[MOST_SIDE], shear_x[MOST_SIDE];
    size_t shear_count, shear_x_count;
    uint32_t pieces[4 * MOST_RECTS], glyphs[4 * MOST_RECTS], directions[MOST_RECTS];
    size_t pieces_count, glyphs_count, directions_count;
    double values[MOST_VALUES];
    uint32_t wholes[MOST_VALUES];
    size_t values_count, ends_count, place, set;
    size_t room[LISTS]; /* how many entries each lent list has more than it needs */
    size_t short_list;  /* the list that has one less; LISTS or past it for none */
};

/* A page that misses no question, and one change of it that may miss one. */
void draw(struct input *in);
void spoil(struct input *in);
struct lanegravel_rulings_params settings(void);
void spoil_settings(struct lanegravel_rulings_params *p);

/* Memory for one call. Natively each list lies against a page that can't be touched, at its end or at its
 * start, and one that is given can't be written; what a lent list holds before depends on the seed. Under
 * valgrind each list is an allocation of its own, and one that is lent is not written before. */
void start_memory(int guarded);
void start_call(uint64_t seed);
void *give(const void *entries, size_t bytes);
#define GIVE(list) give(in->list, in->list##_count * sizeof in->list[0]), in->list##_count
void *lend(size_t bytes);

/* What a call answered: a number, and the front of a list whose rest must be as it was. */
void answer(uint64_t number);
void answer_float(double x);
void answer_in(const void *list, size_t bytes);
/* Every lent list must be as it was. */
void refused(void);
/* Takes the memory back and gives the hash of the answer. */
uint64_t end_call(void);

/* Each makes one call, or one of each of a few small ones. */
typedef void call_of(const struct input *in);
extern call_of *const calls[];
extern const size_t calls_count;

void call_detect(const struct input *in);

/* Counts the pages that detect accepts and refuses. */
void tally(uint32_t number);

void fail(const char *what);

#endif
