/* The memory of a call, and the hash of its answer. */
#define _DEFAULT_SOURCE
#include "memory.h"

#include <stdlib.h>
#include <string.h>
#include <sys/mman.h>
#include <unistd.h>

enum { SLOTS = 64, PAGES = 2 };

/* A list of this call: where it is, its bytes before the call, and the slot's pages around it. */
struct list {
    unsigned char *bytes, *before, *pages;
    size_t size;
    int is_lent, protection;
};

static struct list lists[SLOTS];
static size_t count;
static int is_guarded;
static size_t page;
static uint64_t noise, hash;

/* Slots of PAGES pages, each between two that can't be touched. */
void start_memory(int guarded) {
    size_t k, slot;
    unsigned char *all;
    is_guarded = guarded;
    if (!guarded) {
        return;
    }
    page = (size_t)sysconf(_SC_PAGESIZE);
    slot = (PAGES + 1) * page;
    all = mmap(NULL, SLOTS * slot + page, PROT_NONE, MAP_PRIVATE | MAP_ANONYMOUS, -1, 0);
    if (all == MAP_FAILED) {
        fail("no memory");
    }
    for (k = 0; k < SLOTS; k++) {
        lists[k].pages = all + page + k * slot;
        lists[k].before = malloc(PAGES * page);
    }
}

void start_call(uint64_t seed) {
    count = 0;
    noise = seed;
    hash = 0xcbf29ce484222325;
}

static void allow(struct list *l, int protection) {
    if (l->protection != protection && mprotect(l->pages, PAGES * page, protection) != 0) {
        fail("mprotect");
    }
    l->protection = protection;
}

static struct list *place(size_t bytes) {
    struct list *l = &lists[count];
    if (count++ == SLOTS || (is_guarded && bytes > PAGES * page)) {
        fail("too much memory for one call");
    }
    l->size = bytes;
    if (bytes == 0 && (noise >> 34) % 2 == 0) {
        l->bytes = NULL; /* as an empty list may be */
    } else if (is_guarded) {
        allow(l, PROT_READ | PROT_WRITE);
        l->bytes = (noise >> 33) % 4 == 0 ? l->pages : l->pages + PAGES * page - bytes;
    } else {
        l->bytes = malloc(bytes);
    }
    return l;
}

void *give(const void *entries, size_t bytes) {
    struct list *l = place(bytes);
    l->is_lent = 0;
    if (bytes != 0) {
        memcpy(l->bytes, entries, bytes);
    }
    if (is_guarded && bytes != 0) {
        allow(l, PROT_READ);
    }
    return l->bytes;
}

void *lend(size_t bytes) {
    struct list *l = place(bytes);
    size_t i;
    l->is_lent = 1;
    if (is_guarded) {
        for (i = 0; i < bytes; i++) {
            noise = noise * 6364136223846793005 + 1442695040888963407;
            l->bytes[i] = l->before[i] = (unsigned char)(noise >> 56);
        }
    }
    return l->bytes;
}

static void hashed(const unsigned char *bytes, size_t size) {
    size_t i;
    for (i = 0; i < size; i++) {
        hash = (hash ^ bytes[i]) * 0x100000001b3;
    }
    /* under valgrind the branch reports an answer that was never written */
    if (hash == 0) {
        fail("a hash of 0");
    }
}

void answer(uint64_t number) { hashed((const unsigned char *)&number, sizeof number); }

void answer_float(double x) { hashed((const unsigned char *)&x, sizeof x); }

/* Whether the list is as it was from this byte on; under valgrind what it was is not known. */
static int kept(const struct list *l, size_t from) {
    return !is_guarded || from == l->size || memcmp(l->bytes + from, l->before + from, l->size - from) == 0;
}

void answer_in(const void *list, size_t bytes) {
    size_t k;
    for (k = 0; k < count && !(lists[k].is_lent && lists[k].bytes == list && lists[k].size >= bytes); k++) {
    }
    if (k == count) {
        fail("an answer in no lent list");
    }
    hashed(lists[k].bytes, bytes);
    if (!kept(&lists[k], bytes)) {
        fail("a place past the answer was written");
    }
}

void refused(void) {
    size_t k;
    for (k = 0; k < count; k++) {
        if (lists[k].is_lent && !kept(&lists[k], 0)) {
            fail("a refused call wrote");
        }
    }
}

uint64_t end_call(void) {
    size_t k;
    for (k = 0; !is_guarded && k < count; k++) {
        free(lists[k].bytes);
    }
    return hash;
}
