/* Makes so many calls with random small inputs, every third of them spoilt. An answer that hangs on memory
 * that was not written before the call shows: natively each call is made twice, with other content in the
 * lent lists and at other places; under valgrind nothing is written there.
 *
 *   memory guarded|malloced CALLS SEED */
#include "memory.h"

#include <stdio.h>
#include <stdlib.h>
#include <string.h>

static uint64_t case_number, accepted, missed;

void fail(const char *what) {
    fprintf(stderr, "memory: %s, in call %llu\n", what, (unsigned long long)case_number);
    exit(1);
}

void tally(uint32_t number) { *(number == 0 ? &accepted : &missed) += 1; }

static uint64_t once(call_of *call, const struct input *in, uint64_t seed) {
    start_call(seed);
    call(in);
    return end_call();
}

static void try_one(int guarded) {
    static struct input in;
    call_of *call = calls[below(calls_count)];
    uint64_t hash;
    draw(&in);
    if (below(3) == 0) {
        spoil(&in);
    }
    hash = once(call, &in, bits());
    if (guarded && once(call, &in, bits()) != hash) {
        fail("another answer with other content in the lent lists");
    }
}

int main(int count, char **arguments) {
    int guarded = count == 4 && strcmp(arguments[1], "guarded") == 0;
    uint64_t calls;
    if (count != 4) {
        fprintf(stderr, "memory guarded|malloced CALLS SEED\n");
        return 1;
    }
    calls = strtoull(arguments[2], NULL, 10);
    start_random(strtoull(arguments[3], NULL, 10));
    start_memory(guarded);
    for (case_number = 0; case_number < calls; case_number++) {
        try_one(guarded);
    }
    printf("memory: %s lists, seed %s: %s calls%s, no fault; detect accepted %llu and refused %llu\n",
           arguments[1], arguments[3], arguments[2], guarded ? ", each twice" : "",
           (unsigned long long)accepted, (unsigned long long)missed);
    return 0;
}
