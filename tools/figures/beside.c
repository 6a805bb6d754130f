/* beside ONE OTHER: times calls of two builds of the library, loaded side by side, on the tags of tags.h: processor time of the one thread, the best of 200
 * rounds of about 1 ms, ONE and OTHER by turns. A line a call: the tag, the status, nanoseconds with ONE and with OTHER, and the second over the first.
 *
 *   cc -O2 -I include tools/figures/beside.c -ldl -o beside && ./beside BEFORE/libkhalyksor.so AFTER/libkhalyksor.so */
#define _GNU_SOURCE
#include <dlfcn.h>
#include <stdio.h>
#include <stdlib.h>
#include <time.h>

#include "../c/tags.h"
#include "khalyksor.h"

#define ROUNDS 200
#define ROUND_NS 1e6

static uint32_t slots[9 * KHALYKSOR_CURVE_RECORD_WORDS];
static uint64_t out[KHALYKSOR_LUT_WORDS];
static void *library[2];

static double now(void) {
    struct timespec t;
    clock_gettime(CLOCK_THREAD_CPUTIME_ID, &t);
    return (double)t.tv_sec * 1e9 + (double)t.tv_nsec;
}

static void *function(int which, const char *name) {
    void *found = dlsym(library[which], name);
    if (!found) {
        fprintf(stderr, "beside: %s\n", dlerror());
        exit(1);
    }
    return found;
}

typedef uint32_t curve_reader(const uint8_t *, uint64_t, uint32_t, uint32_t, uint64_t, uint32_t, uint64_t *, uint64_t);
typedef uint32_t lut_reader(const uint8_t *, uint64_t, uint32_t, uint32_t, uint64_t, uint64_t, uint32_t, uint32_t *, uint64_t, uint64_t *, uint64_t);

/* times `call`, an expression that uses `which`, and prints the line */
#define TIME(reader, call)                                                                              \
    double best[2] = {0, 0};                                                                            \
    uint32_t status = 0;                                                                                \
    int round, which, k, n = 1000;                                                                      \
    for (round = -1; round < ROUNDS; round++)                                                           \
        for (which = 0; which < 2; which++) {                                                           \
            double took = now();                                                                        \
            for (k = 0; k < n; k++) status = call;                                                      \
            took = now() - took;                                                                        \
            if (round < 0)                                                                              \
                n = which ? (int)(ROUND_NS * n / took) + 1 : n;                                         \
            else if (best[which] == 0 || took / n < best[which])                                        \
                best[which] = took / n;                                                                 \
        }                                                                                               \
    printf("| %s, %s | %u | %.2f | %.2f | %.2f |\n", reader, name, (unsigned)status, best[0], best[1], best[1] / best[0])

static void call_curve(const char *name) {
    curve_reader *read[2] = {(curve_reader *)function(0, "khalyksor_read_trc_tag"), (curve_reader *)function(1, "khalyksor_read_trc_tag")};
    TIME("tone curve", read[which](tag, bytes, 0, bytes, LIMIT, KHALYKSOR_WALK_BOOK, out, KHALYKSOR_CURVE_WORDS));
}

static void call_lut(const char *name) {
    lut_reader *read[2] = {(lut_reader *)function(0, "khalyksor_read_lut_tag"), (lut_reader *)function(1, "khalyksor_read_lut_tag")};
    TIME("lookup table", read[which](tag, bytes, 0, bytes, LIMIT, 0, KHALYKSOR_WALK_BOOK, slots, sizeof slots / sizeof *slots, out, KHALYKSOR_LUT_WORDS));
}

int main(int words, char **word) {
    int which;
    if (words != 3) {
        fprintf(stderr, "usage: beside ONE OTHER\n");
        return 2;
    }
    for (which = 0; which < 2; which++)
        if (!(library[which] = dlopen(word[1 + which], RTLD_NOW | RTLD_LOCAL))) {
            fprintf(stderr, "beside: %s\n", dlerror());
            return 1;
        }
    printf("| call | status | one, ns | other, ns | other / one |\n|---|---|---|---|---|\n");
    each_tag();
    return 0;
}
