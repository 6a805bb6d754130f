/* Calls the tone-curve reader and that of lookup tables once for each tag of tags.h, between `before_call` and `after_call`, and prints a line a call: the
 * tag and the status. tools/targets/steps counts the instructions between the two. */
#include <stdio.h>
#include <stdlib.h>

#include "../c/tags.h"
#include "khalyksor.h"

static uint32_t slots[9 * KHALYKSOR_CURVE_RECORD_WORDS];
static uint64_t out[KHALYKSOR_LUT_WORDS];

__attribute__((noinline)) void before_call(void) { __asm__ volatile(""); }
__attribute__((noinline)) void after_call(void) { __asm__ volatile(""); }

__attribute__((noinline)) static void call_curve(const char *name) {
    uint32_t status;
    before_call();
    status = khalyksor_read_trc_tag(tag, bytes, 0, bytes, LIMIT, KHALYKSOR_WALK_BOOK, out, KHALYKSOR_CURVE_WORDS);
    after_call();
    printf("tone curve, %s: %u\n", name, (unsigned)status);
}

__attribute__((noinline)) static void call_lut(const char *name) {
    uint32_t status;
    before_call();
    status = khalyksor_read_lut_tag(tag, bytes, 0, bytes, LIMIT, 0, KHALYKSOR_WALK_BOOK, slots, sizeof slots / sizeof *slots, out, KHALYKSOR_LUT_WORDS);
    after_call();
    printf("lookup table, %s: %u\n", name, (unsigned)status);
}

int main(void) {
    each_tag();
    exit(0); /* through the emulator, which `return` would not end */
}
