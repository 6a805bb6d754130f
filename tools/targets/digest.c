/* Calls every function of the library many times, on tags that are made here, and prints a line a function: how many calls, a digest of all that they
 * returned and wrote, and how often each status came. The calls are the same on every target, so the lines must be too (tools/targets/compare).
 *
 * No files, no heap; C99 and the library's header, with numbers that do not depend on the target's widths. C leaves the order open in which arguments
 * are evaluated, so no call has two that draw a random number. A status that must come and never came is named on its line behind `missing`.
 */
#include <stddef.h>
#include <stdint.h>
#include <stdio.h>
#include <stdlib.h>

#include "khalyksor.h"

/* a round is one call of each function */
#ifndef ROUNDS
#define ROUNDS 20000
#endif

/* the longest `out` of any function, and a few words behind it that must stay as they are */
#define OUT_WORDS KHALYKSOR_LUT_WORDS
#define OUT_BEHIND 3
#define SLOT_WORDS (64 * KHALYKSOR_CURVE_RECORD_WORDS)
#define SLOT_BEHIND 4
#define PROFILE_BYTES 12288
#define MOST_PIXELS 5
#define PIXEL_RESULTS 16

/* -- random numbers: splitmix64 */

static uint64_t state;

static uint64_t next(void) {
    uint64_t z;
    state += UINT64_C(0x9e3779b97f4a7c15);
    z = state;
    z = (z ^ (z >> 30)) * UINT64_C(0xbf58476d1ce4e5b9);
    z = (z ^ (z >> 27)) * UINT64_C(0x94d049bb133111eb);
    return z ^ (z >> 31);
}

/* 0 to n - 1 */
static uint32_t below(uint32_t n) { return (uint32_t)(((next() >> 32) * n) >> 32); }

static int one_in(uint32_t n) { return below(n) == 0; }

static uint32_t between(uint32_t low, uint32_t high) { return low + below(high - low + 1); }

/* -- a profile and a tag in it */

static uint8_t memory[PROFILE_BYTES + 16];
static uint8_t *profile; /* in `memory`, at any alignment */
static uint64_t length;
static uint32_t offset;
static uint32_t size;
static uint32_t tag_bytes;

static void put8(uint32_t at, uint32_t value) {
    if (offset + at < PROFILE_BYTES) profile[offset + at] = (uint8_t)value;
}

static void put16(uint32_t at, uint32_t value) {
    put8(at, value >> 8);
    put8(at + 1, value);
}

static void put32(uint32_t at, uint32_t value) {
    put16(at, value >> 16);
    put16(at + 2, value);
}

static void put_type(uint32_t at, const char *type) {
    int i;
    for (i = 0; i < 4; i++) put8(at + (uint32_t)i, (uint8_t)type[i]);
}

/* the type of some tag, or of none */
static const char *any_type(void) {
    static const char *const types[] = {"curv", "para", "mft1", "mft2", "mAB ", "mBA ", "mluc", "desc", "text",
                                        "XYZ ", "sf32", "meas", "view", "cicp", "sig ", "dtim", "none"};
    return types[below(sizeof types / sizeof *types)];
}

static void put_zeros(uint32_t at, uint32_t end) {
    for (; at < end; at++) put8(at, 0);
}

/* random bytes in the first `bytes` of the profile, which starts at a random alignment, and a place for the tag */
static void new_profile(uint32_t bytes) {
    uint32_t i;
    profile = memory + below(8);
    for (i = 0; i < bytes; i += 8) {
        uint64_t word = next();
        int k;
        for (k = 0; k < 8; k++) profile[i + (uint32_t)k] = (uint8_t)(word >> (8 * k));
    }
    offset = one_in(2) ? 0 : below(48);
}

static uint32_t edge_of_32(void) {
    static const uint32_t edges[] = {0, 1, 2, 3, 0x7fffffff, 0x80000000, 0xfffffff4, 0xfffffffe, 0xffffffff};
    return edges[below(sizeof edges / sizeof *edges)];
}

/* The tag has `bytes` bytes. Size and length fit it most of the time; at times one of them is short, long, or at an edge of a check, and at times
   some bytes are others. */
static void finish_tag(uint32_t bytes) {
    static const uint32_t sizes[] = {0, 1, 3, 4, 5, 7, 8, 9, 11, 12, 13, 19, 20, 24, 27, 28, 35, 36, 43, 44, 45, 47, 48, 51, 52};
    tag_bytes = bytes;
    size = bytes;
    length = (uint64_t)offset + bytes + (one_in(2) ? 0 : below(40));
    switch (below(12)) {
    case 0: size = sizes[below(sizeof sizes / sizeof *sizes)]; break;
    case 1: size = bytes - below(bytes < 5 ? bytes + 1 : 5); break;
    case 2: size = bytes + below(48); break;
    case 3:
        if (one_in(4)) size = edge_of_32();
        break;
    case 4: length -= below(bytes < 60 ? bytes + 1 : 60); break;
    case 5:
        if (one_in(3)) length = below((uint32_t)length + 1);
        break;
    case 6:
        if (one_in(8)) offset = edge_of_32();
        break;
    case 7: /* a short size, and a profile that may end before it */
        size = sizes[below(sizeof sizes / sizeof *sizes)];
        length = (uint64_t)offset + below(size + 2);
        break;
    default: break;
    }
    if (one_in(8)) {
        uint32_t times = between(1, 4);
        while (times-- > 0) {
            uint32_t at = below(one_in(2) ? 64 : bytes + 1);
            put8(at, one_in(2) ? below(256) : below(5));
        }
    }
    if (length > PROFILE_BYTES) length = PROFILE_BYTES;
}

static uint64_t any_limit(void) {
    static const uint64_t limits[] = {0, 1, 2, 7, 8, 16, 4096, 1000000, UINT64_C(0xffffffff), UINT64_C(0x100000000), UINT64_C(0xffffffffffffffff)};
    if (one_in(2)) return 1000000;
    return limits[below(sizeof limits / sizeof *limits)];
}

/* -- the memory that is lent */

/* C aligns a 64-bit number to this: on some targets to less than its own size */
struct aligned { char first; uint64_t word; };
#define WORD_ALIGN offsetof(struct aligned, word)

static uint64_t out_memory[OUT_WORDS + OUT_BEHIND + 1];
static uint64_t *out;
static uint64_t out_words;
static uint32_t slots[SLOT_WORDS + SLOT_BEHIND];
static uint64_t slot_words;

/* lends `need` words most of the time, at times more, and at times too few */
static void lend_out(uint32_t need) {
    uint32_t i;
    out = (uint64_t *)(void *)((char *)out_memory + (one_in(2) ? 0 : WORD_ALIGN));
    for (i = 0; i < OUT_WORDS + OUT_BEHIND; i++) out[i] = UINT64_C(0xa5a5a5a500000000) + i;
    out_words = need;
    if (one_in(4)) out_words = between(need, OUT_WORDS);
    if (one_in(16)) out_words = below(need);
}

static void lend_slots(uint32_t record_words) {
    uint32_t i;
    for (i = 0; i < SLOT_WORDS + SLOT_BEHIND; i++) slots[i] = 0x5a5a0000 + i;
    slot_words = one_in(4) ? below(SLOT_WORDS + 1) : one_in(8) ? below(8 * record_words) : SLOT_WORDS;
    if (one_in(64)) slot_words = 0;
}

/* a pointer beside a length of 0 may be null */
static uint32_t *slots_or_null(void) { return slot_words == 0 ? NULL : slots; }
static uint64_t *out_or_null(void) { return out_words == 0 ? NULL : out; }
static const uint8_t *profile_or_null(void) { return length == 0 ? NULL : profile; }

/* -- what came, by function */

enum { LUT, TRC, STRING, CHAD, TECH, DATE, MEAS, VIEW, XYZ, CICP, ENTRY, PIXEL, ROW, RANGE, VERSION, FUNCTIONS };

#define STATUSES 104 /* 103 stands for any that no function should give */

struct tally {
    const char *name;
    uint64_t digest;
    uint32_t calls;
    uint32_t came[STATUSES];
    uint8_t due[20]; /* statuses that must come, up to the first 255 */
};

static struct tally tallies[FUNCTIONS] = {
    {"khalyksor_read_lut_tag", 0, 0, {0}, {0, 1, 2, 3, 4, 5, 6, 7, 8, 9, 10, 11, 12, 13, 14, 15, 16, 100, 102, 255}},
    {"khalyksor_read_trc_tag", 0, 0, {0}, {0, 9, 10, 11, 12, 13, 100, 102, 255}},
    {"khalyksor_read_string_tag", 0, 0, {0}, {0, 1, 2, 14, 100, 102, 255}},
    {"khalyksor_read_chad_tag", 0, 0, {0}, {0, 1, 17, 100, 102, 255}},
    {"khalyksor_read_tech_tag", 0, 0, {0}, {0, 1, 2, 100, 102, 255}},
    {"khalyksor_read_date_time_tag", 0, 0, {0}, {0, 1, 100, 102, 255}},
    {"khalyksor_read_meas_tag", 0, 0, {0}, {0, 1, 100, 102, 255}},
    {"khalyksor_read_viewing_conditions", 0, 0, {0}, {0, 1, 100, 102, 255}},
    {"khalyksor_read_xyz_tag", 0, 0, {0}, {0, 1, 2, 101, 102, 255}},
    {"khalyksor_read_cicp_tag", 0, 0, {0}, {0, 1, 100, 102, 255}},
    {"khalyksor_entry_at", 0, 0, {0}, {0, 100, 102, 255}},
    {"khalyksor_evaluate", 0, 0, {0}, {0, 14, 19, 102, 255}},
    {"khalyksor_evaluate_row", 0, 0, {0}, {0, 14, 19, 102, 255}},
    {"khalyksor_full_range", 0, 0, {0}, {0, 1, 255}},
    {"khalyksor_version", 0, 0, {0}, {255}},
};

/* FNV-1a, over 32-bit words in the place of bytes */
static void add(struct tally *tally, uint32_t word) { tally->digest = (tally->digest ^ word) * UINT64_C(0x100000001b3); }

static void count(int function, uint32_t status) {
    struct tally *tally = &tallies[function];
    tally->calls++;
    tally->came[status < STATUSES - 1 ? status : STATUSES - 1]++;
    add(tally, status);
}

/* the status and all words of `out`, those behind the lent ones too */
static void take(int function, uint32_t status) {
    struct tally *tally = &tallies[function];
    uint32_t i;
    count(function, status);
    for (i = 0; i < OUT_WORDS + OUT_BEHIND; i++) {
        add(tally, (uint32_t)out[i]);
        add(tally, (uint32_t)(out[i] >> 32));
    }
}

static void take_slots(int function) {
    uint32_t i;
    for (i = 0; i < slot_words + SLOT_BEHIND; i++) add(&tallies[function], slots[i]);
}

/* -- tags of each reader; each function gives the tag's length */

/* a tone curve at a place of the tag */
static uint32_t put_curve(uint32_t at) {
    static const uint8_t parameters[] = {1, 3, 4, 5, 7};
    if (one_in(2)) {
        uint32_t entries = one_in(3) ? 0 : one_in(64) ? 5000 : below(20);
        put_type(at, one_in(40) ? any_type() : "curv");
        put32(at + 8, entries);
        return 12 + 2 * (entries < 40 ? entries : below(40));
    } else {
        uint32_t kind = one_in(48) ? between(5, 300) : one_in(48) ? 5 : below(5);
        put_type(at, "para");
        put16(at + 8, kind);
        if (one_in(12)) put32(at + 16, 0);
        return 12 + 4 * (kind < 5 ? parameters[kind] : 7u);
    }
}

static uint32_t trc_tag(void) {
    new_profile(256);
    return put_curve(0);
}

static uint32_t channels_of_mft(void) { return one_in(16) ? below(7) : between(1, 4); }

static uint32_t mft_tag(void) {
    int two = one_in(2);
    uint32_t bytes_each = two ? 2 : 1;
    uint32_t inputs, outputs, grid, entries_in = 256, entries_out = 256, points = 1, i, bytes;
    new_profile(64);
    inputs = channels_of_mft();
    outputs = one_in(8) ? channels_of_mft() : 3;
    if (one_in(3)) {
        outputs = inputs;
        inputs = 3;
    }
    grid = one_in(16) ? below(256) : between(2, 4);
    if (one_in(16)) grid = below(3);
    put_type(0, two ? "mft2" : "mft1");
    put8(8, inputs);
    put8(9, outputs);
    put8(10, grid);
    if (two) {
        entries_in = one_in(16) ? below(5000) : between(2, 40);
        entries_out = one_in(16) ? below(5000) : between(2, 40);
        put16(48, entries_in);
        put16(50, entries_out);
    }
    if (one_in(32)) return two ? between(48, 52) : 48; /* the head alone */
    for (i = 0; i < inputs && points < 4096; i++) points *= grid;
    bytes = (two ? 52u : 48u) + bytes_each * (inputs * entries_in + points * outputs + outputs * entries_out);
    return bytes < PROFILE_BYTES - 128 ? bytes : 3000;
}

static uint32_t run_at(uint32_t at, uint32_t field, uint32_t curves) {
    uint32_t i;
    put32(field, at);
    for (i = 0; i < curves; i++) {
        at += put_curve(at);
        at = (at + 3) & ~3u;
    }
    return at;
}

static uint32_t colour_table_at(uint32_t at, uint32_t inputs, uint32_t outputs) {
    uint32_t product = outputs, entry_size = one_in(16) ? below(4) : between(1, 2), i;
    int large = one_in(16);
    int power = one_in(16); /* sixteen inputs of 4 points, and one output, are 2^32 entries, and so are fifteen and 4 */
    put32(24, at);
    if (power) {
        int fifteen = one_in(2);
        put8(8, fifteen ? 15 : 16);
        put8(9, fifteen ? 4 : 1);
    }
    for (i = 0; i < 16; i++) {
        uint32_t grid = power ? 4 : large ? between(100, 255) : one_in(40) ? below(256) : one_in(24) ? below(2) : between(2, 4);
        put8(at + i, grid);
        if (i < inputs && product < 100000) product *= grid;
    }
    put8(at + 16, entry_size);
    return (at + 20 + (product < 6000 ? product * entry_size : 64) + 3) & ~3u;
}

static uint32_t abm_tag(void) {
    uint32_t inputs, outputs, at = 32;
    int ab = one_in(2);
    new_profile(1024);
    inputs = one_in(24) ? below(256) : one_in(8) ? below(6) : between(1, 4);
    outputs = one_in(24) ? below(256) : one_in(8) ? below(6) : 3;
    put_type(0, ab ? "mAB " : "mBA ");
    put8(8, inputs);
    put8(9, outputs);
    put_zeros(12, 32);
    if (one_in(2)) {
        put32(16, at);
        at += 48;
    }
    if (one_in(2)) {
        uint32_t table = at;
        at = colour_table_at(at, inputs, outputs);
        if (one_in(16)) return table + between(18, 22); /* cut behind the table's head */
        if (one_in(32)) { /* just the table's head, with a fault in it */
            put8(table, 1);
            return table + 20;
        }
    }
    if (one_in(2)) at = run_at(at, 28, ab ? inputs : outputs);
    if (one_in(2)) at = run_at(at, 20, ab ? outputs : inputs);
    if (!one_in(8)) at = run_at(at, 12, ab ? outputs : inputs);
    if (one_in(24)) {
        uint32_t field = 12 + 4 * below(5);
        put32(field, one_in(2) ? below(at + 64) : edge_of_32());
    }
    if (at < 48) at = 48;
    return at < PROFILE_BYTES - 128 ? at : PROFILE_BYTES - 128;
}

static uint32_t lut_tag(void) {
    uint32_t bytes = one_in(3) ? mft_tag() : abm_tag();
    if (one_in(40)) put_type(0, any_type());
    return bytes;
}

static uint32_t string_tag(void) {
    uint32_t i, text, units, records, at;
    new_profile(512);
    switch (below(8)) {
    case 0:
        put_type(0, "text");
        text = below(60);
        put_zeros(8 + text, 8 + text + 8);
        return 8 + text + below(8);
    case 1:
    case 2:
        put_type(0, "desc");
        text = below(40);
        put32(8, text);
        if (text > 2) put_zeros(12 + text - below(3), 12 + text);
        at = 12 + text;
        if (one_in(6)) return at + below(8);
        units = below(20);
        put32(at + 4, units);
        if (units > 2) put_zeros(at + 8 + 2 * units - 2 * below(3), at + 8 + 2 * units);
        return at + 8 + 2 * units + below(4);
    case 3:
        put_type(0, any_type());
        return 8 + below(60);
    default:
        put_type(0, "mluc");
        records = one_in(8) ? 0 : below(30);
        put32(8, one_in(40) ? edge_of_32() : records);
        put32(12, 12);
        at = 16 + 12 * (records > 0 ? records : 1);
        for (i = 0; i < records || i == 0; i++) {
            put16(16 + 12 * i, 0x656e);
            put32(20 + 12 * i, one_in(200) ? edge_of_32() : below(9));
            put32(24 + 12 * i, at + below(8));
        }
        return at + 16;
    }
}

static uint32_t small_tag(const char *type, uint32_t bytes) {
    new_profile(128);
    put_type(0, one_in(12) ? any_type() : type);
    return bytes;
}

/* -- the calls */

static void call_lut(void) {
    uint64_t limit = any_limit(), points = any_limit();
    uint32_t walk = below(3);
    finish_tag(lut_tag());
    lend_out(KHALYKSOR_LUT_WORDS);
    lend_slots(KHALYKSOR_CURVE_RECORD_WORDS);
    take(LUT, khalyksor_read_lut_tag(profile_or_null(), length, offset, size, limit, points, walk, slots_or_null(), slot_words, out_or_null(), out_words));
    take_slots(LUT);
}

static void call_trc(void) {
    uint64_t limit = any_limit();
    uint32_t walk = below(3);
    finish_tag(trc_tag());
    lend_out(KHALYKSOR_CURVE_WORDS);
    take(TRC, khalyksor_read_trc_tag(profile_or_null(), length, offset, size, limit, walk, out_or_null(), out_words));
}

static void call_string(void) {
    finish_tag(string_tag());
    lend_out(KHALYKSOR_STRING_WORDS);
    lend_slots(KHALYKSOR_MLUC_RECORD_WORDS);
    take(STRING, khalyksor_read_string_tag(profile_or_null(), length, offset, size, slots_or_null(), slot_words, out_or_null(), out_words));
    take_slots(STRING);
}

typedef uint32_t small_reader(const uint8_t *, uint64_t, uint32_t, uint32_t, uint64_t *, uint64_t);

static void call_small(int function, small_reader *reader, const char *type, uint32_t bytes, uint32_t words) {
    finish_tag(small_tag(type, bytes));
    lend_out(words);
    take(function, reader(profile_or_null(), length, offset, size, out_or_null(), out_words));
}

/* a colour table that was read: its tag and its words */
static uint64_t lut[OUT_WORDS];
static uint64_t lut_words;
static const uint8_t *tag;
static uint64_t tag_length;
static uint32_t inputs, outputs;

static void read_table(void) {
    uint32_t i, status;
    for (i = 0; i < OUT_WORDS; i++) lut[i] = UINT64_C(0xa5a5a5a500000000) + i;
    do {
        finish_tag(one_in(2) ? mft_tag() : abm_tag());
        status = khalyksor_read_lut_tag(profile, length, offset, size, KHALYKSOR_HOUSE_LIMIT, KHALYKSOR_HOUSE_POINTS, below(2), slots, SLOT_WORDS, lut, OUT_WORDS);
    } while (status != KHALYKSOR_VALUE);
    lut_words = OUT_WORDS;
    tag = profile + offset;
    tag_length = size;
    inputs = (uint32_t)lut[KHALYKSOR_LUT_INPUTS];
    outputs = (uint32_t)lut[KHALYKSOR_LUT_OUTPUTS];
}

/* at times other words in the place of the table's, too few of them, or a shorter tag */
static void change_table(void) {
    if (one_in(8)) {
        static const uint8_t words[] = {0, 1, 2, 3, 17, 18, 31, 32, 33};
        uint32_t word = one_in(4) ? below(OUT_WORDS) : words[below(sizeof words)];
        switch (below(4)) {
        case 0: lut[word] = below(5); break;
        case 1: lut[word] = below(300); break;
        case 2: lut[word] += UINT64_C(1) << between(8, 63); break;
        default: lut[word] = next(); break;
        }
    }
    if (one_in(16)) lut_words = below(OUT_WORDS);
    if (one_in(16)) tag_length = below((uint32_t)tag_length + 1);
}

/* An entry at a grid index that is mostly one of the table. */
static void call_entry(void) {
    uint8_t index[20], channel;
    uint64_t coordinates;
    uint32_t i;
    read_table();
    for (i = 0; i < sizeof index; i++) index[i] = (uint8_t)(one_in(64) ? below(256) : one_in(16) ? below(4) : below(2));
    coordinates = one_in(16) ? below(sizeof index + 1) : inputs < sizeof index ? inputs : sizeof index;
    change_table();
    channel = (uint8_t)(one_in(16) ? below(256) : below(outputs > 0 ? outputs : 1));
    lend_out(KHALYKSOR_ENTRY_WORDS);
    take(ENTRY, khalyksor_entry_at(tag, tag_length, lut, lut_words, index, coordinates, channel, out_or_null(), out_words));
}

/* A colour between the points of a table, or a row of them. */
static void call_evaluate(int function) {
    static uint16_t coordinates[6 * MOST_PIXELS], results[PIXEL_RESULTS * MOST_PIXELS + OUT_BEHIND];
    uint64_t given, room;
    uint32_t pixels = function == ROW ? below(MOST_PIXELS + 1) : 1, i, status;
    struct tally *tally = &tallies[function];
    do read_table(); /* mostly one that can be evaluated */
    while (outputs > PIXEL_RESULTS || (inputs > 4 && !one_in(8)) || (lut[KHALYKSOR_MAB_ENTRY_SIZE] == 0 && !one_in(8)));
    for (i = 0; i < 6 * MOST_PIXELS; i++) coordinates[i] = (uint16_t)(one_in(4) ? 65535 * below(2) : one_in(4) ? below(4) * 21845 : below(65536));
    for (i = 0; i < PIXEL_RESULTS * MOST_PIXELS + OUT_BEHIND; i++) results[i] = (uint16_t)(0xa500 + i);
    given = pixels * (uint64_t)(inputs < 6 ? inputs : 6);
    if (one_in(16)) given = below(6 * MOST_PIXELS + 1);
    room = pixels * (uint64_t)outputs;
    if (one_in(4)) room = PIXEL_RESULTS * MOST_PIXELS;
    if (one_in(8)) room = below(pixels * outputs + 1);
    change_table();
    if (function == ROW)
        status = khalyksor_evaluate_row(tag, tag_length, lut, lut_words, given == 0 ? NULL : coordinates, given, room == 0 ? NULL : results, room);
    else
        status = khalyksor_evaluate(tag, tag_length, lut, lut_words, given == 0 ? NULL : coordinates, given, room == 0 ? NULL : results, room);
    count(function, status);
    for (i = 0; i < PIXEL_RESULTS * MOST_PIXELS + OUT_BEHIND; i++) add(tally, results[i]);
}

static void call_range(void) {
    uint64_t range = one_in(2) ? below(4) : one_in(2) ? UINT64_C(0x100000001) : next();
    count(RANGE, khalyksor_full_range(range));
}

static void call_version(void) {
    tallies[VERSION].calls++;
    add(&tallies[VERSION], khalyksor_version());
}

static void run(uint32_t rounds) {
    uint32_t i;
    for (i = 0; i < FUNCTIONS; i++) tallies[i].digest = UINT64_C(0xcbf29ce484222325);
    for (i = 0; i < rounds; i++) {
        call_lut();
        call_trc();
        call_string();
        call_small(CHAD, khalyksor_read_chad_tag, "sf32", one_in(4) ? between(40, 50) : 44, KHALYKSOR_CHAD_WORDS);
        call_small(TECH, khalyksor_read_tech_tag, "sig ", 12, KHALYKSOR_SIG_WORDS);
        call_small(DATE, khalyksor_read_date_time_tag, "dtim", 20, KHALYKSOR_DATE_WORDS);
        call_small(MEAS, khalyksor_read_meas_tag, "meas", 36, KHALYKSOR_MEAS_WORDS);
        call_small(VIEW, khalyksor_read_viewing_conditions, "view", 36, KHALYKSOR_VIEW_WORDS);
        call_small(XYZ, khalyksor_read_xyz_tag, "XYZ ", 20, KHALYKSOR_XYZ_WORDS);
        call_small(CICP, khalyksor_read_cicp_tag, "cicp", 12, KHALYKSOR_CICP_WORDS);
        call_entry();
        call_evaluate(PIXEL);
        call_evaluate(ROW);
        call_range();
        call_version();
    }
}

static void print(const struct tally *tally) {
    uint32_t i;
    printf("%s %lu %08lx%08lx", tally->name, (unsigned long)tally->calls, (unsigned long)(tally->digest >> 32), (unsigned long)(tally->digest & 0xffffffff));
    for (i = 0; i < STATUSES; i++)
        if (tally->came[i] != 0) printf(" %lu:%lu", (unsigned long)i, (unsigned long)tally->came[i]);
    for (i = 0; tally->due[i] != 255; i++)
        if (tally->came[tally->due[i]] == 0) printf(" missing %u", (unsigned)tally->due[i]);
    printf("\n");
}

int main(void) {
    int i;
    state = 1;
    run(ROUNDS);
    for (i = 0; i < FUNCTIONS; i++) print(&tallies[i]);
    printf("end\n");
    exit(0); /* where nothing started the program, a return leads nowhere */
}
