/* Tags for tools that count or time calls of the curve readers (targets/steps.c, figures/beside.c): `each_tag` makes one after the other in `tag` and
 * hands it to the program's `call_curve` or `call_lut`. */
#include <stdint.h>
#include <string.h>

/* the most entries of a curve */
#define LIMIT 4096

static uint8_t tag[16384];
static uint32_t bytes;

static void call_curve(const char *name);
static void call_lut(const char *name);

static void put32(uint32_t at, uint32_t value) {
    int i;
    for (i = 0; i < 4; i++) tag[at + (uint32_t)i] = (uint8_t)(value >> (24 - 8 * i));
}

static void new_tag(void) {
    memset(tag, 0, sizeof tag);
    bytes = 0;
}

/* a `curv` of so many entries, and the zeros up to a multiple of 4 */
static void put_table(uint32_t entries) {
    memcpy(tag + bytes, "curv", 4);
    put32(bytes + 8, entries);
    bytes += (12 + 2 * entries + 3) / 4 * 4;
}

/* a `para` of a function type, whose parameters are not 0 */
static void put_para(uint32_t type) {
    static const uint32_t counts[] = {1, 3, 4, 5, 7};
    uint32_t i;
    memcpy(tag + bytes, "para", 4);
    tag[bytes + 9] = (uint8_t)type;
    for (i = 0; i < counts[type]; i++) put32(bytes + 12 + 4 * i, 65536 + i);
    bytes += 12 + 4 * counts[type];
}

/* which curve stands in a run */
enum kind { EMPTY, TABLE, PARA0, PARA4 };

static void put_run(uint32_t offset_at, enum kind kind) {
    int i;
    put32(offset_at, bytes);
    for (i = 0; i < 3; i++) {
        switch (kind) {
        case EMPTY: put_table(0); break;
        case TABLE: put_table(256); break;
        case PARA0: put_para(0); break;
        case PARA4: put_para(4); break;
        }
    }
}

/* an `mAB ` of three channels: curves B; with 2 parts a matrix and curves M too, with 3 a colour table of 2^3 points and curves A besides */
static void put_mab(int parts, enum kind kind) {
    new_tag();
    memcpy(tag, "mAB ", 4);
    tag[8] = 3;
    tag[9] = 3;
    bytes = 32;
    put_run(12, kind);
    if (parts > 1) {
        put32(16, bytes);
        bytes += 48;
        put_run(20, kind);
    }
    if (parts > 2) {
        put32(24, bytes);
        memset(tag + bytes, 2, 3);
        tag[bytes + 16] = 1;
        bytes += 20 + 24;
        put_run(28, kind);
    }
    if (bytes < 48) bytes = 48;
}

static void each_tag(void) {
    new_tag();
    put_table(0);
    call_curve("`curv`, empty");
    new_tag();
    put_table(256);
    call_curve("`curv`, 256 entries");
    bytes -= 1;
    call_curve("`curv`, 256 entries, the last one cut");
    new_tag();
    put_table(LIMIT + 1);
    call_curve("`curv`, an entry above the limit");
    new_tag();
    put_para(0);
    call_curve("`para`, type 0");
    new_tag();
    put_para(4);
    call_curve("`para`, type 4");
    bytes -= 1;
    call_curve("`para`, type 4, the last parameter cut");
    put_mab(1, EMPTY);
    call_lut("`mAB `, B only, empty curves");
    put_mab(2, TABLE);
    call_lut("`mAB `, B and M `curv` of 256 entries, matrix");
    bytes -= 12 + 2 * 256;
    call_lut("`mAB `, B and M `curv` of 256 entries, matrix, the last curve past the tag");
    put_mab(3, TABLE);
    call_lut("`mAB `, all parts, `curv` of 256 entries");
    put_mab(2, PARA4);
    call_lut("`mAB `, B and M `para` type 4, matrix");
    put_mab(3, PARA0);
    call_lut("`mAB `, all parts, `para` type 0");
}
