/* The rule of the evaluation in C, for times: the parameters, the checks and the results of khalyksor_evaluate and khalyksor_evaluate_row. Offsets are
 * found once a pixel. As it stands the channels are a loop; with -DWRITTEN_OUT three and four of them stand one behind the other, and the division by
 * 65535 is two additions and two shifts. -DNAME(x)=.. names the functions, so that several can be linked.
 */
#include <stddef.h>
#include <stdint.h>

#include "khalyksor.h"

#ifndef NAME
#define NAME(x) x
#endif
#define INLINE static inline __attribute__((always_inline))

typedef struct {
    uint64_t start, grid_at;
    uint32_t grid_step, inputs, outputs, size;
} table;

/* Of each dimension the steps from the first point to the last, and the bytes from a point to the next. */
typedef struct {
    uint32_t steps[4];
    size_t strides[4];
} shape;

INLINE uint32_t two(const uint8_t *p) { return (uint32_t)p[0] << 8 | p[1]; }

INLINE uint32_t one(const uint8_t *p) { return p[0] * 257u; }

INLINE uint32_t mix(uint32_t low, uint32_t high, uint32_t rest)
{
#ifdef WRITTEN_OUT
    uint32_t sum = low * (65535 - rest) + high * rest + 32768;
    return (sum + (sum >> 16)) >> 16;
#else
    return (low * (65535 - rest) + high * rest + 32767) / 65535;
#endif
}

/* ---- what the words name, and whether it lies in the tag */

INLINE int numbers_in(const uint64_t *lut, table *b)
{
    b->inputs = lut[KHALYKSOR_LUT_INPUTS] & 255;
    b->outputs = lut[KHALYKSOR_LUT_OUTPUTS] & 255;
    switch (lut[KHALYKSOR_LUT_TYPE]) {
    case KHALYKSOR_TYPE_MFT1:
    case KHALYKSOR_TYPE_MFT2:
        b->start = lut[KHALYKSOR_MFT_CLUT_START];
        b->size = lut[KHALYKSOR_LUT_TYPE] == KHALYKSOR_TYPE_MFT1 ? 1 : 2;
        b->grid_at = 10;
        b->grid_step = 0;
        return 1;
    case KHALYKSOR_TYPE_MAB:
    case KHALYKSOR_TYPE_MBA:
        b->start = lut[KHALYKSOR_MAB_CLUT_START];
        b->size = lut[KHALYKSOR_MAB_ENTRY_SIZE] & 255;
        b->grid_at = b->start < 20 ? 0 : b->start - 20;
        b->grid_step = 1;
        return 1;
    default:
        return 0;
    }
}

INLINE int judge(const uint8_t *tag, uint64_t length, const table *b, shape *h)
{
    uint64_t stride = (uint64_t)b->outputs * b->size;
    int i;
    if (b->inputs < 1 || b->inputs > 4 || b->outputs < 1 || b->size < 1 || b->size > 2)
        return 0;
    for (i = (int)b->inputs - 1; i >= 0; i--) {
        uint64_t at = b->grid_at + (uint64_t)i * b->grid_step;
        uint32_t points = at < length ? tag[at] : 0;
        if (points < 2)
            return 0;
        h->steps[i] = points - 1;
        h->strides[i] = (size_t)stride;
        stride *= points;
    }
    return b->start <= length && stride <= length - b->start;
}

/* ---- a pixel, by its dimensions */

#define AXIS(i, rest, way)                             \
    uint32_t at_##rest = x[i] * h->steps[i];           \
    uint32_t rest = at_##rest % 65535;                 \
    size_t way = rest ? h->strides[i] : 0;             \
    base += (at_##rest / 65535) * h->strides[i];

#define LINE(read, p) mix(read(p), read((p) + u2), r2)
#define PLANE(read, p) mix(LINE(read, p), LINE(read, (p) + u1), r1)
#define CUBE(read, p) mix(PLANE(read, p), PLANE(read, (p) + u0), r0)
#define FOUR(read, p) mix(CUBE(read, p), CUBE(read, (p) + u9), r9)

#ifdef WRITTEN_OUT
#define CHANNELS(form, read, size)                                                                                           \
    if (outputs == 3) {                                                                                                      \
        uint32_t a = form(read, base), b = form(read, base + size), c = form(read, base + 2 * size);                         \
        y[0] = (uint16_t)a, y[1] = (uint16_t)b, y[2] = (uint16_t)c;                                                          \
    } else if (outputs == 4) {                                                                                               \
        uint32_t a = form(read, base), b = form(read, base + size), c = form(read, base + 2 * size), d = form(read, base + 3 * size); \
        y[0] = (uint16_t)a, y[1] = (uint16_t)b, y[2] = (uint16_t)c, y[3] = (uint16_t)d;                                      \
    } else                                                                                                                   \
        for (uint32_t c = 0; c < outputs; c++)                                                                               \
            y[c] = (uint16_t)form(read, base + size * c);
#else
#define CHANNELS(form, read, size)             \
    for (uint32_t c = 0; c < outputs; c++)     \
        y[c] = (uint16_t)form(read, base + size * c);
#endif

#define BY_SIZE(form)               \
    if (size == 2) {                \
        CHANNELS(form, two, 2)      \
    } else {                        \
        CHANNELS(form, one, 1)      \
    }

INLINE void pixel1(const uint8_t *base, const shape *h, uint32_t outputs, uint32_t size, const uint16_t *x, uint16_t *y)
{
    AXIS(0, r2, u2)
    BY_SIZE(LINE)
}

INLINE void pixel2(const uint8_t *base, const shape *h, uint32_t outputs, uint32_t size, const uint16_t *x, uint16_t *y)
{
    AXIS(0, r1, u1)
    AXIS(1, r2, u2)
    BY_SIZE(PLANE)
}

INLINE void pixel3(const uint8_t *base, const shape *h, uint32_t outputs, uint32_t size, const uint16_t *x, uint16_t *y)
{
    AXIS(0, r0, u0)
    AXIS(1, r1, u1)
    AXIS(2, r2, u2)
    BY_SIZE(CUBE)
}

INLINE void pixel4(const uint8_t *base, const shape *h, uint32_t outputs, uint32_t size, const uint16_t *x, uint16_t *y)
{
    AXIS(0, r9, u9)
    AXIS(1, r0, u0)
    AXIS(2, r1, u1)
    AXIS(3, r2, u2)
    BY_SIZE(FOUR)
}

/* ---- the two functions */

uint32_t NAME(call)(const uint8_t *tag, uint64_t tag_length, const uint64_t *lut, uint64_t lut_words, const uint16_t *coordinates,
                    uint64_t coordinates_length, uint16_t *results, uint64_t results_length)
{
    table b;
    shape h;
    const uint8_t *base;
    if (lut_words < KHALYKSOR_LUT_WORDS)
        return KHALYKSOR_NO_ROOM;
    if (!numbers_in(lut, &b) || coordinates_length != b.inputs || !judge(tag, tag_length, &b, &h))
        return KHALYKSOR_REFUSED_NO_COLOUR_TABLE;
    if (results_length < b.outputs)
        return KHALYKSOR_REFUSED_TOO_FEW_SLOTS;
    base = tag + b.start;
    switch (b.inputs) {
    case 1:
        pixel1(base, &h, b.outputs, b.size, coordinates, results);
        break;
    case 2:
        pixel2(base, &h, b.outputs, b.size, coordinates, results);
        break;
    case 3:
        pixel3(base, &h, b.outputs, b.size, coordinates, results);
        break;
    default:
        pixel4(base, &h, b.outputs, b.size, coordinates, results);
    }
    return KHALYKSOR_VALUE;
}

#define ROW_OF(pixel, inputs, size)                   \
    for (uint64_t i = 0; i < pixels; i++)             \
        pixel(base, &h, b.outputs, size, coordinates + inputs * i, results + b.outputs * i);
#define ROW(pixel, inputs)            \
    if (b.size == 2) {                \
        ROW_OF(pixel, inputs, 2)      \
    } else {                          \
        ROW_OF(pixel, inputs, 1)      \
    }

uint32_t NAME(row)(const uint8_t *tag, uint64_t tag_length, const uint64_t *lut, uint64_t lut_words, const uint16_t *coordinates,
                   uint64_t coordinates_length, uint16_t *results, uint64_t results_length)
{
    table b;
    shape h;
    const uint8_t *base;
    uint64_t pixels;
    if (lut_words < KHALYKSOR_LUT_WORDS)
        return KHALYKSOR_NO_ROOM;
    if (!numbers_in(lut, &b) || !judge(tag, tag_length, &b, &h) || coordinates_length % b.inputs != 0)
        return KHALYKSOR_REFUSED_NO_COLOUR_TABLE;
    pixels = coordinates_length / b.inputs;
    if (results_length / b.outputs < pixels)
        return KHALYKSOR_REFUSED_TOO_FEW_SLOTS;
    base = tag + b.start;
    switch (b.inputs) {
    case 1:
        ROW(pixel1, 1)
        break;
    case 2:
        ROW(pixel2, 2)
        break;
    case 3:
        ROW(pixel3, 3)
        break;
    default:
        ROW(pixel4, 4)
    }
    return KHALYKSOR_VALUE;
}
