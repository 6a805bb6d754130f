/* Times of the evaluation, for tools/evaluate/time: ours by khalyksor_evaluate and khalyksor_evaluate_row, the C of rule.c by several compilers, and lcms2. One run, each form by
 * turns, the best of 25, CPU time, random coordinates. Every form of the rule must leave ours in every number; of lcms2 is told how much it differs.
 * With -DWITHOUT_LCMS2 that is left out. FORMS lists the compiled forms of rule.c, as it stands and written out by turns: FORM(prefix, "name").
 */
#define _POSIX_C_SOURCE 200809L
#include <stdint.h>
#include <stdio.h>
#include <stdlib.h>
#include <string.h>
#include <time.h>

#include "khalyksor.h"
#ifndef WITHOUT_LCMS2
#include <lcms2.h>
#include <lcms2_plugin.h>
#endif

enum { PIXELS = 100000, TURNS = 25, HEAD = 48, CLUT_HEAD = 20 };

typedef uint32_t evaluation(const uint8_t *, uint64_t, const uint64_t *, uint64_t, const uint16_t *, uint64_t, uint16_t *, uint64_t);

#define FORM(prefix, name) evaluation prefix##_call, prefix##_row;
FORMS
#undef FORM

static const struct {
    const char *name;
    evaluation *call, *row;
} forms[] = {
    {"ours", khalyksor_evaluate, khalyksor_evaluate_row},
#define FORM(prefix, name) {name, prefix##_call, prefix##_row},
    FORMS
#undef FORM
};

enum { COUNT = sizeof forms / sizeof *forms };

typedef struct {
    int points, inputs, size, outputs;
} shape;

static const shape shapes[] = {
    {17, 3, 2, 3}, {33, 3, 2, 3}, {17, 3, 1, 3}, {33, 3, 1, 3}, {17, 3, 2, 4}, {9, 4, 2, 3},
    {17, 4, 2, 3}, {9, 4, 1, 3},  {17, 4, 1, 3}, {33, 2, 2, 3}, {33, 1, 2, 3},
};

static uint16_t coordinates[PIXELS * 4], ours[PIXELS * 4], results[PIXELS * 4];
static uint64_t lut[KHALYKSOR_LUT_WORDS];
static uint32_t slots[KHALYKSOR_CURVE_RECORD_WORDS];

static double now(void)
{
    struct timespec t;
    clock_gettime(CLOCK_THREAD_CPUTIME_ID, &t);
    return (double)t.tv_sec + (double)t.tv_nsec * 1e-9;
}

static uint64_t next(void)
{
    static uint64_t s = 88172645463325252u;
    s ^= s << 13, s ^= s >> 7, s ^= s << 17;
    return s;
}

/* An entry of a smooth table, by its number. */
static unsigned smooth(shape s, uint64_t number)
{
    double sum = 0, weights = 0;
    uint64_t channel = number % (uint64_t)s.outputs, point = number / (uint64_t)s.outputs;
    int i;
    for (i = 0; i < s.inputs; i++, point /= (uint64_t)s.points) {
        double weight = 1 + (double)((channel + (uint64_t)i) % 3);
        sum += weight * (double)(point % (uint64_t)s.points) / (s.points - 1);
        weights += weight;
    }
    sum /= weights;
    return (unsigned)((s.size == 1 ? 255 : 65535) * (0.3 * sum + 0.7 * sum * sum));
}

/* An `mAB ` tag that has a colour table alone, with random entries or smooth ones. */
static uint8_t *tag_of(shape s, int is_smooth, uint64_t *length)
{
    uint64_t entries = (uint64_t)s.outputs, i;
    uint8_t *tag;
    for (i = 0; i < (uint64_t)s.inputs; i++)
        entries *= (uint64_t)s.points;
    *length = HEAD + CLUT_HEAD + entries * (uint64_t)s.size;
    tag = calloc(*length, 1);
    memcpy(tag, "mAB ", 4);
    tag[8] = (uint8_t)s.inputs;
    tag[9] = (uint8_t)s.outputs;
    tag[27] = HEAD;
    memset(tag + HEAD, s.points, (size_t)s.inputs);
    tag[HEAD + 16] = (uint8_t)s.size;
    for (i = 0; i < *length - HEAD - CLUT_HEAD; i++) {
        unsigned entry = is_smooth ? smooth(s, i / (uint64_t)s.size) : (unsigned)(next() >> 24);
        tag[HEAD + CLUT_HEAD + i] = (uint8_t)(is_smooth && s.size == 2 && i % 2 == 0 ? entry >> 8 : entry);
    }
    return tag;
}

static void fail(const char *form, const char *what)
{
    printf("%s: %s\n", form, what);
    exit(EXIT_FAILURE);
}

/* ---- lcms2 */

typedef struct {
    const char *name;
    void *transform;
    double best[2];
} other;

#ifndef WITHOUT_LCMS2
static other others[] = {{"lcms2, direct", 0, {0, 0}}, {"lcms2, optimised", 0, {0, 0}}, {"lcms2, direct, trilinear", 0, {0, 0}}};
enum { OPTIMISED = 1, TRILINEAR = 2, OTHERS = sizeof others / sizeof *others };

/* The table as a device link, one-byte entries widened by 257. By default lcms2 interpolates three dimensions by tetrahedra, and of four the first
 * between two such; a flag of the stage asks for the eight corners of three dimensions, as our rule has them. It has effect where the stage is copied,
 * as it is into a profile. */
static void prepare(shape s, const uint8_t *tag, uint64_t length)
{
    uint64_t entries = (length - HEAD - CLUT_HEAD) / (uint64_t)s.size, i;
    uint16_t *wide = malloc(entries * 2);
    const uint8_t *p = tag + HEAD + CLUT_HEAD;
    for (i = 0; i < entries; i++)
        wide[i] = (uint16_t)(s.size == 1 ? p[i] * 257 : p[2 * i] << 8 | p[2 * i + 1]);
    for (i = 0; i < OTHERS; i++) {
        cmsPipeline *pipeline = cmsPipelineAlloc(NULL, (cmsUInt32Number)s.inputs, (cmsUInt32Number)s.outputs);
        cmsStage *stage = cmsStageAllocCLut16bit(NULL, (cmsUInt32Number)s.points, (cmsUInt32Number)s.inputs, (cmsUInt32Number)s.outputs, wide);
        cmsHPROFILE link = cmsCreateProfilePlaceholder(NULL);
        cmsUInt32Number from = s.inputs == 3 ? TYPE_RGB_16 : TYPE_CMYK_16;
        if (i == TRILINEAR)
            ((_cmsStageCLutData *)cmsStageData(stage))->Params->dwFlags |= CMS_LERP_FLAGS_TRILINEAR;
        cmsPipelineInsertStage(pipeline, cmsAT_END, stage);
        cmsSetProfileVersion(link, 4.3);
        cmsSetDeviceClass(link, cmsSigLinkClass);
        cmsSetColorSpace(link, s.inputs == 3 ? cmsSigRgbData : cmsSigCmykData);
        cmsSetPCS(link, cmsSigRgbData);
        cmsWriteTag(link, cmsSigAToB0Tag, pipeline);
        others[i].transform = cmsCreateTransform(link, from, NULL, TYPE_RGB_16, INTENT_PERCEPTUAL, cmsFLAGS_NOCACHE | (i == OPTIMISED ? 0 : cmsFLAGS_NOOPTIMIZE));
        if (!others[i].transform)
            fail(others[i].name, "no transform");
        others[i].best[0] = others[i].best[1] = 1e9;
    }
    free(wide);
}

static void turn(other *o, shape s, int row)
{
    double before = now(), took;
    int i;
    if (row)
        cmsDoTransform(o->transform, coordinates, results, PIXELS);
    else
        for (i = 0; i < PIXELS; i++)
            cmsDoTransform(o->transform, coordinates + s.inputs * i, results + s.outputs * i, 1);
    took = now() - before;
    if (took < o->best[row])
        o->best[row] = took;
}

static int has(shape s, int i) { return s.outputs == 3 && (s.inputs == 3 || (s.inputs == 4 && i != TRILINEAR)); }
#else
static other others[1];
enum { OTHERS = 0 };
static void prepare(shape s, const uint8_t *tag, uint64_t length) { (void)s, (void)tag, (void)length; }
static void turn(other *o, shape s, int row) { (void)o, (void)s, (void)row; }
static int has(shape s, int i) { return (void)s, (void)i, 0; }
#endif

/* How many results of the others are not ours, and by how much at most. */
static void tell_apart(shape s, const char *what)
{
    int i, k;
    for (i = 0; i < OTHERS; i++) {
        unsigned most = 0, differ = 0;
        if (!has(s, i))
            continue;
        turn(&others[i], s, 1);
        for (k = 0; k < PIXELS * s.outputs; k++) {
            unsigned apart = (unsigned)abs(results[k] - ours[k]);
            differ += apart > 0;
            if (apart > most)
                most = apart;
        }
        fprintf(stderr, "| %d^%d, %d, %d, %s | %s | %.1f %% | %u |\n", s.points, s.inputs, s.size, s.outputs, what, others[i].name,
                100.0 * differ / (PIXELS * (double)s.outputs), most);
    }
}

/* ---- a table */

/* Our results, as a row. */
static void evaluate_ours(shape s, const uint8_t *tag, uint64_t length)
{
    if (khalyksor_read_lut_tag(tag, length, 0, (uint32_t)length, 0, 0, KHALYKSOR_WALK_BOOK, slots, 0, lut, KHALYKSOR_LUT_WORDS) != KHALYKSOR_VALUE)
        fail("ours", "the table was not read");
    memset(ours, 0, sizeof ours);
    if (khalyksor_evaluate_row(tag, length, lut, KHALYKSOR_LUT_WORDS, coordinates, (uint64_t)PIXELS * (uint64_t)s.inputs, ours, (uint64_t)PIXELS * (uint64_t)s.outputs))
        fail("ours", "the row was refused");
}

static void time_of(shape s)
{
    double best[COUNT][2], took;
    uint64_t length;
    uint8_t *tag = tag_of(s, 0, &length);
    int i, f, round, row;
    for (i = 0; i < PIXELS * s.inputs; i++)
        coordinates[i] = (uint16_t)(next() >> 20);
    evaluate_ours(s, tag, length);
    for (f = 0; f < COUNT; f++)
        best[f][0] = best[f][1] = 1e9;
    if (has(s, 0))
        prepare(s, tag, length);
    for (round = 0; round < TURNS; round++)
        for (row = 0; row < 2; row++) {
            for (f = 0; f < COUNT; f++) {
                uint32_t refused = 0;
                double before;
                memset(results, 0, sizeof results);
                before = now();
                if (row)
                    refused = forms[f].row(tag, length, lut, KHALYKSOR_LUT_WORDS, coordinates, (uint64_t)PIXELS * (uint64_t)s.inputs, results, (uint64_t)PIXELS * (uint64_t)s.outputs);
                else
                    for (i = 0; i < PIXELS; i++)
                        refused |= forms[f].call(tag, length, lut, KHALYKSOR_LUT_WORDS, coordinates + s.inputs * i, (uint64_t)s.inputs, results + s.outputs * i, (uint64_t)s.outputs);
                took = now() - before;
                if (took < best[f][row])
                    best[f][row] = took;
                if (refused || memcmp(results, ours, sizeof ours))
                    fail(forms[f].name, "other results than ours");
            }
            for (i = 0; i < OTHERS; i++)
                if (has(s, i))
                    turn(&others[i], s, row);
        }
    for (row = 0; row < 2; row++) {
        double plain = 1e9, fastest = 1e9;
        printf("| %d^%d, %d, %d, %s |", s.points, s.inputs, s.size, s.outputs, row ? "row" : "call");
        for (f = 0; f < COUNT; f++) {
            printf(" %.1f |", PIXELS / best[f][row] * 1e-6);
            if (f > 0 && best[f][row] < fastest)
                fastest = best[f][row];
            if (f % 2 == 1 && best[f][row] < plain)
                plain = best[f][row];
        }
        printf(" %.2f | %.2f |", plain / best[0][row], fastest / best[0][row]);
        for (i = 0; i < OTHERS; i++) {
            if (has(s, i))
                printf(" %.1f |", PIXELS / others[i].best[row] * 1e-6);
            else
                printf(" |");
        }
        printf("\n");
    }
    fflush(stdout);
    if (has(s, 0)) {
        tell_apart(s, "random entries");
        free(tag);
        tag = tag_of(s, 1, &length);
        evaluate_ours(s, tag, length);
        prepare(s, tag, length);
        tell_apart(s, "smooth");
    }
    free(tag);
}

int main(void)
{
    size_t i;
    printf("| points, bytes of an entry, outputs |");
    for (i = 0; i < COUNT; i++)
        printf(" %s |", forms[i].name);
    printf(" ours to the fastest C as it stands | ours to the fastest |");
    for (i = 0; i < OTHERS; i++)
        printf(" %s |", others[i].name);
    printf("\n|---|");
    for (i = 0; i < COUNT + 2 + OTHERS; i++)
        printf("---|");
    printf("\n");
    for (i = 0; i < sizeof shapes / sizeof *shapes; i++)
        time_of(shapes[i]);
    return 0;
}
