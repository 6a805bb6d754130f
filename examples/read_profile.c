/* read_profile PROFILE: prints the tone curves and the lookup tables of an ICC profile. C99 and C++17.
 *
 *     cc -I include examples/read_profile.c lib/libkhalyksor.a -o read_profile
 */
#include <stdio.h>
#include <stdlib.h>

#include "khalyksor.h"

/* A record a curve, for the longest lookup table. */
static uint32_t slots[KHALYKSOR_LUT_RECORDS * KHALYKSOR_CURVE_RECORD_WORDS];

static uint32_t number_at(const uint8_t *bytes)
{
    return (uint32_t)bytes[0] << 24 | (uint32_t)bytes[1] << 16 | (uint32_t)bytes[2] << 8 | bytes[3];
}

static void print_curve(const uint8_t *profile, uint64_t length, uint32_t offset, uint32_t size)
{
    uint64_t out[KHALYKSOR_CURVE_WORDS];
    uint32_t status = khalyksor_read_trc_tag(profile, length, offset, size, KHALYKSOR_HOUSE_LIMIT, KHALYKSOR_WALK_BOOK,
                                             out, KHALYKSOR_CURVE_WORDS);
    if (status != KHALYKSOR_VALUE)
        printf("no curve, status %u\n", (unsigned)status);
    else if (out[KHALYKSOR_CURVE_KIND] == KHALYKSOR_KIND_IDENTITY)
        printf("the identity\n");
    else if (out[KHALYKSOR_CURVE_KIND] == KHALYKSOR_KIND_TABLE)
        printf("%u entries, the first at byte %u of the tag\n", (unsigned)out[KHALYKSOR_CURVE_COUNT],
               (unsigned)out[KHALYKSOR_CURVE_START]);
    else
        printf("a function of type %u, g = %ld / 65536\n",
               (unsigned)out[KHALYKSOR_CURVE_KIND] - KHALYKSOR_KIND_FUNCTION_0,
               (long)(int32_t)out[KHALYKSOR_CURVE_G]);
}

static void print_table(const uint8_t *profile, uint64_t length, uint32_t offset, uint32_t size)
{
    static const uint8_t origin[16] = {0};
    uint64_t lut[KHALYKSOR_LUT_WORDS], entry[KHALYKSOR_ENTRY_WORDS], inputs;
    uint32_t status = khalyksor_read_lut_tag(profile, length, offset, size, KHALYKSOR_HOUSE_LIMIT, KHALYKSOR_HOUSE_POINTS,
                                             KHALYKSOR_WALK_BOOK, slots, sizeof slots / sizeof slots[0], lut,
                                             KHALYKSOR_LUT_WORDS);
    if (status != KHALYKSOR_VALUE) {
        printf("no lookup table, status %u\n", (unsigned)status);
        return;
    }
    inputs = lut[KHALYKSOR_LUT_INPUTS];
    printf("%u channels to %u", (unsigned)inputs, (unsigned)lut[KHALYKSOR_LUT_OUTPUTS]);
    if (lut[KHALYKSOR_LUT_TYPE] == KHALYKSOR_TYPE_MAB || lut[KHALYKSOR_LUT_TYPE] == KHALYKSOR_TYPE_MBA)
        printf(", curves A %u, M %u, B %u", (unsigned)lut[KHALYKSOR_MAB_A_CURVES],
               (unsigned)lut[KHALYKSOR_MAB_M_CURVES], (unsigned)lut[KHALYKSOR_MAB_B_CURVES]);
    if (khalyksor_entry_at(profile + offset, size, lut, KHALYKSOR_LUT_WORDS, origin, inputs < 16 ? inputs : 16, 0, entry,
                           KHALYKSOR_ENTRY_WORDS) == KHALYKSOR_VALUE)
        printf(", first entry %u", (unsigned)entry[KHALYKSOR_ENTRY_NUMBER]);
    printf("\n");
}

int main(int argc, char **argv)
{
    static uint8_t profile[16 * 1024 * 1024];
    FILE *file = argc == 2 ? fopen(argv[1], "rb") : NULL;
    size_t length = file ? fread(profile, 1, sizeof profile, file) : 0;
    uint32_t tags = length < 132 ? 0 : number_at(profile + 128), i;

    if (khalyksor_version() >> 16 != KHALYKSOR_VERSION_MAJOR) {
        fprintf(stderr, "read_profile: the header is of another version than the library\n");
        return EXIT_FAILURE;
    }
    if (length < 132 || tags > (length - 132) / 12) {
        fprintf(stderr, "usage: read_profile PROFILE\n");
        return EXIT_FAILURE;
    }
    for (i = 0; i < tags; i++) {
        const uint8_t *row = profile + 132 + 12 * i;
        uint32_t offset = number_at(row + 4), size = number_at(row + 8);
        uint32_t type = offset <= length - 4 ? number_at(profile + offset) : 0;
        printf("%.4s: ", (const char *)row);
        if (type == KHALYKSOR_TYPE_CURV || type == KHALYKSOR_TYPE_PARA)
            print_curve(profile, length, offset, size);
        else if (type == KHALYKSOR_TYPE_MFT1 || type == KHALYKSOR_TYPE_MFT2 || type == KHALYKSOR_TYPE_MAB ||
                 type == KHALYKSOR_TYPE_MBA)
            print_table(profile, length, offset, size);
        else
            printf("neither a curve nor a lookup table\n");
    }
    return EXIT_SUCCESS;
}
