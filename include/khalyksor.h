/* khalyksor.h: the readers of ICC tags for C and C++. Made of tools/names.toml by tools/header; not to be edited.
 *
 * Each function answers every call: any profile, offset, size and limit. It returns a status, KHALYKSOR_VALUE,
 * KHALYKSOR_ABSENT, KHALYKSOR_DEFAULT, KHALYKSOR_NO_ROOM or the number of a refusal. The words of a value stand in
 * front of `out`, at the places that are named below, and the rest of `out` stays as it was; on any other status all of
 * `out`, of `slots` and of `results` does.
 *
 * Lengths are uint64_t on every target, also where size_t has 32 bits. They count elements: bytes of `profile`, `tag`
 * and `index`, numbers of `coordinates` and `results`, words of `slots`, `lut` and `out`.
 *
 * A pointer is good for as many elements as the length beside it says, and aligned as its type asks. With a length of 0
 * nothing is read or written there, and the pointer may be null. What is lent for writing, `out`, `slots` and
 * `results`, overlaps nothing else that is passed. Nothing else is asked, and the functions do not test this.
 *
 * `offset` and `size` are those of the profile's tag table. Positions in answers, KHALYKSOR_..._START, count bytes from
 * the tag's first byte, that is from profile + offset.
 *
 * A word of `out` has 64 bits, one of `slots` 32 and a number of `coordinates` and `results` 16, in the order of the
 * machine that runs, not big-endian as in the profile. Where a word is a signed number, an s15Fixed16, it is a 32-bit
 * word in two's complement: (int32_t)out[i], not (int64_t)out[i]. It means that number over 65536.
 *
 * Limits are the caller's: `limit` is how many entries a curve may have, `points` how many grid points a colour table
 * of mft1 or mft2 may have. 0 is a limit of none at all, not `no limit`.
 *
 * Nothing is allocated, kept between calls or printed, and there are no floats. Threads may call all functions at once,
 * also on one profile. Of a C library nothing is called but, on some targets, memcpy and memset.
 */
#ifndef KHALYKSOR_H
#define KHALYKSOR_H

#include <stdint.h>

#ifdef __cplusplus
extern "C" {
#endif

/* The version of this file. khalyksor_version() tells that of the library. */
#define KHALYKSOR_VERSION_MAJOR 2
#define KHALYKSOR_VERSION_MINOR 1
#define KHALYKSOR_VERSION_TEXT "2.1"
#define KHALYKSOR_VERSION (KHALYKSOR_VERSION_MAJOR * 0x10000u + KHALYKSOR_VERSION_MINOR)

/* What a function returns that is no refusal. */
enum {
    KHALYKSOR_VALUE = 0, /* a value: its words stand in front of out, and of what needs records, these in slots; of an evaluation, its results in front of results */
    KHALYKSOR_ABSENT = 100, /* nothing there for this function; no fault is named */
    KHALYKSOR_DEFAULT = 101, /* XYZ alone: there was nothing to read, which stands for three zeros */
    KHALYKSOR_NO_ROOM = 102 /* out, or the lut of khalyksor_entry_at and of an evaluation, has fewer words than the function asks for; nothing was read or written */
};

/* Refusals: what a function returns for a fault. */
enum {
    KHALYKSOR_REFUSED_PAST_PROFILE = 1, /* bytes that are needed lie past the profile */
    KHALYKSOR_REFUSED_TAG_TOO_SHORT = 2, /* the tag is too short for what it holds */
    KHALYKSOR_REFUSED_OTHER_LUT = 3, /* a lookup table of another type than mft1, mft2, mAB and mBA */
    KHALYKSOR_REFUSED_GRID_OVERFLOW = 4, /* the product of the grid passes 32 bits */
    KHALYKSOR_REFUSED_GRID_ZERO = 5, /* the product of the grid is 0 */
    KHALYKSOR_REFUSED_GRID_TOO_LARGE = 6, /* the product of the grid is above 10,000,000 */
    KHALYKSOR_REFUSED_GRID_DIMENSION = 7, /* a grid dimension that is used is below 2 */
    KHALYKSOR_REFUSED_ENTRY_SIZE = 8, /* an entry of the colour table has neither 1 byte nor 2 */
    KHALYKSOR_REFUSED_OTHER_CURVE = 9, /* a curve that is neither curv nor para */
    KHALYKSOR_REFUSED_TOO_MANY_ENTRIES = 10, /* a curve has more entries than limit */
    KHALYKSOR_REFUSED_CURVE_RUNS_OUT = 11, /* the data of a curve run out */
    KHALYKSOR_REFUSED_FUNCTION_TYPE = 12, /* a function type above 4 */
    KHALYKSOR_REFUSED_ZERO_DIVISION = 13, /* a function of type 1 or 2 with a = 0 */
    KHALYKSOR_REFUSED_TOO_FEW_SLOTS = 14, /* more records than slots; of an evaluation, more results than results has room for */
    KHALYKSOR_REFUSED_BAD_TABLE = 15, /* mft1, mft2: entries, channels or grid points that are not allowed */
    KHALYKSOR_REFUSED_GRID_OVER_LIMIT = 16, /* mft1, mft2: more grid points than points */
    KHALYKSOR_REFUSED_BAD_CHAD = 17, /* chad: another type, or a size of 45 to 47 */
    KHALYKSOR_REFUSED_NO_COLOUR_TABLE = 19 /* an evaluation: no colour table of 1 to 4 inputs, or not as many coordinates as it has inputs */
};

/* How a run of curves steps over an empty one. */
enum {
    KHALYKSOR_WALK_CRATE = 0, /* an empty curve moves the walk by nothing, as in moxcms: the next channel reads it again */
    KHALYKSOR_WALK_BOOK = 1 /* an empty curve is stepped over by its 12 bytes, as ICC.1:2022 lays it out; so for any number but 0 */
};

/* Kinds of a curve. */
enum {
    KHALYKSOR_KIND_IDENTITY = 0, /* stored with no entries */
    KHALYKSOR_KIND_TABLE = 1, /* KHALYKSOR_CURVE_COUNT entries of two bytes, big-endian, from KHALYKSOR_CURVE_START on; one entry is a gamma, u8Fixed8 */
    KHALYKSOR_KIND_FUNCTION_0 = 2, /* Y = X^g */
    KHALYKSOR_KIND_FUNCTION_1 = 3, /* with g a b */
    KHALYKSOR_KIND_FUNCTION_2 = 4, /* with g a b c */
    KHALYKSOR_KIND_FUNCTION_3 = 5, /* with g a b c d */
    KHALYKSOR_KIND_FUNCTION_4 = 6 /* with g a b c d e f */
};

/* Types of a tag: the first four bytes, as one big-endian number. */
enum {
    KHALYKSOR_TYPE_CURV = 0x63757276,
    KHALYKSOR_TYPE_PARA = 0x70617261,
    KHALYKSOR_TYPE_MFT1 = 0x6d667431,
    KHALYKSOR_TYPE_MFT2 = 0x6d667432,
    KHALYKSOR_TYPE_MAB = 0x6d414220,
    KHALYKSOR_TYPE_MBA = 0x6d424120,
    KHALYKSOR_TYPE_MLUC = 0x6d6c7563,
    KHALYKSOR_TYPE_DESC = 0x64657363,
    KHALYKSOR_TYPE_TEXT = 0x74657874,
    KHALYKSOR_TYPE_XYZ = 0x58595a20,
    KHALYKSOR_TYPE_SF32 = 0x73663332,
    KHALYKSOR_TYPE_MEAS = 0x6d656173,
    KHALYKSOR_TYPE_VIEW = 0x76696577,
    KHALYKSOR_TYPE_CICP = 0x63696370,
    KHALYKSOR_TYPE_SIG = 0x73696720,
    KHALYKSOR_TYPE_DTIM = 0x6474696d
};

/* Limits. */
enum {
    KHALYKSOR_HOUSE_LIMIT = 4096, /* the house limit of a curve's entries */
    KHALYKSOR_HOUSE_POINTS = 1000000, /* the house limit of grid points, for mft1 and mft2 */
    KHALYKSOR_LUT_RECORDS = 514 /* no lookup table has more curves, so slots for so many records are never too few */
};

/* How many words `out` must have. */
enum {
    KHALYKSOR_LUT_WORDS = 37, /* khalyksor_read_lut_tag */
    KHALYKSOR_CURVE_WORDS = 11, /* khalyksor_read_trc_tag */
    KHALYKSOR_STRING_WORDS = 6, /* khalyksor_read_string_tag */
    KHALYKSOR_CHAD_WORDS = 9, /* khalyksor_read_chad_tag */
    KHALYKSOR_SIG_WORDS = 1, /* khalyksor_read_tech_tag */
    KHALYKSOR_DATE_WORDS = 12, /* khalyksor_read_date_time_tag */
    KHALYKSOR_MEAS_WORDS = 7, /* khalyksor_read_meas_tag */
    KHALYKSOR_VIEW_WORDS = 7, /* khalyksor_read_viewing_conditions */
    KHALYKSOR_XYZ_WORDS = 3, /* khalyksor_read_xyz_tag */
    KHALYKSOR_CICP_WORDS = 4, /* khalyksor_read_cicp_tag */
    KHALYKSOR_ENTRY_WORDS = 1 /* khalyksor_entry_at */
};

/* How many words of `slots` a record takes. */
enum {
    KHALYKSOR_CURVE_RECORD_WORDS = 10,
    KHALYKSOR_MLUC_RECORD_WORDS = 4
};

/* The words of every lookup table: the first three. */
enum {
    KHALYKSOR_LUT_TYPE = 0,
    KHALYKSOR_LUT_INPUTS = 1,
    KHALYKSOR_LUT_OUTPUTS = 2
};

/* The words of mft1 and mft2: channels, grid points of each dimension, entries of each input and output curve, the
 * matrix row by row, and where the tables lie. */
enum {
    KHALYKSOR_MFT_GRID = 3,
    KHALYKSOR_MFT_INPUT_ENTRIES = 4,
    KHALYKSOR_MFT_OUTPUT_ENTRIES = 5,
    KHALYKSOR_MFT_MATRIX = 6, /* 9 words, signed */
    KHALYKSOR_MFT_INPUT_START = 15,
    KHALYKSOR_MFT_INPUT_LENGTH = 16,
    KHALYKSOR_MFT_CLUT_START = 17,
    KHALYKSOR_MFT_CLUT_LENGTH = 18,
    KHALYKSOR_MFT_OUTPUT_START = 19,
    KHALYKSOR_MFT_OUTPUT_LENGTH = 20
};

/* The words of mAB and mBA: grid points of each dimension, the matrix row by row and its bias, where the colour
 * table's entries lie and how many bytes one has (0 where there is no colour table), and how many curves the runs A,
 * M and B have; their records stand in slots, A first. */
enum {
    KHALYKSOR_MAB_GRID = 3, /* 16 words */
    KHALYKSOR_MAB_MATRIX = 19, /* 9 words, signed */
    KHALYKSOR_MAB_BIAS = 28, /* 3 words, signed */
    KHALYKSOR_MAB_CLUT_START = 31,
    KHALYKSOR_MAB_CLUT_LENGTH = 32,
    KHALYKSOR_MAB_ENTRY_SIZE = 33,
    KHALYKSOR_MAB_A_CURVES = 34,
    KHALYKSOR_MAB_M_CURVES = 35,
    KHALYKSOR_MAB_B_CURVES = 36
};

/* The words of a curve: its record, and behind it, in out alone, how many bytes the curve takes. The parameters that
 * its kind does not have are 0. */
enum {
    KHALYKSOR_CURVE_KIND = 0,
    KHALYKSOR_CURVE_START = 1,
    KHALYKSOR_CURVE_COUNT = 2,
    KHALYKSOR_CURVE_G = 3, /* signed */
    KHALYKSOR_CURVE_A = 4, /* signed */
    KHALYKSOR_CURVE_B = 5, /* signed */
    KHALYKSOR_CURVE_C = 6, /* signed */
    KHALYKSOR_CURVE_D = 7, /* signed */
    KHALYKSOR_CURVE_E = 8, /* signed */
    KHALYKSOR_CURVE_F = 9, /* signed */
    KHALYKSOR_CURVE_CONSUMED = 10
};

/* The words of every text: the first. */
enum {
    KHALYKSOR_STRING_TYPE = 0
};

/* The words of text. */
enum {
    KHALYKSOR_TEXT_START = 1,
    KHALYKSOR_TEXT_LENGTH = 2
};

/* The words of desc: the ASCII string, the language code, and the Unicode string, UTF-16 with the high byte first. */
enum {
    KHALYKSOR_DESC_ASCII_START = 1,
    KHALYKSOR_DESC_ASCII_LENGTH = 2,
    KHALYKSOR_DESC_LANGUAGE = 3,
    KHALYKSOR_DESC_UNICODE_START = 4,
    KHALYKSOR_DESC_UNICODE_LENGTH = 5
};

/* The words of mluc: how many records stand in slots. */
enum {
    KHALYKSOR_MLUC_RECORDS = 1
};

/* The words of a record of mluc: two letters of the language and two of the country, each pair as one number, and
 * where the string lies, UTF-16 with the high byte first. */
enum {
    KHALYKSOR_MLUC_RECORD_LANGUAGE = 0,
    KHALYKSOR_MLUC_RECORD_COUNTRY = 1,
    KHALYKSOR_MLUC_RECORD_START = 2,
    KHALYKSOR_MLUC_RECORD_LENGTH = 3
};

/* The words of chad: the matrix, row by row. */
enum {
    KHALYKSOR_CHAD_MATRIX = 0 /* 9 words, signed */
};

/* The words of sig. */
enum {
    KHALYKSOR_SIG_SIGNATURE = 0
};

/* The words of the date: two bytes each of year, month, day, hour, minute and second, the high one first. */
enum {
    KHALYKSOR_DATE_YEAR = 0, /* 2 words */
    KHALYKSOR_DATE_MONTH = 2, /* 2 words */
    KHALYKSOR_DATE_DAY = 4, /* 2 words */
    KHALYKSOR_DATE_HOUR = 6, /* 2 words */
    KHALYKSOR_DATE_MINUTE = 8, /* 2 words */
    KHALYKSOR_DATE_SECOND = 10 /* 2 words */
};

/* The words of meas: the observer, the backing's X Y Z, the geometry, the flare (over 65536) and the illuminant. */
enum {
    KHALYKSOR_MEAS_OBSERVER = 0,
    KHALYKSOR_MEAS_BACKING = 1, /* 3 words, signed */
    KHALYKSOR_MEAS_GEOMETRY = 4,
    KHALYKSOR_MEAS_FLARE = 5,
    KHALYKSOR_MEAS_ILLUMINANT = 6
};

/* The words of view: X Y Z of illuminant and surround, and the illuminant's type. */
enum {
    KHALYKSOR_VIEW_ILLUMINANT = 0, /* 3 words, signed */
    KHALYKSOR_VIEW_SURROUND = 3, /* 3 words, signed */
    KHALYKSOR_VIEW_TYPE = 6
};

/* The words of XYZ. */
enum {
    KHALYKSOR_XYZ_X = 0, /* signed */
    KHALYKSOR_XYZ_Y = 1, /* signed */
    KHALYKSOR_XYZ_Z = 2 /* signed */
};

/* The words of cicp: the four codes, as they stand. */
enum {
    KHALYKSOR_CICP_PRIMARIES = 0,
    KHALYKSOR_CICP_TRANSFER = 1,
    KHALYKSOR_CICP_MATRIX = 2,
    KHALYKSOR_CICP_RANGE = 3
};

/* The words of an entry of a colour table. */
enum {
    KHALYKSOR_ENTRY_NUMBER = 0
};

/* A lookup table: mft1, mft2, mAB or mBA. A size of 0 counts as 12. limit counts the entries of a curve of mAB and
 * mBA, points the grid points of mft1 and mft2, output channels not counted; the others do not heed it. A record a
 * curve of mAB and mBA goes into slots, KHALYKSOR_CURVE_RECORD_WORDS words each. */
uint32_t khalyksor_read_lut_tag(const uint8_t *profile, uint64_t profile_length, uint32_t offset, uint32_t size,
                                uint64_t limit, uint64_t points, uint32_t walk, uint32_t *slots, uint64_t slots_words,
                                uint64_t *out, uint64_t out_words);

/* A tone curve: curv or para. A size of 0 counts up to the profile's end. limit counts the entries of a curv. A lone
 * curve answers the same on both walks but for KHALYKSOR_CURVE_CONSUMED of an empty one. */
uint32_t khalyksor_read_trc_tag(const uint8_t *profile, uint64_t profile_length, uint32_t offset, uint32_t size,
                                uint64_t limit, uint32_t walk, uint64_t *out, uint64_t out_words);

/* Text: text, desc or mluc. A size of 0 counts as 12. A record a string of mluc goes into slots,
 * KHALYKSOR_MLUC_RECORD_WORDS words each. Trailing zeros are left out of a string's length. */
uint32_t khalyksor_read_string_tag(const uint8_t *profile, uint64_t profile_length, uint32_t offset, uint32_t size,
                                   uint32_t *slots, uint64_t slots_words, uint64_t *out, uint64_t out_words);

/* chad, of type sf32. */
uint32_t khalyksor_read_chad_tag(const uint8_t *profile, uint64_t profile_length, uint32_t offset, uint32_t size,
                                 uint64_t *out, uint64_t out_words);

/* A signature, of type sig. */
uint32_t khalyksor_read_tech_tag(const uint8_t *profile, uint64_t profile_length, uint32_t offset, uint32_t size,
                                 uint64_t *out, uint64_t out_words);

/* The date of a tag of type dtim. As in moxcms the words are the profile's bytes 8 to 19, not the tag's. */
uint32_t khalyksor_read_date_time_tag(const uint8_t *profile, uint64_t profile_length, uint32_t offset, uint32_t size,
                                      uint64_t *out, uint64_t out_words);

/* meas. */
uint32_t khalyksor_read_meas_tag(const uint8_t *profile, uint64_t profile_length, uint32_t offset, uint32_t size,
                                 uint64_t *out, uint64_t out_words);

/* view. */
uint32_t khalyksor_read_viewing_conditions(const uint8_t *profile, uint64_t profile_length, uint32_t offset,
                                           uint32_t size, uint64_t *out, uint64_t out_words);

/* XYZ, the first number. KHALYKSOR_DEFAULT leaves out as it was, and stands for three zeros. */
uint32_t khalyksor_read_xyz_tag(const uint8_t *profile, uint64_t profile_length, uint32_t offset, uint32_t size,
                                uint64_t *out, uint64_t out_words);

/* cicp. No code is refused. */
uint32_t khalyksor_read_cicp_tag(const uint8_t *profile, uint64_t profile_length, uint32_t offset, uint32_t size,
                                 uint64_t *out, uint64_t out_words);

/* One entry of a colour table. tag is the lookup table's own bytes, profile + offset, as many as its size. lut is
 * what khalyksor_read_lut_tag wrote into out for this tag, KHALYKSOR_LUT_WORDS words. index has a coordinate for
 * each input channel, sixteen at most, the first the slowest. Absent are a coordinate or a channel that the table
 * does not have, too few or too many coordinates, a lookup table without a colour table, and words that are no
 * lookup table's. */
uint32_t khalyksor_entry_at(const uint8_t *tag, uint64_t tag_length, const uint64_t *lut, uint64_t lut_words,
                            const uint8_t *index, uint64_t index_length, uint8_t channel, uint64_t *out,
                            uint64_t out_words);

/* The colour of a colour table between its points, in integers. tag and lut are those of khalyksor_entry_at.
 * coordinates has a number for each input channel, 1 to 4 of them, 0 the first point of its dimension and 65535 the
 * last; the first is the slowest. A result for each output channel, 0 to 65535, goes in front of results,
 * lut[KHALYKSOR_LUT_OUTPUTS] of them, and the rest of it stays; entries of one byte count 257 fold. Neighbours blend
 * dimension by dimension, rounded each time: (low * (65535 - rest) + high * rest + 32767) / 65535.
 * KHALYKSOR_REFUSED_NO_COLOUR_TABLE where there is no colour table of 1 to 4 inputs, where the words name none that
 * lies in the tag, and for another number of coordinates; then KHALYKSOR_REFUSED_TOO_FEW_SLOTS for results too
 * short. */
uint32_t khalyksor_evaluate(const uint8_t *tag, uint64_t tag_length, const uint64_t *lut, uint64_t lut_words,
                            const uint16_t *coordinates, uint64_t coordinates_length, uint16_t *results,
                            uint64_t results_length);

/* khalyksor_evaluate of each pixel of a row: coordinates and results stand pixel after pixel, and table and room are
 * judged once. KHALYKSOR_REFUSED_NO_COLOUR_TABLE also for coordinates that are no whole number of pixels. No
 * coordinates are a row of no pixels. */
uint32_t khalyksor_evaluate_row(const uint8_t *tag, uint64_t tag_length, const uint64_t *lut, uint64_t lut_words,
                                const uint16_t *coordinates, uint64_t coordinates_length, uint16_t *results,
                                uint64_t results_length);

/* Whether out[KHALYKSOR_CICP_RANGE] of cicp says full range: 1 if so, else 0. No status. */
uint32_t khalyksor_full_range(uint64_t range);

/* The version of the library that is linked, to be held against KHALYKSOR_VERSION. No status. */
uint32_t khalyksor_version(void);

#ifdef __cplusplus
}
#endif

#endif
