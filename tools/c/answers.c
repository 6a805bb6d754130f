/* The program `answers` once more, in C over khalyksor.h: reads the same jobs, calls each reader through the header's functions and prints each
 * word by its name there, in the order of docs/SCOPE.md. So its lines are those of `answers` only if every word stands where the header says.
 *
 * Each job is also called with an `out` one word too short, and `out` has words behind those of the answer: status 1 and a message if what must
 * stay does not stay. An evaluation is also called as a row, of its pixel once and twice.
 */
#include <inttypes.h>
#include <stdio.h>
#include <stdlib.h>
#include <string.h>

#include "khalyksor.h"

enum { HEAD = 33, BEHIND = 18, BEHIND_PIXEL = 19, MOST_BYTES = 1048576, MOST_WORDS = 8192, MOST_ROOM = 512, MOST_COORDINATES = 8, SPARE = 3 };

static const uint64_t UNTOUCHED = 0xEEEEEEEEEEEEEEEEu;

static uint8_t profile[MOST_BYTES];
static uint32_t words[MOST_WORDS];
static uint64_t lut[KHALYKSOR_LUT_WORDS];
static uint64_t out[KHALYKSOR_LUT_WORDS + SPARE];
static uint16_t buffer[MOST_ROOM + SPARE];
static uint16_t row[2 * MOST_ROOM + SPARE];

typedef struct {
    uint8_t reader, coordinates, channel;
    uint8_t index[16];
    uint16_t pixel[2 * MOST_COORDINATES];
    uint32_t offset, size, lent, length, room;
    uint64_t limit, points;
} Job;

static uint64_t number_at(const uint8_t *bytes, int n)
{
    uint64_t number = 0;
    int i;
    for (i = 0; i < n; i++)
        number = number << 8 | bytes[i];
    return number;
}

static void fail(const Job *job, const char *what)
{
    fprintf(stderr, "reader %u: %s\n", (unsigned)job->reader, what);
    exit(EXIT_FAILURE);
}

static void mark(const Job *job)
{
    uint32_t i;
    for (i = 0; i < job->lent; i++)
        words[i] = 0xA5A50000u + i % 0x10000;
    for (i = 0; i < KHALYKSOR_LUT_WORDS + SPARE; i++)
        out[i] = UNTOUCHED;
}

static void stays(const Job *job, uint64_t from, const char *what)
{
    for (; from < KHALYKSOR_LUT_WORDS + SPARE; from++)
        if (out[from] != UNTOUCHED)
            fail(job, what);
}

/* One call, with so many words in out. */
static uint32_t call(const Job *job, uint64_t room)
{
    const uint8_t *p = profile;
    uint64_t n = job->length;
    uint32_t at = job->offset, size = job->size;
    uint32_t status;
    switch (job->reader) {
    case 1:
        return khalyksor_read_lut_tag(p, n, at, size, job->limit, job->points, KHALYKSOR_WALK_CRATE, words, job->lent, out, room);
    case 2:
        return khalyksor_read_trc_tag(p, n, at, size, job->limit, KHALYKSOR_WALK_CRATE, out, room);
    case 3:
        return khalyksor_read_string_tag(p, n, at, size, words, job->lent, out, room);
    case 4:
        return khalyksor_read_chad_tag(p, n, at, size, out, room);
    case 5:
        return khalyksor_read_tech_tag(p, n, at, size, out, room);
    case 6:
        return khalyksor_read_date_time_tag(p, n, at, size, out, room);
    case 7:
        return khalyksor_read_meas_tag(p, n, at, size, out, room);
    case 8:
        return khalyksor_read_viewing_conditions(p, n, at, size, out, room);
    case 9:
        return khalyksor_read_xyz_tag(p, n, at, size, out, room);
    case 10:
        return khalyksor_read_cicp_tag(p, n, at, size, out, room);
    case 11:
        return khalyksor_read_lut_tag(p, n, at, size, job->limit, job->points, KHALYKSOR_WALK_BOOK, words, job->lent, out, room);
    case 12:
        return khalyksor_read_trc_tag(p, n, at, size, job->limit, KHALYKSOR_WALK_BOOK, out, room);
    default:
        status = khalyksor_read_lut_tag(p, n, at, size, job->limit, job->points, KHALYKSOR_WALK_CRATE, words, job->lent, lut,
                                        KHALYKSOR_LUT_WORDS);
        if (status != KHALYKSOR_VALUE)
            return status;
        if (khalyksor_entry_at(p + at, size, lut, KHALYKSOR_LUT_WORDS - 1, job->index, 0, 0, out, room) != KHALYKSOR_NO_ROOM)
            fail(job, "a lookup table one word too short was taken");
        if (job->coordinates > 16)
            return KHALYKSOR_ABSENT;
        return khalyksor_entry_at(p + at, size, lut, KHALYKSOR_LUT_WORDS, job->index, job->coordinates, job->channel, out, room);
    }
}

static uint64_t room_of(const Job *job)
{
    static const uint64_t rooms[] = {
        0, KHALYKSOR_LUT_WORDS, KHALYKSOR_CURVE_WORDS, KHALYKSOR_STRING_WORDS, KHALYKSOR_CHAD_WORDS, KHALYKSOR_SIG_WORDS,
        KHALYKSOR_DATE_WORDS, KHALYKSOR_MEAS_WORDS, KHALYKSOR_VIEW_WORDS, KHALYKSOR_XYZ_WORDS, KHALYKSOR_CICP_WORDS,
        KHALYKSOR_LUT_WORDS, KHALYKSOR_CURVE_WORDS, KHALYKSOR_ENTRY_WORDS
    };
    return rooms[job->reader];
}

/* ---- a value's words, each by its name */

static void put(uint64_t word)
{
    printf(" %" PRIu64, word);
}

static void put_signed(uint64_t word)
{
    if (word > 0xFFFFFFFFu)
        printf(" more than 32 bits");
    printf(" %ld", (long)(int32_t)(uint32_t)word);
}

static void put_row(int from, int count)
{
    for (; count > 0; count--)
        put(out[from++]);
}

static void put_signed_row(int from, int count)
{
    for (; count > 0; count--)
        put_signed(out[from++]);
}

static int put_mft(const char *name)
{
    printf(" %s", name);
    put(out[KHALYKSOR_LUT_INPUTS]);
    put(out[KHALYKSOR_LUT_OUTPUTS]);
    put(out[KHALYKSOR_MFT_GRID]);
    put(out[KHALYKSOR_MFT_INPUT_ENTRIES]);
    put(out[KHALYKSOR_MFT_OUTPUT_ENTRIES]);
    put_signed_row(KHALYKSOR_MFT_MATRIX, 9);
    put(out[KHALYKSOR_MFT_INPUT_START]);
    put(out[KHALYKSOR_MFT_INPUT_LENGTH]);
    put(out[KHALYKSOR_MFT_CLUT_START]);
    put(out[KHALYKSOR_MFT_CLUT_LENGTH]);
    put(out[KHALYKSOR_MFT_OUTPUT_START]);
    put(out[KHALYKSOR_MFT_OUTPUT_LENGTH]);
    return KHALYKSOR_MFT_OUTPUT_LENGTH + 1;
}

static int put_mab(const char *name)
{
    printf(" %s", name);
    put(out[KHALYKSOR_LUT_INPUTS]);
    put(out[KHALYKSOR_LUT_OUTPUTS]);
    put_row(KHALYKSOR_MAB_GRID, 16);
    put_signed_row(KHALYKSOR_MAB_MATRIX, 9);
    put_signed_row(KHALYKSOR_MAB_BIAS, 3);
    put(out[KHALYKSOR_MAB_CLUT_START]);
    put(out[KHALYKSOR_MAB_CLUT_LENGTH]);
    put(out[KHALYKSOR_MAB_ENTRY_SIZE]);
    put(out[KHALYKSOR_MAB_A_CURVES]);
    put(out[KHALYKSOR_MAB_M_CURVES]);
    put(out[KHALYKSOR_MAB_B_CURVES]);
    return KHALYKSOR_MAB_B_CURVES + 1;
}

static int put_lut(void)
{
    switch (out[KHALYKSOR_LUT_TYPE]) {
    case KHALYKSOR_TYPE_MFT1:
        return put_mft("mft1");
    case KHALYKSOR_TYPE_MFT2:
        return put_mft("mft2");
    case KHALYKSOR_TYPE_MAB:
        return put_mab("mAB");
    case KHALYKSOR_TYPE_MBA:
        return put_mab("mBA");
    default:
        printf(" another type");
        return KHALYKSOR_LUT_WORDS;
    }
}

static int put_string(void)
{
    switch (out[KHALYKSOR_STRING_TYPE]) {
    case KHALYKSOR_TYPE_TEXT:
        printf(" text");
        put(out[KHALYKSOR_TEXT_START]);
        put(out[KHALYKSOR_TEXT_LENGTH]);
        return KHALYKSOR_TEXT_LENGTH + 1;
    case KHALYKSOR_TYPE_DESC:
        printf(" desc");
        put(out[KHALYKSOR_DESC_ASCII_START]);
        put(out[KHALYKSOR_DESC_ASCII_LENGTH]);
        put(out[KHALYKSOR_DESC_LANGUAGE]);
        put(out[KHALYKSOR_DESC_UNICODE_START]);
        put(out[KHALYKSOR_DESC_UNICODE_LENGTH]);
        return KHALYKSOR_DESC_UNICODE_LENGTH + 1;
    case KHALYKSOR_TYPE_MLUC:
        printf(" mluc");
        put(out[KHALYKSOR_MLUC_RECORDS]);
        return KHALYKSOR_MLUC_RECORDS + 1;
    default:
        printf(" another type");
        return KHALYKSOR_STRING_WORDS;
    }
}

static int put_curve(void)
{
    put(out[KHALYKSOR_CURVE_KIND]);
    put(out[KHALYKSOR_CURVE_START]);
    put(out[KHALYKSOR_CURVE_COUNT]);
    put_signed(out[KHALYKSOR_CURVE_G]);
    put_signed(out[KHALYKSOR_CURVE_A]);
    put_signed(out[KHALYKSOR_CURVE_B]);
    put_signed(out[KHALYKSOR_CURVE_C]);
    put_signed(out[KHALYKSOR_CURVE_D]);
    put_signed(out[KHALYKSOR_CURVE_E]);
    put_signed(out[KHALYKSOR_CURVE_F]);
    put(out[KHALYKSOR_CURVE_CONSUMED]);
    return KHALYKSOR_CURVE_CONSUMED + 1;
}

static int put_date(void)
{
    put_row(KHALYKSOR_DATE_YEAR, 2);
    put_row(KHALYKSOR_DATE_MONTH, 2);
    put_row(KHALYKSOR_DATE_DAY, 2);
    put_row(KHALYKSOR_DATE_HOUR, 2);
    put_row(KHALYKSOR_DATE_MINUTE, 2);
    put_row(KHALYKSOR_DATE_SECOND, 2);
    return KHALYKSOR_DATE_SECOND + 2;
}

static int put_meas(void)
{
    put(out[KHALYKSOR_MEAS_OBSERVER]);
    put_signed_row(KHALYKSOR_MEAS_BACKING, 3);
    put(out[KHALYKSOR_MEAS_GEOMETRY]);
    put(out[KHALYKSOR_MEAS_FLARE]);
    put(out[KHALYKSOR_MEAS_ILLUMINANT]);
    return KHALYKSOR_MEAS_ILLUMINANT + 1;
}

static int put_view(void)
{
    put_signed_row(KHALYKSOR_VIEW_ILLUMINANT, 3);
    put_signed_row(KHALYKSOR_VIEW_SURROUND, 3);
    put(out[KHALYKSOR_VIEW_TYPE]);
    return KHALYKSOR_VIEW_TYPE + 1;
}

static int put_xyz(void)
{
    put_signed(out[KHALYKSOR_XYZ_X]);
    put_signed(out[KHALYKSOR_XYZ_Y]);
    put_signed(out[KHALYKSOR_XYZ_Z]);
    return KHALYKSOR_XYZ_Z + 1;
}

static int put_cicp(const Job *job)
{
    put(out[KHALYKSOR_CICP_PRIMARIES]);
    put(out[KHALYKSOR_CICP_TRANSFER]);
    put(out[KHALYKSOR_CICP_MATRIX]);
    put(out[KHALYKSOR_CICP_RANGE]);
    if (khalyksor_full_range(out[KHALYKSOR_CICP_RANGE]) != (profile[job->offset + 11] == 1 ? 1u : 0u))
        fail(job, "the full range is not what the flag says");
    return KHALYKSOR_CICP_RANGE + 1;
}

/* ---- the records in the slots, each word by its name; answers how many words they take */

static uint32_t put_curve_records(void)
{
    uint64_t count = out[KHALYKSOR_MAB_A_CURVES] + out[KHALYKSOR_MAB_M_CURVES] + out[KHALYKSOR_MAB_B_CURVES];
    uint32_t at = 0;
    for (; count > 0; count--) {
        put(words[at + KHALYKSOR_CURVE_KIND]);
        put(words[at + KHALYKSOR_CURVE_START]);
        put(words[at + KHALYKSOR_CURVE_COUNT]);
        put(words[at + KHALYKSOR_CURVE_G]);
        put(words[at + KHALYKSOR_CURVE_A]);
        put(words[at + KHALYKSOR_CURVE_B]);
        put(words[at + KHALYKSOR_CURVE_C]);
        put(words[at + KHALYKSOR_CURVE_D]);
        put(words[at + KHALYKSOR_CURVE_E]);
        put(words[at + KHALYKSOR_CURVE_F]);
        at += KHALYKSOR_CURVE_RECORD_WORDS;
    }
    return at;
}

static uint32_t put_string_records(void)
{
    uint64_t count = out[KHALYKSOR_MLUC_RECORDS];
    uint32_t at = 0;
    for (; count > 0; count--) {
        put(words[at + KHALYKSOR_MLUC_RECORD_LANGUAGE]);
        put(words[at + KHALYKSOR_MLUC_RECORD_COUNTRY]);
        put(words[at + KHALYKSOR_MLUC_RECORD_START]);
        put(words[at + KHALYKSOR_MLUC_RECORD_LENGTH]);
        at += KHALYKSOR_MLUC_RECORD_WORDS;
    }
    return at;
}

static uint32_t put_records(uint32_t status)
{
    if (status != KHALYKSOR_VALUE)
        return 0;
    switch (out[0]) {
    case KHALYKSOR_TYPE_MAB:
    case KHALYKSOR_TYPE_MBA:
        return put_curve_records();
    case KHALYKSOR_TYPE_MLUC:
        return put_string_records();
    default:
        return 0;
    }
}

/* Prints the words, and answers how many they are. */
static int put_value(const Job *job)
{
    switch (job->reader) {
    case 1:
    case 11:
        return put_lut();
    case 2:
    case 12:
        return put_curve();
    case 3:
        return put_string();
    case 4:
        put_signed_row(KHALYKSOR_CHAD_MATRIX, 9);
        return KHALYKSOR_CHAD_MATRIX + 9;
    case 5:
        put(out[KHALYKSOR_SIG_SIGNATURE]);
        return KHALYKSOR_SIG_SIGNATURE + 1;
    case 6:
        return put_date();
    case 7:
        return put_meas();
    case 8:
        return put_view();
    case 9:
        return put_xyz();
    case 10:
        return put_cicp(job);
    default:
        put(out[KHALYKSOR_ENTRY_NUMBER]);
        return KHALYKSOR_ENTRY_NUMBER + 1;
    }
}

static void answer(const Job *job)
{
    uint64_t room = room_of(job);
    uint32_t status, i;
    mark(job);
    status = call(job, room - 1);
    if (status != KHALYKSOR_NO_ROOM && job->reader != 13)
        fail(job, "an out one word too short was taken");
    stays(job, 0, "a word of an out that is too short was written");
    if (job->reader != 13)
        for (i = 0; i < job->lent; i++)
            if (words[i] != 0xA5A50000u + i % 0x10000)
                fail(job, "a slot was written without room");

    mark(job);
    status = call(job, room);
    if (status == KHALYKSOR_VALUE) {
        printf("value");
        stays(job, (uint64_t)put_value(job), "a word behind the answer's was written");
    } else {
        if (status == KHALYKSOR_ABSENT)
            printf("absent");
        else if (status == KHALYKSOR_DEFAULT)
            printf("default");
        else
            printf("refused %u", (unsigned)status);
        stays(job, 0, "out was written without a value");
    }
    if (job->reader == 1 || job->reader == 3 || job->reader == 11) {
        printf(" |");
        for (i = put_records(status); i < job->lent; i++)
            put(words[i]);
    }
    printf("\n");
}

/* ---- an evaluation */

static void number(uint16_t *numbers, uint32_t count)
{
    uint32_t i;
    for (i = 0; i < count; i++)
        numbers[i] = (uint16_t)(0xA500u + i);
}

static void stays_numbered(const Job *job, const uint16_t *numbers, uint32_t from, uint32_t end, const char *what)
{
    for (; from < end; from++)
        if (numbers[from] != (uint16_t)(0xA500u + from))
            fail(job, what);
}

/* The pixel as a row, and twice in one: the same results, one behind the other. Coordinates that are no pixel's may be some of a row, so those are left out. */
static void same_in_a_row(const Job *job, uint32_t status, uint32_t results)
{
    uint32_t times, i;
    if (status != KHALYKSOR_VALUE && job->coordinates != lut[KHALYKSOR_LUT_INPUTS])
        return;
    for (times = 1; times <= 2; times++) {
        uint32_t got;
        number(row, 2 * MOST_ROOM + SPARE);
        got = khalyksor_evaluate_row(profile + job->offset, job->size, lut, KHALYKSOR_LUT_WORDS, job->pixel, times * (uint64_t)job->coordinates, row,
                                     times * (uint64_t)job->room);
        if (got != status)
            fail(job, "a row has another status than its pixel");
        for (i = 0; i < times * results; i++)
            if (row[i] != buffer[i % results])
                fail(job, "a row has other results than its pixel");
        stays_numbered(job, row, times * results, 2 * MOST_ROOM + SPARE, "a number behind the results of a row was written");
    }
}

static void answer_pixel(const Job *job)
{
    uint32_t status, results = 0, i;
    mark(job);
    status = khalyksor_read_lut_tag(profile, job->length, job->offset, job->size, job->limit, job->points, KHALYKSOR_WALK_CRATE, words, job->lent, lut,
                                    KHALYKSOR_LUT_WORDS);
    if (status == KHALYKSOR_ABSENT) {
        printf("absent\n");
        return;
    }
    if (status != KHALYKSOR_VALUE) {
        printf("refused %u\n", (unsigned)status);
        return;
    }
    number(buffer, MOST_ROOM + SPARE);
    if (khalyksor_evaluate(profile + job->offset, job->size, lut, KHALYKSOR_LUT_WORDS - 1, job->pixel, job->coordinates, buffer, job->room) != KHALYKSOR_NO_ROOM
        || khalyksor_evaluate_row(profile + job->offset, job->size, lut, KHALYKSOR_LUT_WORDS - 1, job->pixel, job->coordinates, buffer, job->room)
               != KHALYKSOR_NO_ROOM)
        fail(job, "a lookup table one word too short was taken");
    stays_numbered(job, buffer, 0, MOST_ROOM + SPARE, "a number was written without the words of a lookup table");
    status = khalyksor_evaluate(profile + job->offset, job->size, lut, KHALYKSOR_LUT_WORDS, job->pixel, job->coordinates, buffer, job->room);
    if (status == KHALYKSOR_VALUE) {
        results = (uint32_t)lut[KHALYKSOR_LUT_OUTPUTS];
        printf("value %u", (unsigned)results);
        for (i = 0; i < results; i++)
            put(buffer[i]);
    } else if (status == KHALYKSOR_REFUSED_NO_COLOUR_TABLE || status == KHALYKSOR_REFUSED_TOO_FEW_SLOTS)
        printf("refused %u", (unsigned)status);
    else
        fail(job, "an evaluation has a status that is none of its own");
    stays_numbered(job, buffer, results, MOST_ROOM + SPARE, "a number behind the results was written");
    printf(" |");
    for (i = 0; i < job->room; i++)
        put(buffer[i]);
    printf("\n");
    same_in_a_row(job, status, results);
}

/* Reads a job: 1 if there was one, 0 at the end, -1 if it is none. */
static int read_job(Job *job)
{
    uint8_t head[HEAD], behind[BEHIND_PIXEL];
    size_t n = fread(head, 1, HEAD, stdin);
    memset(job, 0, sizeof *job);
    if (n == 0)
        return 0;
    if (n < HEAD || head[0] < 1 || head[0] > 14)
        return -1;
    job->reader = head[0];
    job->offset = (uint32_t)number_at(head + 1, 4);
    job->size = (uint32_t)number_at(head + 5, 4);
    job->limit = number_at(head + 9, 8);
    job->points = number_at(head + 17, 8);
    job->lent = (uint32_t)number_at(head + 25, 4);
    job->length = (uint32_t)number_at(head + 29, 4);
    if (job->lent > MOST_WORDS || job->length > MOST_BYTES || fread(profile, 1, job->length, stdin) < job->length)
        return -1;
    if (job->reader == 13) {
        if (fread(behind, 1, BEHIND, stdin) < BEHIND)
            return -1;
        job->coordinates = behind[0];
        memcpy(job->index, behind + 1, sizeof job->index);
        job->channel = behind[17];
    }
    if (job->reader == 14) {
        uint32_t i;
        if (fread(behind, 1, BEHIND_PIXEL, stdin) < BEHIND_PIXEL)
            return -1;
        job->coordinates = behind[0];
        if (job->coordinates > MOST_COORDINATES)
            job->coordinates = MOST_COORDINATES;
        for (i = 0; i < job->coordinates; i++)
            job->pixel[i] = job->pixel[i + job->coordinates] = (uint16_t)number_at(behind + 1 + 2 * i, 2);
        job->room = (uint32_t)number_at(behind + 17, 2);
        if (job->room > MOST_ROOM)
            return -1;
    }
    return 1;
}

int main(void)
{
    Job job;
    int found;
    if (khalyksor_version() != KHALYKSOR_VERSION) {
        fprintf(stderr, "the header is of another version than the library\n");
        return EXIT_FAILURE;
    }
    while ((found = read_job(&job)) > 0)
        if (job.reader == 14)
            answer_pixel(&job);
        else
            answer(&job);
    if (found < 0)
        printf("bad job\n");
    return fflush(stdout) == 0 ? EXIT_SUCCESS : EXIT_FAILURE;
}
