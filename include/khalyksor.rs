// khalyksor.rs: the readers of ICC tags for Rust. Made of tools/names.toml by tools/header; not to be edited.
//
// Each function answers every call: any profile, offset, size and limit. It returns a status, KHALYKSOR_VALUE,
// KHALYKSOR_ABSENT, KHALYKSOR_DEFAULT, KHALYKSOR_NO_ROOM or the number of a refusal. The words of a value stand in
// front of `out`, at the places that are named below, and the rest of `out` stays as it was; on any other status all of
// `out`, of `slots` and of `results` does.
//
// Lengths are uint64_t on every target, also where size_t has 32 bits. They count elements: bytes of `profile`, `tag`
// and `index`, numbers of `coordinates` and `results`, words of `slots`, `lut` and `out`.
//
// A pointer is good for as many elements as the length beside it says, and aligned as its type asks. With a length of 0
// nothing is read or written there, and the pointer may be null. What is lent for writing, `out`, `slots` and
// `results`, overlaps nothing else that is passed. Nothing else is asked, and the functions do not test this.
//
// `offset` and `size` are those of the profile's tag table. Positions in answers, KHALYKSOR_..._START, count bytes from
// the tag's first byte, that is from profile + offset.
//
// A word of `out` has 64 bits, one of `slots` 32 and a number of `coordinates` and `results` 16, in the order of the
// machine that runs, not big-endian as in the profile. Where a word is a signed number, an s15Fixed16, it is a 32-bit
// word in two's complement: (int32_t)out[i], not (int64_t)out[i]. It means that number over 65536.
//
// Limits are the caller's: `limit` is how many entries a curve may have, `points` how many grid points a colour table
// of mft1 or mft2 may have. 0 is a limit of none at all, not `no limit`.
//
// Nothing is allocated, kept between calls or printed, and there are no floats. Threads may call all functions at once,
// also on one profile. Of a C library nothing is called but, on some targets, memcpy and memset.
#![allow(dead_code)]

// The version of this file. khalyksor_version() tells that of the library.
pub const KHALYKSOR_VERSION: u32 = 2 * 0x1_0000 + 1;

// What a function returns that is no refusal.
pub const KHALYKSOR_VALUE: u32 = 0; // a value: its words stand in front of out, and of what needs records, these in slots; of an evaluation, its results in front of results
pub const KHALYKSOR_ABSENT: u32 = 100; // nothing there for this function; no fault is named
pub const KHALYKSOR_DEFAULT: u32 = 101; // XYZ alone: there was nothing to read, which stands for three zeros
pub const KHALYKSOR_NO_ROOM: u32 = 102; // out, or the lut of khalyksor_entry_at and of an evaluation, has fewer words than the function asks for; nothing was read or written

// Refusals: what a function returns for a fault.
pub const KHALYKSOR_REFUSED_PAST_PROFILE: u32 = 1; // bytes that are needed lie past the profile
pub const KHALYKSOR_REFUSED_TAG_TOO_SHORT: u32 = 2; // the tag is too short for what it holds
pub const KHALYKSOR_REFUSED_OTHER_LUT: u32 = 3; // a lookup table of another type than mft1, mft2, mAB and mBA
pub const KHALYKSOR_REFUSED_GRID_OVERFLOW: u32 = 4; // the product of the grid passes 32 bits
pub const KHALYKSOR_REFUSED_GRID_ZERO: u32 = 5; // the product of the grid is 0
pub const KHALYKSOR_REFUSED_GRID_TOO_LARGE: u32 = 6; // the product of the grid is above 10,000,000
pub const KHALYKSOR_REFUSED_GRID_DIMENSION: u32 = 7; // a grid dimension that is used is below 2
pub const KHALYKSOR_REFUSED_ENTRY_SIZE: u32 = 8; // an entry of the colour table has neither 1 byte nor 2
pub const KHALYKSOR_REFUSED_OTHER_CURVE: u32 = 9; // a curve that is neither curv nor para
pub const KHALYKSOR_REFUSED_TOO_MANY_ENTRIES: u32 = 10; // a curve has more entries than limit
pub const KHALYKSOR_REFUSED_CURVE_RUNS_OUT: u32 = 11; // the data of a curve run out
pub const KHALYKSOR_REFUSED_FUNCTION_TYPE: u32 = 12; // a function type above 4
pub const KHALYKSOR_REFUSED_ZERO_DIVISION: u32 = 13; // a function of type 1 or 2 with a = 0
pub const KHALYKSOR_REFUSED_TOO_FEW_SLOTS: u32 = 14; // more records than slots; of an evaluation, more results than results has room for
pub const KHALYKSOR_REFUSED_BAD_TABLE: u32 = 15; // mft1, mft2: entries, channels or grid points that are not allowed
pub const KHALYKSOR_REFUSED_GRID_OVER_LIMIT: u32 = 16; // mft1, mft2: more grid points than points
pub const KHALYKSOR_REFUSED_BAD_CHAD: u32 = 17; // chad: another type, or a size of 45 to 47
pub const KHALYKSOR_REFUSED_NO_COLOUR_TABLE: u32 = 19; // an evaluation: no colour table of 1 to 4 inputs, or not as many coordinates as it has inputs

// How a run of curves steps over an empty one.
pub const KHALYKSOR_WALK_CRATE: u32 = 0; // an empty curve moves the walk by nothing, as in moxcms: the next channel reads it again
pub const KHALYKSOR_WALK_BOOK: u32 = 1; // an empty curve is stepped over by its 12 bytes, as ICC.1:2022 lays it out; so for any number but 0

// Kinds of a curve.
pub const KHALYKSOR_KIND_IDENTITY: u32 = 0; // stored with no entries
pub const KHALYKSOR_KIND_TABLE: u32 = 1; // KHALYKSOR_CURVE_COUNT entries of two bytes, big-endian, from KHALYKSOR_CURVE_START on; one entry is a gamma, u8Fixed8
pub const KHALYKSOR_KIND_FUNCTION_0: u32 = 2; // Y = X^g
pub const KHALYKSOR_KIND_FUNCTION_1: u32 = 3; // with g a b
pub const KHALYKSOR_KIND_FUNCTION_2: u32 = 4; // with g a b c
pub const KHALYKSOR_KIND_FUNCTION_3: u32 = 5; // with g a b c d
pub const KHALYKSOR_KIND_FUNCTION_4: u32 = 6; // with g a b c d e f

// Types of a tag: the first four bytes, as one big-endian number.
pub const KHALYKSOR_TYPE_CURV: u32 = 0x63757276;
pub const KHALYKSOR_TYPE_PARA: u32 = 0x70617261;
pub const KHALYKSOR_TYPE_MFT1: u32 = 0x6d667431;
pub const KHALYKSOR_TYPE_MFT2: u32 = 0x6d667432;
pub const KHALYKSOR_TYPE_MAB: u32 = 0x6d414220;
pub const KHALYKSOR_TYPE_MBA: u32 = 0x6d424120;
pub const KHALYKSOR_TYPE_MLUC: u32 = 0x6d6c7563;
pub const KHALYKSOR_TYPE_DESC: u32 = 0x64657363;
pub const KHALYKSOR_TYPE_TEXT: u32 = 0x74657874;
pub const KHALYKSOR_TYPE_XYZ: u32 = 0x58595a20;
pub const KHALYKSOR_TYPE_SF32: u32 = 0x73663332;
pub const KHALYKSOR_TYPE_MEAS: u32 = 0x6d656173;
pub const KHALYKSOR_TYPE_VIEW: u32 = 0x76696577;
pub const KHALYKSOR_TYPE_CICP: u32 = 0x63696370;
pub const KHALYKSOR_TYPE_SIG: u32 = 0x73696720;
pub const KHALYKSOR_TYPE_DTIM: u32 = 0x6474696d;

// Limits.
pub const KHALYKSOR_HOUSE_LIMIT: u64 = 4096; // the house limit of a curve's entries
pub const KHALYKSOR_HOUSE_POINTS: u64 = 1000000; // the house limit of grid points, for mft1 and mft2
pub const KHALYKSOR_LUT_RECORDS: u64 = 514; // no lookup table has more curves, so slots for so many records are never too few

// How many words `out` must have.
pub const KHALYKSOR_LUT_WORDS: usize = 37; // khalyksor_read_lut_tag
pub const KHALYKSOR_CURVE_WORDS: usize = 11; // khalyksor_read_trc_tag
pub const KHALYKSOR_STRING_WORDS: usize = 6; // khalyksor_read_string_tag
pub const KHALYKSOR_CHAD_WORDS: usize = 9; // khalyksor_read_chad_tag
pub const KHALYKSOR_SIG_WORDS: usize = 1; // khalyksor_read_tech_tag
pub const KHALYKSOR_DATE_WORDS: usize = 12; // khalyksor_read_date_time_tag
pub const KHALYKSOR_MEAS_WORDS: usize = 7; // khalyksor_read_meas_tag
pub const KHALYKSOR_VIEW_WORDS: usize = 7; // khalyksor_read_viewing_conditions
pub const KHALYKSOR_XYZ_WORDS: usize = 3; // khalyksor_read_xyz_tag
pub const KHALYKSOR_CICP_WORDS: usize = 4; // khalyksor_read_cicp_tag
pub const KHALYKSOR_ENTRY_WORDS: usize = 1; // khalyksor_entry_at

// How many words of `slots` a record takes.
pub const KHALYKSOR_CURVE_RECORD_WORDS: usize = 10;
pub const KHALYKSOR_MLUC_RECORD_WORDS: usize = 4;

// The words of every lookup table: the first three.
pub const KHALYKSOR_LUT_TYPE: usize = 0;
pub const KHALYKSOR_LUT_INPUTS: usize = 1;
pub const KHALYKSOR_LUT_OUTPUTS: usize = 2;

// The words of mft1 and mft2: channels, grid points of each dimension, entries of each input and output curve, the
// matrix row by row, and where the tables lie.
pub const KHALYKSOR_MFT_GRID: usize = 3;
pub const KHALYKSOR_MFT_INPUT_ENTRIES: usize = 4;
pub const KHALYKSOR_MFT_OUTPUT_ENTRIES: usize = 5;
pub const KHALYKSOR_MFT_MATRIX: usize = 6; // 9 words, signed
pub const KHALYKSOR_MFT_INPUT_START: usize = 15;
pub const KHALYKSOR_MFT_INPUT_LENGTH: usize = 16;
pub const KHALYKSOR_MFT_CLUT_START: usize = 17;
pub const KHALYKSOR_MFT_CLUT_LENGTH: usize = 18;
pub const KHALYKSOR_MFT_OUTPUT_START: usize = 19;
pub const KHALYKSOR_MFT_OUTPUT_LENGTH: usize = 20;

// The words of mAB and mBA: grid points of each dimension, the matrix row by row and its bias, where the colour table's
// entries lie and how many bytes one has (0 where there is no colour table), and how many curves the runs A, M and B
// have; their records stand in slots, A first.
pub const KHALYKSOR_MAB_GRID: usize = 3; // 16 words
pub const KHALYKSOR_MAB_MATRIX: usize = 19; // 9 words, signed
pub const KHALYKSOR_MAB_BIAS: usize = 28; // 3 words, signed
pub const KHALYKSOR_MAB_CLUT_START: usize = 31;
pub const KHALYKSOR_MAB_CLUT_LENGTH: usize = 32;
pub const KHALYKSOR_MAB_ENTRY_SIZE: usize = 33;
pub const KHALYKSOR_MAB_A_CURVES: usize = 34;
pub const KHALYKSOR_MAB_M_CURVES: usize = 35;
pub const KHALYKSOR_MAB_B_CURVES: usize = 36;

// The words of a curve: its record, and behind it, in out alone, how many bytes the curve takes. The parameters that
// its kind does not have are 0.
pub const KHALYKSOR_CURVE_KIND: usize = 0;
pub const KHALYKSOR_CURVE_START: usize = 1;
pub const KHALYKSOR_CURVE_COUNT: usize = 2;
pub const KHALYKSOR_CURVE_G: usize = 3; // signed
pub const KHALYKSOR_CURVE_A: usize = 4; // signed
pub const KHALYKSOR_CURVE_B: usize = 5; // signed
pub const KHALYKSOR_CURVE_C: usize = 6; // signed
pub const KHALYKSOR_CURVE_D: usize = 7; // signed
pub const KHALYKSOR_CURVE_E: usize = 8; // signed
pub const KHALYKSOR_CURVE_F: usize = 9; // signed
pub const KHALYKSOR_CURVE_CONSUMED: usize = 10;

// The words of every text: the first.
pub const KHALYKSOR_STRING_TYPE: usize = 0;

// The words of text.
pub const KHALYKSOR_TEXT_START: usize = 1;
pub const KHALYKSOR_TEXT_LENGTH: usize = 2;

// The words of desc: the ASCII string, the language code, and the Unicode string, UTF-16 with the high byte first.
pub const KHALYKSOR_DESC_ASCII_START: usize = 1;
pub const KHALYKSOR_DESC_ASCII_LENGTH: usize = 2;
pub const KHALYKSOR_DESC_LANGUAGE: usize = 3;
pub const KHALYKSOR_DESC_UNICODE_START: usize = 4;
pub const KHALYKSOR_DESC_UNICODE_LENGTH: usize = 5;

// The words of mluc: how many records stand in slots.
pub const KHALYKSOR_MLUC_RECORDS: usize = 1;

// The words of a record of mluc: two letters of the language and two of the country, each pair as one number, and where
// the string lies, UTF-16 with the high byte first.
pub const KHALYKSOR_MLUC_RECORD_LANGUAGE: usize = 0;
pub const KHALYKSOR_MLUC_RECORD_COUNTRY: usize = 1;
pub const KHALYKSOR_MLUC_RECORD_START: usize = 2;
pub const KHALYKSOR_MLUC_RECORD_LENGTH: usize = 3;

// The words of chad: the matrix, row by row.
pub const KHALYKSOR_CHAD_MATRIX: usize = 0; // 9 words, signed

// The words of sig.
pub const KHALYKSOR_SIG_SIGNATURE: usize = 0;

// The words of the date: two bytes each of year, month, day, hour, minute and second, the high one first.
pub const KHALYKSOR_DATE_YEAR: usize = 0; // 2 words
pub const KHALYKSOR_DATE_MONTH: usize = 2; // 2 words
pub const KHALYKSOR_DATE_DAY: usize = 4; // 2 words
pub const KHALYKSOR_DATE_HOUR: usize = 6; // 2 words
pub const KHALYKSOR_DATE_MINUTE: usize = 8; // 2 words
pub const KHALYKSOR_DATE_SECOND: usize = 10; // 2 words

// The words of meas: the observer, the backing's X Y Z, the geometry, the flare (over 65536) and the illuminant.
pub const KHALYKSOR_MEAS_OBSERVER: usize = 0;
pub const KHALYKSOR_MEAS_BACKING: usize = 1; // 3 words, signed
pub const KHALYKSOR_MEAS_GEOMETRY: usize = 4;
pub const KHALYKSOR_MEAS_FLARE: usize = 5;
pub const KHALYKSOR_MEAS_ILLUMINANT: usize = 6;

// The words of view: X Y Z of illuminant and surround, and the illuminant's type.
pub const KHALYKSOR_VIEW_ILLUMINANT: usize = 0; // 3 words, signed
pub const KHALYKSOR_VIEW_SURROUND: usize = 3; // 3 words, signed
pub const KHALYKSOR_VIEW_TYPE: usize = 6;

// The words of XYZ.
pub const KHALYKSOR_XYZ_X: usize = 0; // signed
pub const KHALYKSOR_XYZ_Y: usize = 1; // signed
pub const KHALYKSOR_XYZ_Z: usize = 2; // signed

// The words of cicp: the four codes, as they stand.
pub const KHALYKSOR_CICP_PRIMARIES: usize = 0;
pub const KHALYKSOR_CICP_TRANSFER: usize = 1;
pub const KHALYKSOR_CICP_MATRIX: usize = 2;
pub const KHALYKSOR_CICP_RANGE: usize = 3;

// The words of an entry of a colour table.
pub const KHALYKSOR_ENTRY_NUMBER: usize = 0;

unsafe extern "C" {
    // A lookup table: mft1, mft2, mAB or mBA. A size of 0 counts as 12. `limit` counts the entries of a curve of mAB
    // and mBA, `points` the grid points of mft1 and mft2, output channels not counted; the others do not heed it. A
    // record a curve of mAB and mBA goes into `slots`, KHALYKSOR_CURVE_RECORD_WORDS words each.
    pub fn khalyksor_read_lut_tag(
        profile: *const u8,
        profile_length: u64,
        offset: u32,
        size: u32,
        limit: u64,
        points: u64,
        walk: u32,
        slots: *mut u32,
        slots_words: u64,
        out: *mut u64,
        out_words: u64,
    ) -> u32;

    // A tone curve: curv or para. A size of 0 counts up to the profile's end. `limit` counts the entries of a curv. A
    // lone curve answers the same on both walks but for KHALYKSOR_CURVE_CONSUMED of an empty one.
    pub fn khalyksor_read_trc_tag(
        profile: *const u8,
        profile_length: u64,
        offset: u32,
        size: u32,
        limit: u64,
        walk: u32,
        out: *mut u64,
        out_words: u64,
    ) -> u32;

    // Text: text, desc or mluc. A size of 0 counts as 12. A record a string of mluc goes into `slots`,
    // KHALYKSOR_MLUC_RECORD_WORDS words each. Trailing zeros are left out of a string's length.
    pub fn khalyksor_read_string_tag(
        profile: *const u8,
        profile_length: u64,
        offset: u32,
        size: u32,
        slots: *mut u32,
        slots_words: u64,
        out: *mut u64,
        out_words: u64,
    ) -> u32;

    // chad, of type sf32.
    pub fn khalyksor_read_chad_tag(
        profile: *const u8,
        profile_length: u64,
        offset: u32,
        size: u32,
        out: *mut u64,
        out_words: u64,
    ) -> u32;

    // A signature, of type sig.
    pub fn khalyksor_read_tech_tag(
        profile: *const u8,
        profile_length: u64,
        offset: u32,
        size: u32,
        out: *mut u64,
        out_words: u64,
    ) -> u32;

    // The date of a tag of type dtim. As in moxcms the words are the profile's bytes 8 to 19, not the tag's.
    pub fn khalyksor_read_date_time_tag(
        profile: *const u8,
        profile_length: u64,
        offset: u32,
        size: u32,
        out: *mut u64,
        out_words: u64,
    ) -> u32;

    // meas.
    pub fn khalyksor_read_meas_tag(
        profile: *const u8,
        profile_length: u64,
        offset: u32,
        size: u32,
        out: *mut u64,
        out_words: u64,
    ) -> u32;

    // view.
    pub fn khalyksor_read_viewing_conditions(
        profile: *const u8,
        profile_length: u64,
        offset: u32,
        size: u32,
        out: *mut u64,
        out_words: u64,
    ) -> u32;

    // XYZ, the first number. KHALYKSOR_DEFAULT leaves out as it was, and stands for three zeros.
    pub fn khalyksor_read_xyz_tag(
        profile: *const u8,
        profile_length: u64,
        offset: u32,
        size: u32,
        out: *mut u64,
        out_words: u64,
    ) -> u32;

    // cicp. No code is refused.
    pub fn khalyksor_read_cicp_tag(
        profile: *const u8,
        profile_length: u64,
        offset: u32,
        size: u32,
        out: *mut u64,
        out_words: u64,
    ) -> u32;

    // One entry of a colour table. `tag` is the lookup table's own bytes, profile + offset, as many as its size. `lut`
    // is what khalyksor_read_lut_tag wrote into out for this tag, KHALYKSOR_LUT_WORDS words. `index` has a coordinate
    // for each input channel, sixteen at most, the first the slowest. Absent are a coordinate or a channel that the
    // table does not have, too few or too many coordinates, a lookup table without a colour table, and words that are
    // no lookup table's.
    pub fn khalyksor_entry_at(
        tag: *const u8,
        tag_length: u64,
        lut: *const u64,
        lut_words: u64,
        index: *const u8,
        index_length: u64,
        channel: u8,
        out: *mut u64,
        out_words: u64,
    ) -> u32;

    // The colour of a colour table between its points, in integers. `tag` and `lut` are those of khalyksor_entry_at.
    // `coordinates` has a number for each input channel, 1 to 4 of them, 0 the first point of its dimension and 65535
    // the last; the first is the slowest. A result for each output channel, 0 to 65535, goes in front of `results`,
    // lut[KHALYKSOR_LUT_OUTPUTS] of them, and the rest of it stays; entries of one byte count 257 fold. Neighbours
    // blend dimension by dimension, rounded each time: (low * (65535 - rest) + high * rest + 32767) / 65535.
    // KHALYKSOR_REFUSED_NO_COLOUR_TABLE where there is no colour table of 1 to 4 inputs, where the words name none that
    // lies in the tag, and for another number of coordinates; then KHALYKSOR_REFUSED_TOO_FEW_SLOTS for `results` too
    // short.
    pub fn khalyksor_evaluate(
        tag: *const u8,
        tag_length: u64,
        lut: *const u64,
        lut_words: u64,
        coordinates: *const u16,
        coordinates_length: u64,
        results: *mut u16,
        results_length: u64,
    ) -> u32;

    // khalyksor_evaluate of each pixel of a row: coordinates and results stand pixel after pixel, and table and room
    // are judged once. KHALYKSOR_REFUSED_NO_COLOUR_TABLE also for coordinates that are no whole number of pixels. No
    // coordinates are a row of no pixels.
    pub fn khalyksor_evaluate_row(
        tag: *const u8,
        tag_length: u64,
        lut: *const u64,
        lut_words: u64,
        coordinates: *const u16,
        coordinates_length: u64,
        results: *mut u16,
        results_length: u64,
    ) -> u32;

    // Whether out[KHALYKSOR_CICP_RANGE] of cicp says full range: 1 if so, else 0. No status.
    pub fn khalyksor_full_range(
        range: u64,
    ) -> u32;

    // The version of the library that is linked, to be held against KHALYKSOR_VERSION. No status.
    pub fn khalyksor_version() -> u32;
}
