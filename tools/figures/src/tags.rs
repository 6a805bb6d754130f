//! The tags that are timed. Each stands in a profile of its own, behind 128 bytes, but for the date, which both read at its front.
use crate::{Kind, ParsingOptions};

#[derive(Clone, Copy, PartialEq)]
pub enum Reader {
    Lut,
    Trc,
    Text,
    Chad,
    Sig,
    Dtim,
    Meas,
    View,
    Xyz,
    Cicp,
}

impl Reader {
    pub fn name(self) -> &'static str {
        match self {
            Reader::Lut => "lookup table",
            Reader::Trc => "tone curve",
            Reader::Text => "text",
            Reader::Chad => "`chad`",
            Reader::Sig => "`sig `",
            Reader::Dtim => "`dtim`",
            Reader::Meas => "`meas`",
            Reader::View => "`view`",
            Reader::Xyz => "`XYZ `",
            Reader::Cicp => "`cicp`",
        }
    }
}

/// The limits: the house's of curve entries, and more than 33^4 grid points, which pass the house's 1,000,000.
const ENTRIES: u64 = 4_096;
const POINTS: u64 = 2_000_000;

pub struct Tag {
    pub reader: Reader,
    pub name: String,
    pub answer: Kind,
    pub profile: Vec<u8>,
    pub offset: u32,
    pub size: u32,
    pub limit: u64,
    pub points: u64,
}

impl Tag {
    pub fn options(&self) -> ParsingOptions {
        ParsingOptions {
            max_profile_size: usize::MAX,
            max_allowed_trc_size: self.limit as usize,
            max_allowed_clut_size: self.points as usize,
        }
    }
}

fn tag(reader: Reader, name: impl Into<String>, answer: Kind, bytes: Vec<u8>) -> Tag {
    let before = if reader == Reader::Dtim { 0 } else { 128 };
    let size = bytes.len() as u32;
    let mut profile = vec![0; before];
    profile.extend(bytes);
    Tag { reader, name: name.into(), answer, profile, offset: before as u32, size, limit: ENTRIES, points: POINTS }
}

fn sized(mut tag: Tag, size: u32) -> Tag {
    tag.size = size;
    tag
}

fn of(kind: &[u8; 4], behind: &[u8]) -> Vec<u8> {
    [&kind[..], &[0; 4], behind].concat()
}

fn words(numbers: &[u32]) -> Vec<u8> {
    numbers.iter().flat_map(|n| n.to_be_bytes()).collect()
}

fn curv(entries: u32) -> Vec<u8> {
    let mut behind = words(&[entries]);
    behind.extend((0..entries).flat_map(|i| (i as u16).to_be_bytes()));
    of(b"curv", &behind)
}

fn para(function: u16, parameters: u32) -> Vec<u8> {
    let mut behind = function.to_be_bytes().to_vec();
    behind.extend([0; 2]);
    behind.extend(words(&(0..parameters).map(|i| 65536 + i).collect::<Vec<_>>()));
    of(b"para", &behind)
}

/// `mft1` or `mft2` with three output channels; `mft2` has 256 entries a channel too.
fn mft(wide: bool, inputs: u8, grid: u8) -> Vec<u8> {
    let mut behind = vec![inputs, 3, grid, 0];
    behind.extend(words(&[65536, 0, 0, 0, 65536, 0, 0, 0, 65536]));
    if wide {
        behind.extend([1, 0, 1, 0]);
    }
    let entries = 256 * inputs as usize + 3 * (grid as usize).pow(inputs as u32) + 256 * 3;
    behind.extend((0..entries << wide as u32).map(|i| i as u8));
    of(if wide { b"mft2" } else { b"mft1" }, &behind)
}

/// `mAB ` to three channels: B, matrix, M, a colour table of so many points a dimension unless it is 0, A. `curve` is every curve.
fn mab(inputs: u8, grid: u8, size: u8, curve: &[u8]) -> Vec<u8> {
    let mut tag = of(b"mAB ", &[inputs, 3, 0, 0]);
    tag.extend([0; 20]);
    let put = |tag: &mut Vec<u8>, field: usize, bytes: &[u8]| {
        let at = tag.len() as u32;
        tag[field..field + 4].copy_from_slice(&at.to_be_bytes());
        tag.extend(bytes);
        tag.resize(tag.len().next_multiple_of(4), 0);
    };
    let run = |n: u8| {
        let mut all = Vec::new();
        for _ in 0..n {
            all.extend(curve);
            all.resize(all.len().next_multiple_of(4), 0);
        }
        all
    };
    put(&mut tag, 12, &run(3));
    put(&mut tag, 16, &words(&[65536, 0, 0, 0, 65536, 0, 0, 0, 65536, 1, 2, 3]));
    put(&mut tag, 20, &run(3));
    if grid != 0 {
        let mut table = vec![grid; inputs as usize];
        table.resize(16, 0);
        table.extend([size, 0, 0, 0]);
        let entries = 3 * (grid as usize).pow(inputs as u32);
        table.extend((0..entries * size as usize).map(|i| i as u8));
        put(&mut tag, 24, &table);
        put(&mut tag, 28, &run(inputs));
    }
    tag
}

fn only_b(curve: &[u8]) -> Vec<u8> {
    let mut tag = of(b"mAB ", &[3, 3, 0, 0]);
    tag.extend(words(&[32, 0, 0, 0, 0]));
    (0..3).for_each(|_| tag.extend(curve));
    tag
}

/// So many bytes of ASCII.
fn letters(n: usize) -> Vec<u8> {
    (0..n).map(|i| b'a' + (i % 26) as u8).collect()
}

fn desc(ascii: usize, unicode: usize) -> Vec<u8> {
    let mut behind = words(&[ascii as u32 + 1]);
    behind.extend(letters(ascii));
    behind.push(0);
    if unicode != 0 {
        behind.extend(words(&[7, unicode as u32 + 1]));
        behind.extend(letters(unicode).iter().flat_map(|&b| [0, b]));
        behind.extend([0; 2]);
    }
    of(b"desc", &behind)
}

/// So many strings of 20 characters.
fn mluc(records: u32) -> Vec<u8> {
    let mut behind = words(&[records, 12]);
    for k in 0..records {
        behind.extend(b"enUS");
        behind.extend(words(&[40, 16 + 12 * records + 40 * k]));
    }
    (0..records).for_each(|_| behind.extend(letters(20).iter().flat_map(|&b| [0, b])));
    of(b"mluc", &behind)
}

fn numbers(kind: &[u8; 4], n: u32) -> Vec<u8> {
    of(kind, &words(&(0..n).map(|i| 60000 + i).collect::<Vec<_>>()))
}

/// Every reader: values small and large, an absence, a refusal.
pub fn all() -> Vec<Tag> {
    use Kind::*;
    use Reader::*;
    let mut tags = vec![
        tag(Trc, "`curv`, empty", Value, curv(0)),
        tag(Trc, "`curv`, 2 entries", Value, curv(2)),
        tag(Trc, "`curv`, 256 entries", Value, curv(256)),
        tag(Trc, "`curv`, 4,096 entries", Value, curv(4096)),
        tag(Trc, "`para`, type 0", Value, para(0, 1)),
        tag(Trc, "`para`, type 4", Value, para(4, 7)),
        sized(tag(Trc, "size 11", Absent, curv(0)), 11),
        tag(Trc, "4,097 entries (10)", Refused, curv(4097)),
        tag(Trc, "another type (9)", Refused, numbers(b"XYZ ", 3)),
    ];
    for (wide, name) in [(false, "mft1"), (true, "mft2")] {
        tags.push(tag(Lut, format!("`{name}`, 2^3 points"), Value, mft(wide, 3, 2)));
        tags.push(tag(Lut, format!("`{name}`, 33^3 points"), Value, mft(wide, 3, 33)));
    }
    tags.extend([
        tag(Lut, "`mAB `, B only, empty curves", Value, only_b(&curv(0))),
        tag(Lut, "`mAB `, B and M `para` type 4, matrix", Value, mab(3, 0, 1, &para(4, 7))),
        tag(Lut, "`mAB `, B and M `curv` of 256 entries, matrix", Value, mab(3, 0, 1, &curv(256))),
        tag(Lut, "`mAB `, all parts, `para` type 0, 2^3 points", Value, mab(3, 2, 1, &para(0, 1))),
        tag(Lut, "`mAB `, all parts, `curv` of 256 entries, 33^3 points", Value, mab(3, 33, 2, &curv(256))),
        tag(Lut, "`mAB `, 5 to 5 channels", Absent, {
            let mut t = only_b(&curv(0));
            t[8..10].copy_from_slice(&[5, 5]);
            t
        }),
        tag(Lut, "another type (3)", Refused, numbers(b"XYZ ", 12)),
        tag(Lut, "`mft1`, cut short (2)", Refused, mft(false, 3, 9)[..3000].to_vec()),
        tag(Lut, "`mAB `, a curve past the tag (2)", Refused, only_b(&curv(2))[..70].to_vec()),
        tag(Text, "`text`, 30 bytes", Value, of(b"text", &[letters(29), vec![0]].concat())),
        tag(Text, "`text`, 3,000 bytes", Value, of(b"text", &[letters(2999), vec![0]].concat())),
        tag(Text, "`text`, 3,000 zero bytes", Value, of(b"text", &[0; 3000])),
        tag(Text, "`desc`, 30 bytes of ASCII", Value, desc(30, 0)),
        tag(Text, "`desc`, 30 bytes of ASCII, 30 units of Unicode", Value, desc(30, 30)),
        tag(Text, "`mluc`, 1 record", Value, mluc(1)),
        tag(Text, "`mluc`, 40 records", Value, mluc(40)),
        tag(Text, "another type", Absent, numbers(b"XYZ ", 3)),
        tag(Text, "`desc`, cut short (2)", Refused, desc(30, 0)[..20].to_vec()),
        tag(Chad, "value", Value, numbers(b"sf32", 9)),
        tag(Chad, "size 43", Absent, numbers(b"sf32", 9)[..43].to_vec()),
        tag(Chad, "another type (17)", Refused, numbers(b"XYZ ", 9)),
        tag(Sig, "value", Value, of(b"sig ", b"fscn")),
        tag(Sig, "another type", Absent, numbers(b"XYZ ", 3)),
        tag(Sig, "size 11 (2)", Refused, of(b"sig ", b"fsc")),
        tag(Dtim, "value", Value, of(b"dtim", &[7, 230, 0, 5, 0, 6, 0, 7, 0, 8, 0, 9])),
        tag(Dtim, "another type", Absent, numbers(b"XYZ ", 3)),
        sized(tag(Dtim, "past the profile (1)", Refused, numbers(b"dtim", 3)), 40),
        tag(Meas, "value", Value, of(b"meas", &words(&[1, 2, 3, 4, 1, 6, 1]))),
        tag(Meas, "another type", Absent, numbers(b"XYZ ", 7)),
        tag(Meas, "24 bytes (1)", Refused, numbers(b"meas", 4)),
        tag(View, "value", Value, numbers(b"view", 7)),
        tag(View, "another type", Absent, numbers(b"XYZ ", 7)),
        sized(tag(View, "past the profile (1)", Refused, numbers(b"view", 4)), 36),
        tag(Xyz, "value", Value, numbers(b"XYZ ", 3)),
        tag(Xyz, "another type, the default", Absent, numbers(b"view", 3)),
        tag(Xyz, "16 bytes (2)", Refused, numbers(b"XYZ ", 2)),
        tag(Cicp, "value", Value, of(b"cicp", &[9, 16, 0, 1])),
        tag(Cicp, "another type", Absent, numbers(b"XYZ ", 3)),
        sized(tag(Cicp, "past the profile (1)", Refused, of(b"cicp", &[9, 16, 0, 1])), 40),
    ]);
    tags
}

/// Lookup tables by their grid points.
pub fn growth() -> Vec<Tag> {
    let grids = [(3, 2), (3, 5), (3, 9), (3, 17), (3, 33), (4, 9), (4, 17), (4, 33)];
    let mut tags = Vec::new();
    for (name, make) in [
        ("`mft1`", (|i, g| mft(false, i, g)) as fn(u8, u8) -> Vec<u8>),
        ("`mft2`", |i, g| mft(true, i, g)),
        ("`mAB `, one byte an entry", |i, g| mab(i, g, 1, &para(0, 1))),
        ("`mAB `, two bytes an entry", |i, g| mab(i, g, 2, &para(0, 1))),
    ] {
        for (inputs, grid) in grids {
            tags.push(tag(Reader::Lut, format!("{name}, {grid}^{inputs} points"), Kind::Value, make(inputs, grid)));
        }
    }
    tags
}
