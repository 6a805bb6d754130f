//! Tags: of each type a small good one, and random ones, mostly good, with each number at times at an edge of a check.
use crate::rng::Rng;

pub const PARAMETERS: [usize; 5] = [1, 3, 4, 5, 7]; // of a `para` curve, by function type
pub const LAST: u32 = u32::MAX;

/// The types that each reader takes.
pub fn types_of(reader: u8) -> &'static [&'static [u8; 4]] {
    match reader {
        1 | 11 => &[b"mft1", b"mft2", b"mAB ", b"mBA "],
        2 | 12 => &[b"curv", b"para"],
        3 => &[b"text", b"desc", b"mluc"],
        4 => &[b"sf32"],
        5 => &[b"sig "],
        6 => &[b"dtim"],
        7 => &[b"meas"],
        8 => &[b"view"],
        9 => &[b"XYZ "],
        _ => &[b"cicp"],
    }
}

pub const NEAR_TYPES: [&[u8; 4]; 18] = [
    b"curV", b"cur\0", b"vruc", b"parA", b"par ", b"mab ", b"mBA\0", b"mft3", b"1tfm", b"Text", b"des ", b"mlud", b"sf16", b"SIG ",
    b"xyz ", b"cicP", b"\0\0\0\0", b"\xff\xff\xff\xff",
];

fn u32s(numbers: &[u32]) -> Vec<u8> {
    numbers.iter().flat_map(|number| number.to_be_bytes()).collect()
}

fn joined(parts: &[&[u8]]) -> Vec<u8> {
    parts.concat()
}

pub fn curv(count: u32, entries: &[u8]) -> Vec<u8> {
    joined(&[b"curv\0\0\0\0", &count.to_be_bytes(), entries])
}

pub fn para(function: u16, parameters: &[u32]) -> Vec<u8> {
    joined(&[b"para\0\0\0\0", &function.to_be_bytes(), &[0, 0], &u32s(parameters)])
}

fn mft(signature: &[u8; 4], channels: [u8; 2], grid: u8, matrix: &[u8], entries: [u16; 2], data: &[u8]) -> Vec<u8> {
    let counts = joined(&[&entries[0].to_be_bytes(), &entries[1].to_be_bytes()]);
    let counts: &[u8] = if signature == b"mft2" { &counts } else { &[] };
    joined(&[signature, &[0; 4], &channels, &[grid, 0], matrix, counts, data])
}

/// A tag `mAB ` or `mBA `; offsets are those of B, matrix, M, colour table and A, the body starts at 32.
fn mab(signature: &[u8; 4], channels: [u8; 2], offsets: [u32; 5], body: &[u8]) -> Vec<u8> {
    let mut tag = joined(&[signature, &[0; 4], &channels, &[0, 0], &u32s(&offsets), body]);
    tag.resize(tag.len().max(48), 0);
    tag
}

fn colour_table(grid: &[u8], entry_size: u8, data: &[u8]) -> Vec<u8> {
    let mut head = grid.to_vec();
    head.resize(16, 0);
    joined(&[&head, &[entry_size, 0, 0, 0], data])
}

fn text(string: &[u8]) -> Vec<u8> {
    joined(&[b"text\0\0\0\0", string])
}

fn desc(ascii: &[u8], count: u32, behind: &[u8]) -> Vec<u8> {
    joined(&[b"desc\0\0\0\0", &count.to_be_bytes(), ascii, behind])
}

/// A header is language and country, length, start.
fn mluc(count: u32, headers: &[([u8; 4], u32, u32)], strings: &[u8]) -> Vec<u8> {
    let mut tag = joined(&[b"mluc\0\0\0\0", &count.to_be_bytes(), &12u32.to_be_bytes()]);
    for (code, length, start) in headers {
        tag.extend(code);
        tag.extend(u32s(&[*length, *start]));
    }
    tag.extend(strings);
    tag
}

/// A few small good tags of each type, for the exhaustive sets. Each has a reader.
pub fn small() -> Vec<(u8, Vec<u8>)> {
    let ramp: Vec<u8> = (1..=200).collect();
    let empty = curv(0, b"");
    let gamma = para(0, &[144_179]);
    let pair = curv(2, b"\x01\x02\xfe\xff");
    let mut tags = vec![
        (2, empty.clone()),
        (2, curv(1, b"\x02\x33")),
        (2, pair.clone()),
        (2, curv(7, &ramp[..14])),
        (2, para(1, &[5, 0, 6])),
        (2, para(2, &[5, 0, 6, 7])),
        (2, para(5, &[1, 2, 3])),
        (3, text(b"A\0b\0\0")),
        (3, desc(b"ab\0", 3, b"enUS\0\0\0\x03\0A\0B\0\0\x01\x02")),
        (3, mluc(0, &[(*b"enUS", 5, 28)], b"\0A\0B\0")),
        (3, mluc(2, &[(*b"enUS", 4, 40), (*b"deDE", 5, 44)], b"\0A\0B\xd8\x3d\xde\0\0")),
        (4, joined(&[b"sf32\0\0\0\0", &ramp[..36]])),
        (5, b"sig \0\0\0\0LCD ".to_vec()),
        (6, b"dtim\0\0\0\0\x07\xe8\0\x02\0\x1d\0\x0c\0\x1e\0\x0f".to_vec()),
        (7, joined(&[b"meas\0\0\0\0\0\0\0\x01", &ramp[..12], b"\0\0\0\x02\0\0\x02\x8f\0\0\0\x02"])),
        (8, joined(&[b"view\0\0\0\0", &ramp[..24], b"\0\0\0\x01"])),
        (9, joined(&[b"XYZ \0\0\0\0", &ramp[..12]])),
        (10, b"cicp\0\0\0\0\x01\x0d\0\x01".to_vec()),
        (1, mft(b"mft1", [1, 3], 2, &ramp[..36], [256; 2], &ramp.repeat(6)[..256 + 6 + 768])),
        (1, mft(b"mft2", [1, 3], 2, &ramp[..36], [2, 2], &ramp[..4 + 12 + 12])),
    ];
    for (function, count) in PARAMETERS.iter().enumerate() {
        tags.push((2, para(function as u16, &[1, 2, 3, 4, 5, 6, 7][..*count])));
    }
    for signature in [b"mAB ", b"mBA "] {
        tags.push((1, mab(signature, [3, 3], [32, 0, 0, 0, 0], &joined(&[&empty, &empty, &gamma]))));
        let channels = if signature == b"mAB " { [2, 1] } else { [1, 2] };
        let grid: &[u8] = if signature == b"mAB " { &[2, 2] } else { &[2] };
        let body = joined(&[&curv(1, b"\x01\x02"), &[0, 0], &gamma, &ramp[..48], &empty, &colour_table(grid, 1, &ramp[..4]), &pair]);
        tags.push((1, mab(signature, channels, [148, 64, 112, 124, 32], &body)));
    }
    tags
}

/// How many words the records of a tag take, if it is accepted.
pub fn words_for(tag: &[u8]) -> u32 {
    match tag.get(..4) {
        Some(b"mAB " | b"mBA ") if tag.len() >= 32 => {
            let (a, others) = if &tag[..4] == b"mAB " { (tag[8], tag[9]) } else { (tag[9], tag[8]) };
            let runs = [(12, others), (20, others), (28, a)];
            10 * runs.iter().filter(|(at, _)| tag[*at..at + 4] != [0; 4]).map(|(_, curves)| u32::from(*curves)).sum::<u32>()
        }
        Some(b"mluc") if tag.len() >= 28 => {
            let count = u32::from_be_bytes(tag[8..12].try_into().unwrap());
            4 * count.clamp(1, (tag.len() as u32 - 16) / 12)
        }
        _ => 0,
    }
}

/// A random tag for a reader.
pub fn random(rng: &mut Rng, reader: u8) -> Vec<u8> {
    let mut tag = match reader {
        1 | 11 if rng.chance(400) => random_mft(rng),
        1 | 11 => random_mab(rng),
        2 | 12 => random_curve(rng),
        3 => match rng.below(10) {
            0..2 => text(&string(rng)),
            2..5 => random_desc(rng),
            _ => random_mluc(rng),
        },
        4 => joined(&[b"sf32\0\0\0\0", &words(rng, 9)]),
        5 => joined(&[b"sig \0\0\0\0", &technology(rng)]),
        6 => joined(&[b"dtim\0\0\0\0", &rng.bytes(12)]),
        7 => joined(&[b"meas\0\0\0\0", &words(rng, 7)]),
        8 => joined(&[b"view\0\0\0\0", &words(rng, 7)]),
        9 => joined(&[b"XYZ \0\0\0\0", &words(rng, 3)]),
        _ => joined(&[b"cicp\0\0\0\0", &[code(rng), code(rng), code(rng), code(rng)]]),
    };
    if rng.chance(100) && tag.len() >= 8 {
        let reserved = rng.bytes(4);
        tag[4..8].copy_from_slice(&reserved);
    }
    tag
}

/// A 32-bit word: small, of the standard's, near a border, or any.
fn word(rng: &mut Rng) -> u32 {
    let near = rng.below(9) as u32;
    match rng.below(7) {
        0 => near,
        1 => rng.next() as u32,
        2 => (rng.below(600) as u32).wrapping_sub(300),
        3 => (rng.below(7) as u32).wrapping_sub(3).wrapping_mul(65536).wrapping_add(near).wrapping_sub(4),
        4 => (1u32 << 24).wrapping_add(near).wrapping_sub(4), // where a 32-bit float begins to round
        5 => 0u32.wrapping_sub(1 << 24).wrapping_add(near).wrapping_sub(4),
        _ => rng.pick(&[0, 1, LAST, 1 << 31, (1 << 31) - 1, 0xF6D6, 0x10000, 0xD32D, 0x00023333]),
    }
}

fn words(rng: &mut Rng, count: usize) -> Vec<u8> {
    (0..count).flat_map(|_| word(rng).to_be_bytes()).collect()
}

fn technology(rng: &mut Rng) -> Vec<u8> {
    let known = rng.pick(&[
        b"fscn", b"dcam", b"rscn", b"ijet", b"twax", b"epho", b"esta", b"dsub", b"rpho", b"fprn", b"vidm", b"vidc", b"pjtv", b"CRT ",
        b"PMD ", b"AMD ", b"LCD ", b"OLED", b"KPCD", b"imgs", b"grav", b"offs", b"silk", b"flex", b"mpfs", b"mpfr", b"dmpc", b"dcpj",
    ]);
    if rng.chance(700) { known.to_vec() } else { rng.bytes(4) }
}

fn code(rng: &mut Rng) -> u8 {
    let (low, any) = (rng.below(25) as u8, rng.below(256) as u8);
    rng.pick(&[low, low, low, 1, 1, any])
}

pub fn random_curve(rng: &mut Rng) -> Vec<u8> {
    match rng.below(100) {
        0..15 => curv(0, b""),
        15..44 => {
            let count = rng.pick(&[1, 1, 2, 2, 3, 4, 5, 7, 9]);
            curv(count, &rng.bytes(2 * count as usize))
        }
        44..47 => {
            let count = rng.within(100..=600) as u32;
            curv(count, &rng.bytes(2 * count as usize))
        }
        47 if rng.chance(100) => {
            let count = rng.pick(&[4095, 4096, 4097]);
            curv(count, &rng.bytes(2 * count as usize))
        }
        47..53 => {
            // more than a short tag holds; of some 12 + 2 * count is small in its low 32 bits
            let huge = [4097, 1 << 16, (1 << 31) - 7, (1 << 31) - 6, (1 << 31) - 5, 1 << 31, (1 << 31) + 2, LAST - 1, LAST];
            let present = rng.below(8) as usize;
            curv(rng.pick(&huge), &rng.bytes(present))
        }
        53..90 => {
            let function = rng.below(5) as u16;
            let mut curve = para(function, &[]);
            curve.extend(words(rng, PARAMETERS[function as usize]));
            curve
        }
        90..94 => {
            let function = rng.within(1..=2) as u16;
            let mut curve = joined(&[&para(function, &[]), &words(rng, 1), &[0; 4]]);
            curve.extend(words(rng, PARAMETERS[function as usize] - 2));
            curve
        }
        94..97 => {
            let mut curve = para(rng.pick(&[5, 6, 255, 256, 257, 1024, 65535]), &[]);
            let count = rng.below(8) as usize;
            curve.extend(words(rng, count));
            curve
        }
        _ => joined(&[rng.pick(&NEAR_TYPES).as_slice(), &[0; 4], &words(rng, 4)]),
    }
}

fn random_mft(rng: &mut Rng) -> Vec<u8> {
    let signature = if rng.chance(300) { b"mft1" } else { b"mft2" };
    let any = rng.below(256) as u8;
    let channels = if rng.chance(950) {
        rng.pick(&[[1, 3], [2, 3], [3, 1], [3, 2], [3, 3], [3, 4], [4, 3]])
    } else {
        let odd = [0, 1, 2, 3, 4, 5, 6, 255, any];
        [rng.pick(&odd), rng.pick(&odd)]
    };
    let grid = if rng.chance(900) { rng.pick(&[2, 2, 2, 3, 3, 4]) } else { rng.pick(&[0, 1, 5, 7, 9, 31, 100, 255, any]) };
    let few = rng.within(2..=20) as u16;
    let mut entries = || if rng.chance(930) { rng.pick(&[2, 2, 3, few]) } else { rng.pick(&[0, 1, 255, 4095, 4096, 4097, 65535]) };
    let entries = if signature == b"mft2" { [entries(), entries()] } else { [256; 2] };
    let entry_size = if signature == b"mft2" { 2 } else { 1 };
    let matrix = words(rng, 9);
    let [inputs, outputs] = channels.map(usize::from);
    let length = usize::from(entries[0]) * inputs + usize::from(grid).pow(inputs.min(5) as u32) * outputs + usize::from(entries[1]) * outputs;
    let most = if rng.chance(20) { 60_000 } else { 3_000 };
    let data = rng.bytes((length * entry_size).min(most));
    mft(signature, channels, grid, &matrix, entries, &data)
}

/// Grids and output channels whose product is at an edge of a check.
const EDGES: [(&[u8], u8); 16] = [
    (&[254, 254, 155], 1),
    (&[200, 200, 50], 5), // 10,000,000
    (&[201, 200, 50], 5),
    (&[250, 250, 160], 1),
    (&[212, 178, 53], 5),
    (&[255, 255, 255, 1], 1),
    (&[254, 226, 215, 174], 2), // 2^32 - 16
    (&[254, 232, 215, 113, 3], 1),
    (&[128, 128, 128, 128], 16), // 2^32
    (&[128, 128, 128, 128, 16], 1),
    (&[249, 243, 239, 99], 3),
    (&[255, 255, 255, 255], 1),
    (&[255, 255, 255, 255], 2),
    (&[255, 255, 255, 255, 255, 0], 1), // 0, but over 2^32 on the way
    (&[0, 255, 255, 255, 255, 255], 1),
    (&[1, 0], 2),
];

fn shape(rng: &mut Rng) -> (u8, u8, Vec<u8>) {
    if rng.chance(80) {
        let (grid, outputs) = rng.pick(&EDGES);
        return (grid.len() as u8, outputs, grid.to_vec());
    }
    let (few, more, many) = (rng.within(1..=4) as u8, rng.within(5..=16) as u8, rng.within(17..=255) as u8);
    let other = match rng.below(200) {
        0..170 => rng.within(1..=4) as u8,
        170..184 => 0,
        184..198 => more,
        _ => many,
    };
    let (mut inputs, mut outputs) = if rng.chance(500) { (few, other) } else { (other, few) };
    if rng.chance(20) {
        (inputs, outputs) = rng.pick(&[(0, 0), (5, 5), (4, 5), (5, 4), (more, many), (many, more), (255, 255)]);
    }
    let dimensions = inputs.min(16);
    let most = match dimensions {
        0..3 => 9,
        3 => 4,
        _ => 2,
    };
    let mut grid: Vec<u8> = (0..dimensions).map(|_| rng.within(2..=most) as u8).collect();
    if dimensions > 0 && rng.chance(120) {
        grid[rng.below(u64::from(dimensions)) as usize] = rng.pick(&[0, 1, 1, 3, 255]);
    }
    (inputs, outputs, grid)
}

fn random_mab(rng: &mut Rng) -> Vec<u8> {
    let signature = rng.pick(&[b"mAB ", b"mBA "]);
    let (inputs, outputs, grid) = shape(rng);
    let (a, others) = if signature == b"mAB " { (inputs, outputs) } else { (outputs, inputs) };
    let mut body = Vec::new();
    let mut offsets = [0; 5];
    let mut order = [0, 1, 2, 3, 4];
    for i in 0..4 {
        order.swap(i, i + rng.below(5 - i as u64) as usize);
    }
    for part in &order[..rng.pick(&[1, 2, 2, 3, 3, 4, 5])] {
        let gap = if rng.chance(800) { body.len().wrapping_neg() % 4 } else { rng.below(4) as usize };
        body.extend(rng.bytes(gap));
        let at = 32 + body.len();
        offsets[*part] = at as u32;
        let data = match part {
            0 | 2 => random_run(rng, others, at),
            1 => words(rng, 12),
            3 => random_colour_table(rng, &grid, outputs),
            _ => random_run(rng, a, at),
        };
        body.extend(data);
    }
    let length = 32 + body.len() as u32;
    for part in 0..5 {
        if rng.chance(20) {
            let needs = [12, 48, 12, 20, 12][part];
            let other = offsets[rng.below(5) as usize];
            let near = rng.below(21) as u32;
            let last = length.max(needs) - needs;
            offsets[part] =
                rng.pick(&[0, 4, near, other, other.wrapping_add(near), last, last + 1, length, LAST - near, LAST, 1 << 31]);
        }
    }
    mab(signature, [inputs, outputs], offsets, &body)
}

fn random_run(rng: &mut Rng, count: u8, at: usize) -> Vec<u8> {
    let mut run = Vec::new();
    // on the crate walk one empty curve makes a run of any length
    let (empties, count) = if count > 16 { (rng.pick(&[1, 1, 1, count - 1]), 1) } else { (0, count) };
    for number in 0..empties + count {
        let gap = if number > 0 { (at + run.len()).wrapping_neg() % 4 } else { 0 };
        run.extend(rng.bytes(gap));
        let curve = match rng.below(100) {
            _ if number < empties => curv(0, b""),
            0..12 => curv(0, b""),
            12..45 => {
                let count = rng.pick(&[1, 1, 2, 3, 4]);
                curv(count, &rng.bytes(2 * count as usize))
            }
            45..92 => {
                let function = rng.below(5) as u16;
                let parameters: Vec<u32> = (0..PARAMETERS[function as usize]).map(|_| word(rng) | 1).collect();
                para(function, &parameters)
            }
            _ => random_curve(rng),
        };
        run.extend(curve);
    }
    run
}

fn random_colour_table(rng: &mut Rng, grid: &[u8], outputs: u8) -> Vec<u8> {
    let entry_size = if rng.chance(940) { rng.pick(&[1, 2]) } else { rng.pick(&[0, 3, 255]) };
    let product = grid.iter().chain([&outputs]).fold(1u64, |product, factor| product.saturating_mul(u64::from(*factor)));
    let length = product.saturating_mul(u64::from(entry_size));
    let most = if rng.chance(20) { 70_000 } else { 800 };
    let length = if length > most { rng.below(40) } else { length };
    let mut bytes = grid.to_vec();
    if rng.chance(500) {
        bytes.extend(rng.bytes(16 - grid.len()));
    }
    colour_table(&bytes, entry_size, &rng.bytes(length as usize))
}

/// Whole sequences of UTF-8 and their parts, what UTF-8 has not, and units of UTF-16 and halves of surrogate pairs.
const PIECES: [&[u8]; 29] = [
    b"\0", b"\0", b"\0\0", b"\0\0\0", b"A", b"ab", b"\x7f", b"\x80", b"\xbf", b"\xc0\x80", b"\xc3\xa9", b"\xc3", b"\xe2\x82\xac", b"\xe2\x82",
    b"\xed\xa0\x80", b"\xef\xbb\xbf", b"\xf0\x9f\x98\x80", b"\xf0\x9f\x98", b"\xf4\x90\x80\x80", b"\xff", b"\xfe\xff", b"\0A", b"\0\xe9",
    b"\x20\xac", b"\xd8\x3d\xde\x00", b"\xd8\x3d", b"\xde\x00", b"\xdb\xff\xdf\xff", b"\xff\xfe",
];

fn string(rng: &mut Rng) -> Vec<u8> {
    let mut string = Vec::new();
    for _ in 0..rng.pick(&[0, 0, 1, 1, 2, 3, 4, 5, 8, 12, 30]) {
        string.extend(rng.pick(&PIECES));
    }
    if rng.chance(200) {
        let length = rng.below(12) as usize;
        string.extend(rng.bytes(length));
    }
    string.resize(string.len() + rng.pick(&[0, 0, 0, 1, 1, 2, 3, 8]), 0);
    string
}

fn random_desc(rng: &mut Rng) -> Vec<u8> {
    let (ascii, unicode) = (string(rng), string(rng));
    let units = unicode.len() as u32 / 2;
    let units = if rng.chance(700) { units } else { rng.pick(&[0, units.saturating_sub(1), units + 1, (1 << 31) - 1, 1 << 31, LAST]) };
    let mut behind = joined(&[&rng.pick(&[0, 0x656E_5553, 7, LAST]).to_be_bytes(), &units.to_be_bytes(), &unicode]);
    behind.resize(behind.len() + rng.pick(&[0, 0, 1, 70]), 0);
    if rng.chance(200) {
        behind.truncate(rng.below(12) as usize);
    }
    let (length, more) = (ascii.len() as u32, behind.len() as u32);
    let count = if rng.chance(850) {
        length
    } else {
        rng.pick(&[0, length.saturating_sub(1), length + 1, length + more, length + more + 1, LAST, LAST - 12])
    };
    let mut tag = desc(&ascii, count, &behind);
    if rng.chance(40) {
        tag.truncate(rng.within(8..=12) as usize);
    }
    tag
}

/// moxcms copies each string for each record, so the tag and the headers in it are few.
fn random_mluc(rng: &mut Rng) -> Vec<u8> {
    let records = if rng.chance(995) { rng.pick(&[1, 1, 1, 2, 2, 3, 5, 12]) } else { rng.within(40..=200) as usize };
    let strings: Vec<u8> = (0..records.min(10)).flat_map(|_| string(rng)).collect();
    let first = 16 + 12 * records as u64;
    let end = first + strings.len() as u64;
    let bad = rng.chance(150);
    let mut headers = Vec::new();
    for _ in 0..records {
        let any = (rng.next() as u32).to_be_bytes();
        let code = rng.pick(&[*b"enUS", *b"deDE", [0; 4], *b"\xc3\xa9\xff\x80", any]);
        let start = if rng.chance(700) { rng.within(first..=end) } else { rng.below(end + 1) };
        let length = rng.below(end - start + 1);
        let whole = rng.chance(200);
        let mut place = (if whole { end - start } else { length } as u32, start as u32);
        if bad && rng.below(records as u64) < 2 {
            let (start, end) = (start as u32, end as u32);
            place = rng.pick(&[
                (1, end), (0, end + 1), (end - start + 1, start), (LAST, LAST), (1, LAST), (LAST, 1), (0, LAST), (1 << 31, 1 << 31),
            ]);
        }
        headers.push((code, place.0, place.1));
    }
    let records = records as u32;
    let any = rng.next() as u32;
    let count = if rng.chance(800) { records } else { rng.pick(&[0, 0, records - 1, records + 1, records + 2, 1 << 31, LAST, any]) };
    let mut tag = mluc(count, &headers, &strings);
    if rng.chance(40) {
        tag.truncate(rng.within(8..=30) as usize);
    }
    tag
}
