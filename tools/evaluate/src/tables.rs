//! Colour tables: tags of each layout, the words by which our library knows them, and what these words name.
use crate::khalyksor::*;
use crate::rng::Rng;
use crate::rule::Table;

pub const LAYOUTS: [(&str, u32); 4] = [("mft1", KHALYKSOR_TYPE_MFT1), ("mft2", KHALYKSOR_TYPE_MFT2), ("mAB", KHALYKSOR_TYPE_MAB), ("mBA", KHALYKSOR_TYPE_MBA)];

pub type Words = Vec<u64>;

/// A lookup table's tag, and the words of its answer.
pub struct Made {
    pub tag: Vec<u8>,
    pub lut: Words,
}

/// What our reader answers for a tag of a profile: its words, if it has a value.
pub fn read(profile: &[u8], offset: u32, size: u32) -> Option<Words> {
    let mut slots = vec![0u32; KHALYKSOR_LUT_RECORDS as usize * KHALYKSOR_CURVE_RECORD_WORDS];
    let mut out = vec![0u64; KHALYKSOR_LUT_WORDS];
    let status = unsafe {
        khalyksor_read_lut_tag(
            profile.as_ptr(), profile.len() as u64, offset, size, u64::MAX, u64::MAX, KHALYKSOR_WALK_BOOK,
            slots.as_mut_ptr(), slots.len() as u64, out.as_mut_ptr(), out.len() as u64,
        )
    };
    (status == KHALYKSOR_VALUE).then_some(out)
}

/// The table that words name in a tag. Of mft1 and mft2 the tag's byte 10 is the points of every dimension; of mAB and mBA the points stand 20 bytes
/// before the entries, one a dimension. A byte that the tag does not have is 0.
pub fn named(tag: &[u8], lut: &[u64]) -> Option<Table> {
    let low = |place: usize| (lut[place] % 256) as i128;
    let byte = |at: u64| usize::try_from(at).ok().and_then(|at| tag.get(at)).map_or(0, |byte| i128::from(*byte));
    let inputs = lut[KHALYKSOR_LUT_INPUTS] % 256;
    let (start, size, grid) = match u32::try_from(lut[KHALYKSOR_LUT_TYPE]).ok()? {
        KHALYKSOR_TYPE_MFT1 => (lut[KHALYKSOR_MFT_CLUT_START], 1, (0..inputs).map(|_| byte(10)).collect()),
        KHALYKSOR_TYPE_MFT2 => (lut[KHALYKSOR_MFT_CLUT_START], 2, (0..inputs).map(|_| byte(10)).collect()),
        KHALYKSOR_TYPE_MAB | KHALYKSOR_TYPE_MBA => {
            let start = lut[KHALYKSOR_MAB_CLUT_START];
            let head = start.saturating_sub(20);
            (start, low(KHALYKSOR_MAB_ENTRY_SIZE), (0..inputs).map(|i| byte(head.saturating_add(i))).collect())
        }
        _ => return None,
    };
    Some(Table { grid, outputs: low(KHALYKSOR_LUT_OUTPUTS), start: i128::from(start), size })
}

/// Random entries: of any bytes, of the least and the greatest alone, or all one.
fn entries(rng: &mut Rng, length: usize) -> Vec<u8> {
    let mut bytes = rng.bytes(length);
    match rng.below(8) {
        0 => bytes.iter_mut().for_each(|byte| *byte = if *byte < 128 { 0 } else { 255 }),
        1 => bytes.fill(rng.next() as u8),
        _ => (),
    }
    bytes
}

/// A random tag of a layout, that a reader accepts or, of mft1 and mft2, would but for its channels; and its words.
pub fn make(rng: &mut Rng, layout: usize) -> Made {
    let inputs = rng.within(1..=4) as usize;
    let widest = [255, 24, 9, 6][inputs - 1];
    if layout < 2 {
        let (outputs, points) = (rng.within(1..=4) as usize, if rng.chance(50) { widest } else { rng.within(2..=6) });
        return mft(rng, layout, inputs, outputs, points as u8);
    }
    let outputs = if rng.chance(500) { 3 } else { rng.within(1..=16) as usize };
    let grid: Vec<u8> = (0..inputs).map(|_| if rng.chance(50) { widest } else { rng.within(2..=6) } as u8).collect();
    let size = rng.within(1..=2);
    abm(rng, layout, &grid, outputs, size as u8)
}

fn mft(rng: &mut Rng, layout: usize, inputs: usize, outputs: usize, points: u8) -> Made {
    let size = layout + 1;
    let curves = if size == 1 { 256 } else { 2 };
    let mut tag = vec![0; if size == 1 { 48 } else { 52 }];
    tag[..4].copy_from_slice(&LAYOUTS[layout].1.to_be_bytes());
    (tag[8], tag[9], tag[10]) = (inputs as u8, outputs as u8, points);
    if size == 2 {
        (tag[49], tag[51]) = (2, 2);
    }
    tag.extend(rng.bytes(inputs * curves * size));
    let start = tag.len();
    let length = usize::from(points).pow(inputs as u32) * outputs * size;
    tag.extend(entries(rng, length));
    tag.extend(rng.bytes(outputs * curves * size));
    let mut lut = vec![0; KHALYKSOR_LUT_WORDS];
    lut[KHALYKSOR_LUT_TYPE] = u64::from(LAYOUTS[layout].1);
    (lut[KHALYKSOR_LUT_INPUTS], lut[KHALYKSOR_LUT_OUTPUTS]) = (inputs as u64, outputs as u64);
    (lut[KHALYKSOR_MFT_CLUT_START], lut[KHALYKSOR_MFT_CLUT_LENGTH]) = (start as u64, length as u64);
    Made { tag, lut }
}

fn abm(rng: &mut Rng, layout: usize, grid: &[u8], outputs: usize, size: u8) -> Made {
    let mut tag = vec![0; 48];
    tag[..4].copy_from_slice(&LAYOUTS[layout].1.to_be_bytes());
    (tag[8], tag[9]) = (grid.len() as u8, outputs as u8);
    let (before, behind) = (rng.below(5) as usize, rng.below(3) as usize);
    tag.extend(rng.bytes(before)); // a colour table may start anywhere
    let head = tag.len();
    tag[24..28].copy_from_slice(&(head as u32).to_be_bytes());
    tag.extend(grid);
    tag.extend(rng.bytes(16 - grid.len()));
    tag.extend([size, 0, 0, 0]);
    let length = grid.iter().map(|points| usize::from(*points)).product::<usize>() * outputs * usize::from(size);
    tag.extend(entries(rng, length));
    tag.extend(rng.bytes(behind));
    let mut lut = vec![0; KHALYKSOR_LUT_WORDS];
    lut[KHALYKSOR_LUT_TYPE] = u64::from(LAYOUTS[layout].1);
    (lut[KHALYKSOR_LUT_INPUTS], lut[KHALYKSOR_LUT_OUTPUTS]) = (grid.len() as u64, outputs as u64);
    (lut[KHALYKSOR_MAB_CLUT_START], lut[KHALYKSOR_MAB_ENTRY_SIZE]) = (head as u64 + 20, u64::from(size));
    Made { tag, lut }
}

/// Something that is wrong about a table, or only odd: in its words, or in the tag.
pub fn damage(rng: &mut Rng, made: &mut Made) {
    let of_mft = made.lut[KHALYKSOR_LUT_TYPE] == u64::from(KHALYKSOR_TYPE_MFT1) || made.lut[KHALYKSOR_LUT_TYPE] == u64::from(KHALYKSOR_TYPE_MFT2);
    let start = if of_mft { KHALYKSOR_MFT_CLUT_START } else { KHALYKSOR_MAB_CLUT_START };
    let head = if of_mft { 10 } else { made.lut[start] as usize - 20 };
    match rng.below(11) {
        0 => made.lut[KHALYKSOR_LUT_INPUTS] = rng.pick(&[0, 5, 6, 7, 8, 9, 10, 11, 12, 13, 14, 15, 16, 17, 255]),
        1 => made.lut[KHALYKSOR_LUT_INPUTS] = rng.within(1..=4), // another number of dimensions
        2 => made.lut[KHALYKSOR_LUT_OUTPUTS] = rng.pick(&[0, 1, 2, 3, 4, 17, 255]),
        3 => made.lut[KHALYKSOR_MAB_ENTRY_SIZE] = rng.pick(&[0, 1, 2, 3, 4, 255]),
        4 => made.lut[start] = made.lut[start].wrapping_add(rng.pick(&[u64::MAX, 1, 2, u64::MAX - 1, 1 << 32, 1 << 63])),
        5 => made.lut[start] = rng.pick(&[0, 1, 19, 20, 21, 1 << 32, u64::MAX - 19, u64::MAX - 1, u64::MAX]),
        6 => {
            let place = rng.pick(&[KHALYKSOR_LUT_TYPE, KHALYKSOR_LUT_INPUTS, KHALYKSOR_LUT_OUTPUTS, KHALYKSOR_MAB_ENTRY_SIZE]);
            made.lut[place] += rng.pick(&[256, 1 << 32, 1 << 56]); // the channels and the size are a word's low byte
        }
        7 => made.lut[KHALYKSOR_LUT_TYPE] = u64::from(rng.pick(&LAYOUTS).1),
        8 => made.lut[KHALYKSOR_LUT_TYPE] = rng.pick(&[0, 1, u64::from(KHALYKSOR_TYPE_CURV), u64::MAX]),
        9 => {
            let at = head + if of_mft { 0 } else { rng.below(4) as usize };
            made.tag[at] = rng.pick(&[0, 1, 1, 2, 3, 255]);
        }
        _ => {
            let whole = made.tag.len();
            let any = rng.below(whole as u64) as usize + 1;
            made.tag.truncate(whole - rng.pick(&[1, 2, 3, any]));
        }
    }
}

/// A coordinate: any, an end, on a point, or next to one.
pub fn coordinate(rng: &mut Rng, points: i128) -> u16 {
    let steps = (points - 1).max(1) as u64;
    match rng.below(8) {
        0 => rng.pick(&[0, 65535]),
        1 => {
            // the points whose coordinate is whole
            let step = (1..=steps).find(|step| 65535 * step % steps == 0).unwrap();
            (rng.below(steps / step + 1) * step * 65535 / steps) as u16
        }
        2 => ((rng.below(steps + 1) * 65535 / steps) as u16).wrapping_add(rng.pick(&[0, 1, 65535])),
        _ => rng.next() as u16,
    }
}
