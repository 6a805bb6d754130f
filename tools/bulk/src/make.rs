//! Makes jobs: every one of some small sets, random ones, and the tags of real profiles.
use crate::job::*;
use crate::rng::Rng;
use crate::tags::{self, LAST, NEAR_TYPES};
use std::path::{Path, PathBuf};

pub const READERS: std::ops::RangeInclusive<u8> = 1..=12; // 11 and 12 are 1 and 2 on the book walk

/// Part `part` of the exhaustive sets; none behind the last. Every type, and two that are none, by every reader: profiles of up to 56
/// bytes, offsets up to 4, sizes up to 57 and at the end of 32 bits. Then, around each small good tag: every byte of it at every
/// value, every length of the profile with every size around it, and every number of words up to some more than its records take.
pub fn exhaustive(part: u64) -> Option<Vec<Job>> {
    let mut types: Vec<&[u8; 4]> = (1..=10).flat_map(tags::types_of).copied().collect();
    types.extend([b"XYZ\0", b"vruc"]);
    let (kinds, readers) = (types.len() as u64, u64::from(*READERS.end()));
    if part < kinds * readers {
        return Some(short(types[(part / readers) as usize], (part % readers) as u8 + 1));
    }
    let small = tags::small();
    let (reader, tag) = small.get((part - kinds * readers) as usize)?;
    let mut jobs = around(*reader, tag);
    if *reader <= 2 {
        jobs.extend(around(reader + 10, tag));
    }
    Some(jobs)
}

/// The head of the first small tag of this type, or of the first of all, and zeros behind it.
fn short(kind: &[u8; 4], reader: u8) -> Vec<Job> {
    let small = tags::small();
    let mut body = small.iter().find(|(_, tag)| &tag[..4] == kind).unwrap_or(&small[0]).1.clone();
    body[..4].copy_from_slice(kind);
    body.resize(60, 0);
    let mut jobs = Vec::new();
    for length in 0..=56 {
        for offset in 0..=4 {
            let mut profile = vec![0xA5; offset];
            profile.extend(&body);
            profile.truncate(length);
            for size in (0..=57).chain([LAST - 5, LAST]) {
                jobs.push(Job::new(reader, offset as u32, size, profile.clone()));
            }
        }
    }
    jobs
}

fn around(reader: u8, tag: &[u8]) -> Vec<Job> {
    let words = tags::words_for(tag);
    let exact = tag.len() as u32;
    let job = |size, profile: Vec<u8>, words| Job { words, ..Job::new(reader, 0, size, profile) };
    let mut jobs = Vec::new();
    for at in 0..tag.len().min(150) {
        for byte in 0..=255 {
            let mut changed = tag.to_vec();
            changed[at] = byte;
            jobs.push(job(exact, changed, words + 3));
        }
    }
    let far = tag.len().saturating_sub(120); // of a long tag only its end
    for length in far..=tag.len() + 3 {
        let mut profile = tag.to_vec();
        profile.resize(length, 0x5A);
        for size in far..=tag.len() + 4 {
            jobs.push(job(size as u32, profile.clone(), words));
        }
    }
    for lent in 0..words + 12 {
        for limit in [0, 1, 2, NO_LIMIT] {
            jobs.push(Job { curve_limit: limit, grid_limit: limit, ..job(exact, tag.to_vec(), lent) });
        }
    }
    jobs
}

/// A random job: a random tag for its reader or for another, at times damaged, cut or extended, somewhere in a profile.
pub fn random(rng: &mut Rng) -> Job {
    let reader = match rng.below(100) {
        0..34 => 1,
        34..38 => 11,
        38..50 => 2,
        50..52 => 12,
        52..70 => 3,
        _ => rng.within(4..=10) as u8,
    };
    let of = if rng.chance(950) { reader } else { rng.within(1..=10) as u8 };
    let mut tag = tags::random(rng, of);
    let exact = tag.len() as u64;
    let words = tags::words_for(&tag);
    if rng.chance(180) {
        damage(rng, &mut tag);
    }
    let front = rng.pick(&[0, 0, 0, 0, 1, 2, 3, 4, 5, 7, 13, 128]);
    let mut profile = rng.bytes(front);
    profile.extend(&tag);
    let behind = rng.pick(&[0, 0, 0, 0, 1, 2, 3, 4, 40]);
    profile.extend(rng.bytes(behind));
    if rng.chance(20) {
        profile.truncate(rng.below(profile.len() as u64 + 1) as usize);
    }
    let offset = offset(rng, front as u64, profile.len() as u64);
    let size = size(rng, exact, offset, profile.len() as u64);
    Job {
        reader,
        offset: offset as u32,
        size,
        curve_limit: curve_limit(rng),
        grid_limit: grid_limit(rng, &tag),
        words: lent(rng, reader, words),
        profile,
    }
}

fn damage(rng: &mut Rng, tag: &mut Vec<u8>) {
    let (length, small) = (tag.len() as u32, rng.below(60) as u32);
    for _ in 0..rng.within(1..=2) {
        let within = if rng.chance(600) { 52 } else { u64::from(length.max(1)) };
        let at = rng.below(within) as usize;
        match rng.below(10) {
            0..4 if at < tag.len() => tag[at] = rng.next() as u8,
            4..7 if at / 4 * 4 + 4 <= tag.len() => {
                let number = rng.pick(&[0, 1, 2, small, length, length.saturating_sub(1), length + 1, length / 2, 1 << 31, (1 << 31) - 1, LAST]);
                tag[at / 4 * 4..at / 4 * 4 + 4].copy_from_slice(&number.to_be_bytes());
            }
            7 => tag.truncate(rng.below(u64::from(length) + 1) as usize),
            8 => tag.extend(rng.bytes(small as usize)),
            9 if tag.len() >= 4 => tag[..4].copy_from_slice(rng.pick(&NEAR_TYPES).as_slice()),
            _ => {}
        }
    }
}

fn offset(rng: &mut Rng, right: u64, length: u64) -> u64 {
    let (near, last) = (rng.below(20), u64::from(LAST));
    if rng.chance(880) {
        return right;
    }
    rng.pick(&[0, near, right.saturating_sub(1), right + 1, length.saturating_sub(near), length + near % 4, (1 << 31) - near, last - near, last])
}

fn size(rng: &mut Rng, exact: u64, offset: u64, length: u64) -> u32 {
    if rng.chance(700) {
        return exact as u32;
    }
    let (near, room) = (rng.below(20), length.saturating_sub(offset));
    let border = rng.pick(&[4, 7, 8, 11, 12, 19, 20, 27, 28, 35, 36, 43, 44, 45, 46, 47, 48, 51, 52]);
    let round = (1 << 32) - offset + rng.below(length + 4); // a sum of 32 bits would come round to the profile
    let size = rng.pick(&[
        0, 0, 0, near, border, border, border, exact.saturating_sub(1), exact.saturating_sub(1), exact.saturating_sub(near), exact + 1,
        exact + near, room, room + 1, room.saturating_sub(1), round, u64::from(LAST) - near, u64::from(LAST),
    ]);
    size.min(u64::from(LAST)) as u32
}

fn curve_limit(rng: &mut Rng) -> u64 {
    if rng.chance(650) {
        return HOUSE_CURVE_LIMIT;
    }
    let small = rng.below(10);
    rng.pick(&[0, 1, small, small, 600, 4095, 4097, NO_LIMIT, NO_LIMIT, 1 << 32, (1 << 32) + small, 1 << 63])
}

fn grid_limit(rng: &mut Rng, tag: &[u8]) -> u64 {
    if rng.chance(700) || tag.len() < 11 {
        return HOUSE_GRID_LIMIT;
    }
    let points = u64::from(tag[10]).pow(u32::from(tag[8].min(5)));
    rng.pick(&[0, 1, 2, points.saturating_sub(1), points.saturating_sub(1), points, points + 1, NO_LIMIT, 1 << 32])
}

/// Mostly just the words that the records take: each lent word is printed.
fn lent(rng: &mut Rng, reader: u8, exact: u32) -> u32 {
    let more = rng.below(25) as u32;
    let lent = match rng.below(100) {
        0..70 => exact,
        70..80 => exact + more,
        80..90 => exact.saturating_sub(1),
        90..95 => exact.saturating_sub(10),
        95..98 => 0,
        _ => more,
    };
    if matches!(reader, 1 | 3 | 11) { lent.min(MOST_WORDS) } else { more }
}

/// The .icc and .icm files of the folders and of the folders in them, in order.
pub fn profiles(folders: &[PathBuf]) -> Vec<PathBuf> {
    let mut found: Vec<PathBuf> = folders.iter().flat_map(|folder| files(folder)).collect();
    found.sort();
    found
}

fn files(folder: &Path) -> Vec<PathBuf> {
    let entries = folder.read_dir().unwrap_or_else(|error| panic!("{}: {error}", folder.display()));
    let paths = entries.map(|entry| entry.unwrap().path());
    paths.flat_map(|path| if path.is_dir() { files(&path) } else if is_profile(&path) { vec![path] } else { vec![] }).collect()
}

fn is_profile(path: &Path) -> bool {
    path.extension().is_some_and(|end| end.eq_ignore_ascii_case("icc") || end.eq_ignore_ascii_case("icm"))
}

/// Offset and size of each entry of a profile's tag table, as far as the table lies in the profile.
pub fn tag_table(profile: &[u8]) -> Vec<(u32, u32)> {
    let number = |at: usize| profile.get(at..at + 4).map(|bytes| u32::from_be_bytes(bytes.try_into().unwrap()));
    let count = number(128).unwrap_or(0);
    (0..count as usize).map_while(|k| Some((number(136 + 12 * k)?, number(140 + 12 * k)?))).collect()
}

/// Each tag of a profile by every reader, with the house limits and with none, and with words enough.
pub fn of_profile(profile: &[u8]) -> Vec<Job> {
    let mut jobs = Vec::new();
    for (offset, size) in tag_table(profile) {
        for reader in READERS {
            for limit in [None, Some(NO_LIMIT)] {
                let mut job = Job::new(reader, offset, size, profile.to_vec());
                job.curve_limit = limit.unwrap_or(job.curve_limit);
                job.grid_limit = limit.unwrap_or(job.grid_limit);
                job.words = if matches!(reader, 1 | 3 | 11) { 10 * 514 } else { 0 };
                jobs.push(job);
            }
        }
    }
    jobs
}
