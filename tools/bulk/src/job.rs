//! A job of the stream that `answers` reads.

pub const HOUSE_CURVE_LIMIT: u64 = 4_096;
pub const HOUSE_GRID_LIMIT: u64 = 1_000_000;
pub const NO_LIMIT: u64 = u64::MAX;
pub const MOST_WORDS: u32 = 8_192;
pub const LONGEST_PROFILE: usize = 1_048_576;

#[derive(Clone, Debug)]
pub struct Job {
    pub reader: u8,
    pub offset: u32,
    pub size: u32,
    pub curve_limit: u64,
    pub grid_limit: u64,
    pub words: u32,
    pub profile: Vec<u8>,
}

impl Job {
    /// With the house limits and no words.
    pub fn new(reader: u8, offset: u32, size: u32, profile: Vec<u8>) -> Job {
        let (curve_limit, grid_limit) = (HOUSE_CURVE_LIMIT, HOUSE_GRID_LIMIT);
        Job { reader, offset, size, curve_limit, grid_limit, words: 0, profile }
    }

    pub fn encoded(&self) -> Vec<u8> {
        let mut bytes = vec![self.reader];
        for number in [self.offset, self.size] {
            bytes.extend(number.to_be_bytes());
        }
        for limit in [self.curve_limit, self.grid_limit] {
            bytes.extend(limit.to_be_bytes());
        }
        for number in [self.words, self.profile.len() as u32] {
            bytes.extend(number.to_be_bytes());
        }
        bytes.extend(&self.profile);
        bytes
    }

    /// What lies at a place of the tag, as far as the profile has it.
    pub fn in_tag(&self, start: u64, length: u64) -> Option<&[u8]> {
        let from = u64::from(self.offset).checked_add(start)?;
        self.profile.get(usize::try_from(from).ok()?..usize::try_from(from.checked_add(length)?).ok()?)
    }
}
