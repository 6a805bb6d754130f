//! The rule of the evaluation, in plain recursion and exact numbers of 128 bits, from its words alone:
//!
//! Inputs are 1 to 4 coordinates of 0 to 65535. In each dimension the position is the coordinate times (grid - 1); cell and rest are its quotient
//! and remainder by 65535; with rest 0 only the lower corner is used. Two neighbours blend as (low * (65535 - rest) + high * rest + 32767) divided
//! by 65535, rounded down. A table of n dimensions is the blend of two tables of n - 1 dimensions, first coordinate outermost. One-byte entries
//! are widened by 257. Refusals: 19, when there is no colour table or inputs are not 1 to 4 or not as many as the table's; then 14 for a short
//! buffer.

/// The rule, or a wrong one, to see that it is noticed.
#[derive(Clone, Copy, PartialEq, Debug)]
pub enum Rule {
    Right,
    LastOutermost,
    RoundedAtTheHalfUp,
    DividedBy65536,
    WidenedAfterwards,
    WidenedBy256,
    RoundedOnce,
    FewResultsFirst,
}

pub const WRONG: [Rule; 7] = [
    Rule::LastOutermost,
    Rule::RoundedAtTheHalfUp,
    Rule::DividedBy65536,
    Rule::WidenedAfterwards,
    Rule::WidenedBy256,
    Rule::RoundedOnce,
    Rule::FewResultsFirst,
];

/// A colour table in a tag: the points of each dimension, and where its entries stand, the last dimension next to each other and the channels of a
/// point together.
pub struct Table {
    pub grid: Vec<i128>,
    pub outputs: i128,
    pub start: i128,
    pub size: i128,
}

#[derive(Clone, PartialEq, Debug)]
pub enum Answer {
    Results(Vec<u16>),
    Refused(u32),
}

/// A number over a number, which is 1 but for the wrong rule that rounds once.
type Fraction = (i128, i128);

impl Table {
    /// The table that lies in a tag; none if a dimension has fewer than 2 points, or if its entries pass the tag.
    fn lies_in(&self, tag: &[u8]) -> bool {
        let points: i128 = self.grid.iter().product();
        self.grid.iter().all(|points| *points >= 2)
            && self.outputs >= 1
            && (self.size == 1 || self.size == 2)
            && self.start + points * self.outputs * self.size <= tag.len() as i128
    }

    fn entry(&self, tag: &[u8], index: &[i128], channel: i128, rule: Rule) -> i128 {
        let point = self.grid.iter().zip(index).fold(0, |point, (points, at)| point * points + at);
        let at = (self.start + (point * self.outputs + channel) * self.size) as usize;
        match (self.size, rule) {
            (1, Rule::WidenedAfterwards) => i128::from(tag[at]),
            (1, Rule::WidenedBy256) => i128::from(tag[at]) * 256,
            (1, _) => i128::from(tag[at]) * 257,
            _ => i128::from(tag[at]) * 256 + i128::from(tag[at + 1]),
        }
    }

    /// The colour of a channel. `index` has the corners of the outer dimensions; those that are left are the inner ones.
    fn colour(&self, tag: &[u8], coordinates: &[u16], channel: i128, index: &mut [i128], done: usize, rule: Rule) -> Fraction {
        if done == self.grid.len() {
            return (self.entry(tag, index, channel, rule), 1);
        }
        let dimension = if rule == Rule::LastOutermost { self.grid.len() - 1 - done } else { done };
        let position = i128::from(coordinates[dimension]) * (self.grid[dimension] - 1);
        let (cell, rest) = (position / 65535, position % 65535);
        index[dimension] = cell;
        let low = self.colour(tag, coordinates, channel, index, done + 1, rule);
        if rest == 0 {
            return low;
        }
        index[dimension] = cell + 1;
        let high = self.colour(tag, coordinates, channel, index, done + 1, rule);
        let both = low.0 * (65535 - rest) + high.0 * rest; // the two have one number under them
        match rule {
            Rule::RoundedOnce => (both, low.1 * 65535),
            Rule::RoundedAtTheHalfUp => ((both + 32768) / 65535, 1),
            Rule::DividedBy65536 => ((both + 32767) / 65536, 1),
            _ => ((both + 32767) / 65535, 1),
        }
    }

    fn pixel(&self, tag: &[u8], coordinates: &[u16], rule: Rule) -> Vec<u16> {
        let mut index = vec![0; self.grid.len()];
        let results = (0..self.outputs).map(|channel| {
            let (over, under) = self.colour(tag, coordinates, channel, &mut index, 0, rule);
            let rounded = (over + (under - 1) / 2) / under;
            (if self.size == 1 && rule == Rule::WidenedAfterwards { rounded * 257 } else { rounded }) as u16
        });
        results.collect()
    }
}

fn judged(tag: &[u8], table: Option<&Table>, whole: bool, results: usize, room: usize, rule: Rule) -> Option<Answer> {
    let no_table = !whole || !table.is_some_and(|table| (1..=4).contains(&table.grid.len()) && table.lies_in(tag));
    if rule == Rule::FewResultsFirst && table.is_some() && room < results {
        return Some(Answer::Refused(14));
    }
    if no_table {
        return Some(Answer::Refused(19));
    }
    (room < results).then_some(Answer::Refused(14))
}

/// One pixel, with a buffer of so many numbers.
pub fn pixel(tag: &[u8], table: Option<&Table>, coordinates: &[u16], room: usize, rule: Rule) -> Answer {
    let whole = table.is_some_and(|table| coordinates.len() == table.grid.len());
    let results = table.map_or(0, |table| table.outputs as usize);
    judged(tag, table, whole, results, room, rule).unwrap_or_else(|| Answer::Results(table.unwrap().pixel(tag, coordinates, rule)))
}

/// A row of pixels, whose coordinates and results stand pixel after pixel.
pub fn row(tag: &[u8], table: Option<&Table>, coordinates: &[u16], room: usize, rule: Rule) -> Answer {
    let inputs = table.map_or(0, |table| table.grid.len());
    let whole = inputs > 0 && coordinates.len() % inputs == 0;
    let results = if whole { coordinates.len() / inputs * table.unwrap().outputs as usize } else { 0 };
    judged(tag, table, whole, results, room, rule)
        .unwrap_or_else(|| Answer::Results(coordinates.chunks(inputs).flat_map(|one| table.unwrap().pixel(tag, one, rule)).collect()))
}
