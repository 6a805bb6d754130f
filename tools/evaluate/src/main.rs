//! Holds our evaluation against the rule in plain recursion (rule.rs): random tables, words made by hand and the tables of real profiles, by single
//! calls and by rows. Each time the status and every number of the buffer are compared, also those behind its end.
//!
//!     evaluate [--count N] [--seed N] [--profiles FOLDER]... [--kinds] [--wrong]
//!
//! N random calls and as many rows (default 1,000,000). It prints how often each status came, and with --kinds also of which layouts, dimensions and sizes
//! of an entry. With --wrong each wrong rule of rule.rs stands for the right one, on fewer calls: it must be
//! noticed. Exits with 1 at a difference, if some kind of call never came, or if a wrong rule is not noticed.
mod khalyksor;
mod rng;
mod rule;
mod tables;

use khalyksor::*;
use rng::Rng;
use rule::{Answer, Rule};
use std::collections::BTreeMap;
use std::path::{Path, PathBuf};
use std::process::exit;
use tables::Made;

const BEHIND: usize = 4; // numbers behind the end of a buffer
const LONGEST_ROW: u64 = 7; // pixels, but for one row in fifty
const LONG_ROW: u64 = 300;
const CALLS_A_PROFILE_TABLE: u64 = 1000;
const CALLS_A_WRONG_RULE: u64 = 100_000;

type Counts = BTreeMap<String, u64>;

/// One call: what is passed, but for the room.
struct Call<'a> {
    tag: &'a [u8],
    lut: &'a [u64],
    coordinates: Vec<u16>,
    room: usize,
    row: bool,
}

fn marks(room: usize) -> Vec<u16> {
    (0..room + BEHIND).map(|i| 0xA500u16.wrapping_add(i as u16)).collect()
}

impl Call<'_> {
    /// Our status, and the buffer with what stands behind it.
    fn ours(&self) -> (u32, Vec<u16>) {
        let mut results = marks(self.room);
        let function = if self.row { khalyksor_evaluate_row } else { khalyksor_evaluate };
        let status = unsafe {
            function(
                self.tag.as_ptr(), self.tag.len() as u64, self.lut.as_ptr(), self.lut.len() as u64,
                self.coordinates.as_ptr(), self.coordinates.len() as u64, results.as_mut_ptr(), self.room as u64,
            )
        };
        (status, results)
    }

    /// The same by a rule.
    fn due(&self, rule: Rule) -> (u32, Vec<u16>) {
        let mut results = marks(self.room);
        if self.lut.len() < KHALYKSOR_LUT_WORDS {
            return (KHALYKSOR_NO_ROOM, results);
        }
        let table = tables::named(self.tag, self.lut);
        let by = if self.row { rule::row } else { rule::pixel };
        match by(self.tag, table.as_ref(), &self.coordinates, self.room, rule) {
            Answer::Refused(number) => (number, results),
            Answer::Results(found) => {
                results[..found.len()].copy_from_slice(&found);
                (KHALYKSOR_VALUE, results)
            }
        }
    }

    /// What the two differ in, if they do; else the status.
    fn compare(&self, rule: Rule) -> Result<u32, String> {
        let (ours, due) = (self.ours(), self.due(rule));
        if ours == due {
            return Ok(ours.0);
        }
        let what = if self.row { "a row" } else { "a call" };
        Err(format!(
            "DIFFERENCE in {what}\n  tag {}\n  lut {:?}\n  coordinates {:?}, room {}\n  ours {:?}\n  due  {:?}",
            self.tag.iter().map(|byte| format!("{byte:02x}")).collect::<String>(), self.lut, self.coordinates, self.room, ours, due
        ))
    }
}

/// A random call of a table, mostly one that is answered by its results.
fn call<'a>(rng: &mut Rng, made: &'a Made, lut: &'a [u64], row: bool) -> Call<'a> {
    let table = (made.lut.len() == KHALYKSOR_LUT_WORDS).then(|| tables::named(&made.tag, &made.lut)).flatten();
    let grid = table.as_ref().map_or(vec![2], |table| table.grid.clone());
    let outputs = table.as_ref().map_or(1, |table| table.outputs as usize);
    let longest = if rng.chance(20) { LONG_ROW } else { LONGEST_ROW };
    let pixels = if row { rng.within(0..=longest) as usize } else { 1 };
    let mut count = pixels * grid.len();
    if rng.chance(30) {
        let any = rng.below(18) as usize;
        count = rng.pick(&[0, count + 1, count.max(1) - 1, any]);
    }
    let coordinates = (0..count).map(|i| if grid.is_empty() { 0 } else { tables::coordinate(rng, grid[i % grid.len()]) }).collect();
    let needed = pixels * outputs;
    let room = match rng.below(20) {
        0 => needed.max(1) - 1,
        1 => rng.below(needed as u64 + 1) as usize,
        2..=8 => needed,
        _ => needed + rng.within(1..=9) as usize,
    };
    Call { tag: &made.tag, lut, coordinates, room, row }
}

fn words_lent(rng: &mut Rng, lut: &[u64]) -> Vec<u64> {
    let mut lent = lut.to_vec();
    match rng.below(200) {
        0 => lent.truncate(rng.pick(&[0, 1, 20, 36])),
        1 => lent.extend(rng.pick(&[&[1u64][..], &[u64::MAX, 5]])),
        _ => (),
    }
    lent
}

/// Random tables, two calls and two rows each.
fn random(count: u64, seed: u64, rule: Rule, seen: &mut Counts) -> Result<(), String> {
    for batch in 0..count.div_ceil(2) {
        let mut rng = Rng::new(seed, batch);
        let layout = rng.below(4) as usize;
        let mut made = tables::make(&mut rng, layout);
        let damaged = rng.chance(150);
        if damaged {
            tables::damage(&mut rng, &mut made);
        } else if let Some(read) = tables::read(&made.tag, 0, made.tag.len() as u32) {
            made.lut = read; // the words that our reader gives
        } else if layout >= 2 || made.tag[8] == 3 || made.tag[9] == 3 {
            return Err(format!("the reader has no value for {:?}", made.tag));
        }
        let lut = words_lent(&mut rng, &made.lut);
        for row in [false, true, false, true] {
            let status = call(&mut rng, &made, &lut, row).compare(rule)?;
            let what = if row { "rows" } else { "calls" };
            *seen.entry(format!("{what}, status {status}")).or_default() += 1;
            if status == KHALYKSOR_VALUE && !damaged {
                let bytes = tables::named(&made.tag, &made.lut).map_or(0, |table| table.size);
                *seen.entry(format!("{what} of {}, {} inputs, entries of {bytes}", tables::LAYOUTS[layout].0, made.tag[8])).or_default() += 1;
            } else if damaged {
                *seen.entry(format!("{what}, words or tag made by hand, status {status}")).or_default() += 1;
            }
        }
    }
    Ok(())
}

/// The colour tables of the profiles in a folder and the folders in it.
fn real(folder: &Path, seed: u64, rule: Rule, seen: &mut Counts) -> Result<(), String> {
    let mut paths: Vec<PathBuf> = std::fs::read_dir(folder).map_err(|why| format!("{}: {why}", folder.display()))?.map(|entry| entry.unwrap().path()).collect();
    paths.sort();
    for path in paths {
        if path.is_dir() {
            real(&path, seed, rule, seen)?;
        } else if path.extension().is_some_and(|end| end.eq_ignore_ascii_case("icc") || end.eq_ignore_ascii_case("icm")) {
            let profile = std::fs::read(&path).map_err(|why| format!("{}: {why}", path.display()))?;
            *seen.entry("profiles".to_string()).or_default() += 1;
            of_profile(&profile, seed, rule, seen).map_err(|why| format!("{}: {why}", path.display()))?;
        }
    }
    Ok(())
}

fn of_profile(profile: &[u8], seed: u64, rule: Rule, seen: &mut Counts) -> Result<(), String> {
    let number = |at: usize| profile.get(at..at + 4).map_or(0, |four| u32::from_be_bytes(four.try_into().unwrap()));
    for entry in 0..number(128).min(1000) as usize {
        let (offset, size) = (number(136 + 12 * entry), number(140 + 12 * entry));
        let Some(lut) = tables::read(profile, offset, size) else { continue };
        let made = Made { tag: profile[offset as usize..][..size as usize].to_vec(), lut };
        let mut rng = Rng::new(seed, u64::from(offset));
        for _ in 0..CALLS_A_PROFILE_TABLE {
            for row in [false, true] {
                let status = call(&mut rng, &made, &made.lut, row).compare(rule)?;
                let what = if row { "rows" } else { "calls" };
                *seen.entry(format!("{what} of real tables, status {status}")).or_default() += 1;
            }
        }
        let name = tables::LAYOUTS.iter().find(|layout| u64::from(layout.1) == made.lut[0]).map_or("?", |layout| layout.0);
        let table = tables::named(&made.tag, &made.lut).unwrap();
        *seen.entry(format!("real tables, {name}, {} to {}, entries of {}", table.grid.len(), table.outputs, table.size)).or_default() += 1;
    }
    Ok(())
}

fn compared(seen: &Counts) -> u64 {
    let all = ["calls, status", "rows, status", "calls of real tables", "rows of real tables"];
    seen.iter().filter(|(kind, _)| all.iter().any(|start| kind.starts_with(start))).map(|(_, count)| count).sum()
}

/// Every kind of call that must come.
fn missing(seen: &Counts) -> Vec<String> {
    let mut due = Vec::new();
    for what in ["calls", "rows"] {
        due.extend([0, 14, 19, 102].map(|status| format!("{what}, status {status}")));
        due.extend([0, 14, 19].map(|status| format!("{what}, words or tag made by hand, status {status}")));
        for inputs in 1..=4 {
            due.extend([("mft1", 1), ("mft2", 2), ("mAB", 1), ("mAB", 2), ("mBA", 1), ("mBA", 2)].map(|(name, size)| format!("{what} of {name}, {inputs} inputs, entries of {size}")));
        }
    }
    due.into_iter().filter(|kind| seen.get(kind).is_none_or(|count| *count < 100)).collect()
}

struct Asked {
    count: u64,
    seed: u64,
    profiles: Vec<PathBuf>,
    kinds: bool,
    wrong: bool,
}

fn asked() -> Option<Asked> {
    let mut asked = Asked { count: 1_000_000, seed: 1, profiles: Vec::new(), kinds: false, wrong: false };
    let mut words = std::env::args().skip(1);
    while let Some(word) = words.next() {
        match word.as_str() {
            "--count" => asked.count = words.next()?.replace('_', "").parse().ok()?,
            "--seed" => asked.seed = words.next()?.parse().ok()?,
            "--profiles" => asked.profiles.push(words.next()?.into()),
            "--kinds" => asked.kinds = true,
            "--wrong" => asked.wrong = true,
            _ => return None,
        }
    }
    Some(asked)
}

fn run(asked: &Asked) -> Result<(), String> {
    let mut seen = Counts::new();
    random(asked.count, asked.seed, Rule::Right, &mut seen)?;
    for folder in &asked.profiles {
        real(folder, asked.seed, Rule::Right, &mut seen)?;
    }
    for (kind, count) in seen.iter().filter(|(kind, _)| asked.kinds || !kind.contains(" inputs, ")) {
        println!("{count:>9} {kind}");
    }
    println!("{} calls and rows, each with the rule's status and numbers", compared(&seen));
    let missing = missing(&seen);
    if asked.count >= 100_000 && !missing.is_empty() {
        return Err(format!("fewer than 100 of: {}", missing.join("; ")));
    }
    if asked.wrong {
        for rule in rule::WRONG {
            let mut before = Counts::new();
            match random(CALLS_A_WRONG_RULE, asked.seed, rule, &mut before) {
                Ok(()) => return Err(format!("the wrong rule {rule:?} was not noticed in {CALLS_A_WRONG_RULE} calls and as many rows")),
                Err(_) => println!("the wrong rule {rule:?}: noticed after {} calls and rows", compared(&before)),
            }
        }
    }
    Ok(())
}

fn main() {
    let Some(asked) = asked() else {
        eprintln!("usage: evaluate [--count N] [--seed N] [--profiles FOLDER]... [--kinds] [--wrong]");
        exit(2);
    };
    if unsafe { khalyksor_version() } != KHALYKSOR_VERSION {
        println!("the declarations are of another version than the library");
        exit(1);
    }
    if let Err(why) = run(&asked) {
        println!("{why}");
        exit(1);
    }
}
