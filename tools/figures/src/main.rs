//! Times a call of each of our readers against moxcms's on the same tags, in one run.
//!
//!     figures             every tag: what both took for a call, in nanoseconds, and how many times ours the Rust's is
//!     figures growth      the same for lookup tables of more and more grid points
//!     figures run N SIDE TIMES    tag N alone, `ours` or `rust`, so many calls: for a program that counts instructions
//!
//! First both must give the same kind of answer: a value, an absence, a refusal. Then a round is as many calls as fill four
//! milliseconds of processor time, ours and the Rust's by turns, and the figure is the median of the rounds. Our side writes its words into lent
//! memory, the Rust's returns a value that is dropped; both are part of the call.

mod khalyksor;
mod ours;
mod tags;

use oracle::{CmsError, ParsingOptions, called};
use std::hint::black_box;
use tags::{Reader, Tag};

const ROUNDS: usize = 21;
const ROUND: f64 = 4e6;

/// The processor time that this thread has had, in nanoseconds: what else runs on the machine does not count.
fn spent() -> f64 {
    #[repr(C)]
    struct Time {
        seconds: i64,
        nanoseconds: i64,
    }
    unsafe extern "C" {
        fn clock_gettime(clock: i32, time: *mut Time) -> i32;
    }
    const THREAD: i32 = 3; // CLOCK_THREAD_CPUTIME_ID of Linux
    let mut time = Time { seconds: 0, nanoseconds: 0 };
    assert_eq!(unsafe { clock_gettime(THREAD, &mut time) }, 0);
    time.seconds as f64 * 1e9 + time.nanoseconds as f64
}

/// What kind of answer a call gave.
#[derive(Clone, Copy, Debug, PartialEq)]
pub enum Kind {
    Value,
    Absent,
    Refused,
}

/// What the Rust answered; the value itself is dropped.
fn kind<T>(answer: Result<Option<T>, CmsError>) -> Kind {
    match black_box(&answer) {
        Ok(Some(_)) => Kind::Value,
        Ok(None) => Kind::Absent,
        Err(_) => Kind::Refused,
    }
}

/// moxcms's reader; what it returned is dropped. Of `XYZ ` it does not say which answer is the default.
fn rust(reader: Reader) -> fn(&Tag, &ParsingOptions) -> Kind {
    macro_rules! plain {
        ($name:ident) => {
            |tag, _| kind(called::$name(black_box(&tag.profile), black_box(tag.offset) as usize, black_box(tag.size) as usize))
        };
    }
    match reader {
        Reader::Lut => |tag, options| {
            kind(called::read_lut_tag(black_box(&tag.profile), black_box(tag.offset), black_box(tag.size) as usize, options))
        },
        Reader::Trc => |tag, options| {
            let mut consumed = 0;
            let (entry, size) = (black_box(tag.offset) as usize, black_box(tag.size) as usize);
            let answer = kind(called::read_trc_tag(black_box(&tag.profile), entry, size, &mut consumed, options));
            black_box(consumed);
            answer
        },
        Reader::Text => plain!(read_string_tag),
        Reader::Chad => plain!(read_chad_tag),
        Reader::Sig => plain!(read_tech_tag),
        Reader::Dtim => plain!(read_date_time_tag),
        Reader::Meas => plain!(read_meas_tag),
        Reader::View => plain!(read_viewing_conditions),
        Reader::Xyz => |tag, _| {
            let (entry, size) = (black_box(tag.offset) as usize, black_box(tag.size) as usize);
            kind(called::read_xyz_tag(black_box(&tag.profile), entry, size).map(Some))
        },
        Reader::Cicp => plain!(read_cicp_tag),
    }
}

fn nanoseconds(times: u64, mut call: impl FnMut()) -> f64 {
    let start = spent();
    (0..times).for_each(|_| call());
    (spent() - start) / times as f64
}

/// The calls that fill a round.
fn calls(mut call: impl FnMut()) -> u64 {
    let mut times = 1;
    loop {
        let one = nanoseconds(times, &mut call);
        if ROUND / 4. < one * times as f64 {
            return ((ROUND / one) as u64).max(1);
        }
        times *= 2;
    }
}

fn median(mut of: Vec<f64>) -> f64 {
    of.sort_by(f64::total_cmp);
    of[of.len() / 2]
}

/// Nanoseconds a call, ours and the Rust's.
fn timed(tag: &Tag) -> (f64, f64) {
    let (options, rust, ours) = (tag.options(), black_box(rust(tag.reader)), black_box(ours::reader(tag.reader)));
    let mut room = ours::Room::new();
    let seen = (ours::kind(ours(tag, &mut room)), rust(tag, &options));
    let expected = if tag.reader == Reader::Xyz && seen.0 == Kind::Absent { Kind::Value } else { seen.0 };
    assert_eq!(expected, seen.1, "{} {}: the answers part", tag.reader.name(), tag.name);
    assert_eq!(seen.0, tag.answer, "{} {}: another answer than was meant", tag.reader.name(), tag.name);
    let mine = calls(|| { black_box(ours(tag, &mut room)); });
    let theirs = calls(|| { black_box(rust(tag, &options)); });
    let (mut a, mut b) = (Vec::new(), Vec::new());
    for _ in 0..ROUNDS {
        a.push(nanoseconds(mine, || { black_box(ours(tag, &mut room)); }));
        b.push(nanoseconds(theirs, || { black_box(rust(tag, &options)); }));
    }
    (median(a), median(b))
}

fn number(n: f64) -> String {
    if n < 100. { format!("{n:.1}") } else { format!("{n:.0}") }
}

fn print(tags: &[Tag]) {
    println!("| reader | tag | answer | ours, ns | Rust, ns | Rust / ours |\n|---|---|---|---|---|---|");
    for tag in tags {
        let (mine, theirs) = timed(tag);
        let answer = format!("{:?}", tag.answer).to_lowercase();
        println!("| {} | {} | {answer} | {} | {} | {} |", tag.reader.name(), tag.name, number(mine), number(theirs), number(theirs / mine));
    }
}

fn main() {
    let words: Vec<String> = std::env::args().skip(1).collect();
    match words.iter().map(String::as_str).collect::<Vec<_>>()[..] {
        [] => print(&tags::all()),
        ["growth"] => print(&tags::growth()),
        ["run", which, side, times] => {
            let tag = &tags::all()[which.parse::<usize>().unwrap()];
            let (options, rust, ours) = (tag.options(), rust(tag.reader), ours::reader(tag.reader));
            let mut room = ours::Room::new();
            for _ in 0..times.parse::<u64>().unwrap() {
                match &side[..] {
                    "ours" => drop(black_box(ours(tag, &mut room))),
                    _ => drop(black_box(rust(tag, &options))),
                }
            }
        }
        ["list"] => tags::all().iter().enumerate().for_each(|(i, t)| println!("{i}\t{}\t{}", t.reader.name(), t.name)),
        _ => {
            eprintln!("usage: figures | figures growth | figures list | figures run N ours|rust TIMES");
            std::process::exit(2);
        }
    }
}
