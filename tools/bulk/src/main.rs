//! Runs our `answers` beside moxcms's own readers on millions of jobs, and stops at the first difference.
//!
//!     bulk --answers COMMAND [--exhaustive] [--random N] [--grown N] [--profiles FOLDER].. [--seed N] [--lanes N]
//!
//! `--random N` makes N random jobs, `--grown N` N groups of a job and its four grown ones. A lane is one run of COMMAND with a thread
//! that makes its jobs and one that checks its lines; what jobs there are does not depend on the lanes. Exit status 1 at a difference.
mod book_walk;
mod crate_walk;
mod grow;
mod job;
mod line;
mod make;
mod rng;
mod tags;

use job::{Job, LONGEST_PROFILE};
use line::{Line, parsed};
use rng::Rng;
use std::collections::{BTreeMap, BTreeSet};
use std::io::{BufRead, BufReader, BufWriter, Write};
use std::panic::{AssertUnwindSafe, catch_unwind};
use std::path::PathBuf;
use std::process::{Command, Stdio, exit};
use std::sync::atomic::{AtomicU64, AtomicUsize, Ordering};
use std::sync::{Arc, Mutex, mpsc};
use std::time::Instant;

const BATCH: u64 = 10_000;
const ENOUGH: u64 = 1_000; // times that each refusal must be seen
const LONG: u64 = 10_000_000; // jobs of a run of which that is asked

/// Where our answer and moxcms's are of another kind by design.
const EXCEPTIONS: [&str; 3] =
    ["`cicp`: the Rust refuses a matrix code", "date: twelve bytes, compared as six numbers", "`XYZ `: our default, zeros in the Rust"];

/// The refusals that each reader can give.
const REFUSALS: [&[u32]; 12] = [
    &[1, 2, 3, 4, 5, 6, 7, 8, 9, 10, 11, 12, 13, 14, 15, 16],
    &[9, 10, 11, 12, 13],
    &[1, 2, 14],
    &[1, 17],
    &[1, 2],
    &[1],
    &[1],
    &[1],
    &[1, 2],
    &[1],
    &[1, 2, 3, 4, 5, 6, 7, 8, 9, 10, 11, 12, 13, 14, 15, 16],
    &[9, 10, 11, 12, 13],
];

#[derive(Clone)]
enum Work {
    Exhaustive(u64),
    Random(u64, u64), // number of the batch, jobs in it
    Grown(u64, u64),
    Profile(PathBuf),
}

impl Work {
    fn jobs(&self, seed: u64) -> Vec<Job> {
        match self {
            Work::Exhaustive(part) => make::exhaustive(*part).unwrap_or_default(),
            Work::Random(batch, count) => {
                let mut rng = Rng::new(seed, *batch);
                (0..*count).map(|_| make::random(&mut rng)).collect()
            }
            Work::Grown(batch, count) => {
                let mut rng = Rng::new(seed, !*batch);
                (0..*count).flat_map(|_| { let job = make::random(&mut rng); grow::group(&mut rng, job) }).collect()
            }
            Work::Profile(path) => {
                let bytes = std::fs::read(path).unwrap_or_else(|error| panic!("{}: {error}", path.display()));
                if bytes.len() > LONGEST_PROFILE {
                    println!("left out, longer than {LONGEST_PROFILE} bytes: {}", path.display());
                    return vec![];
                }
                make::of_profile(&bytes)
            }
        }
    }
}

#[derive(Default)]
struct Counts {
    by_work: BTreeMap<&'static str, u64>,
    answers: BTreeMap<(String, u8), u64>, // row and reader
    exceptions: BTreeMap<usize, u64>,
    grown: BTreeMap<(String, usize), (u64, u64)>, // row before and change: tried, changed
}

/// Lines checked so far.
static CHECKED: AtomicU64 = AtomicU64::new(0);

fn difference(what: &str, job: &Job, line: &str) -> ! {
    let hex: String = job.encoded().iter().map(|byte| format!("{byte:02x}")).collect();
    println!("DIFFERENCE after {} jobs: {what}\n  job  {hex}\n  ours {line}", CHECKED.load(Ordering::Relaxed));
    let of = if job.reader > 10 { book_walk::check::rust_line } else { crate_walk::check::rust_line };
    println!("  Rust {}", catch_unwind(|| of(job)).unwrap_or("panics".to_string()));
    exit(1);
}

/// Checks the lines of one batch.
fn check_batch(work: &Work, jobs: &[Job], lines: &[String], counts: &mut Counts) {
    let parsed: Vec<Line> = jobs
        .iter()
        .zip(lines)
        .map(|(job, line)| parsed(line, job.reader, job.words).unwrap_or_else(|| difference("no answer of this reader", job, line)))
        .collect();
    let name = match work {
        Work::Exhaustive(_) => "exhaustive",
        Work::Random(..) => "random",
        Work::Grown(..) => "grown",
        Work::Profile(_) => "profiles",
    };
    for ((job, line), text) in jobs.iter().zip(&parsed).zip(lines) {
        CHECKED.fetch_add(1, Ordering::Relaxed);
        let check = if job.reader > 10 { book_walk::check::check } else { crate_walk::check::check };
        let checked = catch_unwind(AssertUnwindSafe(|| check(job, line))).unwrap_or(Err("the Rust panicked".to_string()));
        let exception = checked.unwrap_or_else(|what| difference(&what, job, text));
        exception.into_iter().for_each(|which| *counts.exceptions.entry(which).or_default() += 1);
        *counts.by_work.entry(name).or_default() += 1;
        *counts.answers.entry((line.row(), job.reader)).or_default() += 1;
    }
    if let Work::Grown(..) = work {
        for (at, before) in parsed.iter().enumerate().step_by(5) {
            for change in 0..4 {
                let after = at + 1 + change;
                let changed = grow::changed(&jobs[at], before, &parsed[after], change).unwrap_or_else(|what| {
                    println!("before: job {:?}, ours {}", jobs[at], lines[at]);
                    difference(&format!("{}: {what}", grow::CHANGES[change]), &jobs[after], &lines[after])
                });
                let count = counts.grown.entry((before.row(), change)).or_default();
                count.0 += 1;
                count.1 += u64::from(changed);
            }
        }
    }
}

/// One run of our program, fed by a thread of its own.
fn lane(command: &str, works: Arc<Vec<Work>>, next: Arc<AtomicUsize>, seed: u64, counts: Arc<Mutex<Counts>>) {
    let mut child = Command::new("sh").args(["-c", command]).stdin(Stdio::piped()).stdout(Stdio::piped()).spawn().expect("our program");
    let mut input = BufWriter::with_capacity(1 << 16, child.stdin.take().unwrap());
    let mut output = BufReader::with_capacity(1 << 16, child.stdout.take().unwrap());
    let (send, receive) = mpsc::sync_channel::<(Work, Arc<Vec<Job>>)>(2);
    let feeder = std::thread::spawn(move || {
        while let Some(work) = works.get(next.fetch_add(1, Ordering::Relaxed)) {
            let jobs = Arc::new(work.jobs(seed));
            send.send((work.clone(), jobs.clone())).unwrap();
            jobs.iter().for_each(|job| input.write_all(&job.encoded()).expect("our program broke off"));
            input.flush().expect("our program broke off");
        }
    });
    for (work, jobs) in receive {
        let mut lines = Vec::with_capacity(jobs.len());
        for job in jobs.iter() {
            let mut line = String::new();
            output.read_line(&mut line).expect("a line of text");
            match line.strip_suffix('\n') {
                Some(line) if line != "bad job" => lines.push(line.to_string()),
                _ => difference("our program broke off", job, &line),
            }
        }
        let mut own = Counts::default();
        check_batch(&work, &jobs, &lines, &mut own);
        counts.lock().unwrap().add(own);
    }
    feeder.join().expect("jobs");
    assert!(child.wait().expect("our program").success(), "our program failed");
}

impl Counts {
    fn add(&mut self, more: Counts) {
        more.by_work.into_iter().for_each(|(key, n)| *self.by_work.entry(key).or_default() += n);
        more.answers.into_iter().for_each(|(key, n)| *self.answers.entry(key).or_default() += n);
        more.exceptions.into_iter().for_each(|(key, n)| *self.exceptions.entry(key).or_default() += n);
        for (key, (tried, changed)) in more.grown {
            let count = self.grown.entry(key).or_default();
            *count = (count.0 + tried, count.1 + changed);
        }
    }

    fn print(&self) {
        println!("{:15}{}", "reader", make::READERS.map(|reader| format!("{reader:>9}")).collect::<String>());
        let rows: BTreeSet<&String> = self.answers.keys().map(|(row, _)| row).collect();
        for row in rows {
            let cell = |reader| self.answers.get(&(row.clone(), reader)).map_or(String::new(), |count| count.to_string());
            println!("{row:15}{}", make::READERS.map(|reader| format!("{:>9}", cell(reader))).collect::<String>());
        }
        let all = |reader| self.answers.iter().filter(|((_, of), _)| *of == reader).map(|(_, count)| count).sum::<u64>();
        println!("{:15}{}", "jobs", make::READERS.map(|reader| format!("{:>9}", all(reader))).collect::<String>());
        for (which, count) in &self.exceptions {
            println!("exception {count:>10}  {}", EXCEPTIONS[*which]);
        }
        if !self.grown.is_empty() {
            println!("{:15}{}", "before", grow::CHANGES.map(|change| format!("{change:>20}")).concat());
            let rows: BTreeSet<&String> = self.grown.keys().map(|(row, _)| row).collect();
            for row in rows {
                let cell = |change| self.grown.get(&(row.clone(), change)).map_or(String::new(), |(n, changed)| format!("{changed} of {n}"));
                println!("{row:15}{}", (0..4).map(|change| format!("{:>20}", cell(change))).collect::<String>());
            }
        }
    }

    /// The refusals that a long run has not seen often enough.
    fn rare(&self) -> Vec<String> {
        if self.by_work.values().sum::<u64>() < LONG {
            return vec![];
        }
        let all = (1..).zip(REFUSALS).flat_map(|(reader, numbers)| numbers.iter().map(move |number| (format!("refused {number:>2}"), reader)));
        let rare = all.filter(|key| self.answers.get(key).is_none_or(|count| *count < ENOUGH));
        rare.map(|(row, reader)| format!("reader {reader}: {row}")).collect()
    }
}

fn usage() -> ! {
    eprintln!("usage: bulk --answers COMMAND [--exhaustive] [--random N] [--grown N] [--profiles FOLDER].. [--seed N] [--lanes N]");
    exit(2);
}

fn main() {
    let (mut command, mut seed, mut lanes, mut random, mut grown) = (None, 1, 1, 0, 0);
    let (mut exhaustive, mut folders) = (false, Vec::new());
    let mut words = std::env::args().skip(1);
    while let Some(word) = words.next() {
        let mut value = || words.next().unwrap_or_else(|| usage());
        let number = |word: String| word.replace('_', "").parse().unwrap_or_else(|_| usage());
        match word.as_str() {
            "--answers" => command = Some(value()),
            "--exhaustive" => exhaustive = true,
            "--random" => random = number(value()),
            "--grown" => grown = number(value()),
            "--profiles" => folders.push(PathBuf::from(value())),
            "--seed" => seed = number(value()),
            "--lanes" => lanes = number(value()),
            _ => usage(),
        }
    }
    let Some(command) = command else { usage() };

    let mut works = Vec::new();
    if exhaustive {
        works.extend((0..).take_while(|part| make::exhaustive(*part).is_some()).map(Work::Exhaustive));
    }
    let batches = |count: u64| (0..count.div_ceil(BATCH)).map(move |k| (k, BATCH.min(count - k * BATCH)));
    works.extend(batches(random).map(|(batch, count)| Work::Random(batch, count)));
    works.extend(batches(grown).map(|(batch, count)| Work::Grown(batch, count)));
    let profiles = make::profiles(&folders);
    let tags: usize = profiles.iter().map(|path| make::tag_table(&std::fs::read(path).unwrap()).len()).sum();
    works.extend(profiles.iter().cloned().map(Work::Profile));

    std::panic::set_hook(Box::new(|what| eprintln!("{what}")));
    let began = Instant::now();
    let (works, next, counts) = (Arc::new(works), Arc::new(AtomicUsize::new(0)), Arc::new(Mutex::new(Counts::default())));
    std::thread::scope(|scope| {
        for _ in 0..lanes {
            let (works, next, counts) = (works.clone(), next.clone(), counts.clone());
            let command = &command;
            scope.spawn(move || lane(command, works, next, seed, counts));
        }
    });

    let counts = counts.lock().unwrap();
    counts.print();
    if !profiles.is_empty() {
        println!("{} profiles, {tags} tags", profiles.len());
    }
    let parts: Vec<String> = counts.by_work.iter().map(|(name, count)| format!("{count} {name}")).collect();
    let total: u64 = counts.by_work.values().sum();
    println!("seed {seed}; {total} jobs compared ({}), 0 differences, {} s", parts.join(", "), began.elapsed().as_secs());
    let rare = counts.rare();
    if !rare.is_empty() {
        println!("seen less than {ENOUGH} times: {}", rare.join("; "));
        exit(1);
    }
}
