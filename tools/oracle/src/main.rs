//! moxcms's tag readers as a program.
//!
//!     oracle -b --full        jobs on standard input, one answer line a job on standard output
//!
//! A job, big-endian: reader u8, offset u32, size u32, limit of curve entries u64, limit of grid points u64,
//! words lent u32 (unread here), length of the profile u32, the profile. Reader 13 has 18 bytes more.
//! Readers 11 and up are not moxcms's: `no oracle`. A reader that panics is answered `panicked at` and where.
use oracle::{ParsingOptions, answer};
use std::cell::RefCell;
use std::io::{self, BufReader, BufWriter, Read, Write};
use std::panic;

const HEADER: usize = 33;
const TABLE_VIEW: u8 = 13;
const TABLE_VIEW_TAIL: usize = 18;

thread_local!(static LAST_PANIC: RefCell<String> = const { RefCell::new(String::new()) });

fn main() -> io::Result<()> {
    if !std::env::args().skip(1).eq(["-b", "--full"]) {
        eprintln!("usage: oracle -b --full <JOBS");
        std::process::exit(2);
    }
    panic::set_hook(Box::new(|what| {
        LAST_PANIC.set(what.to_string().replace('\n', " "));
    }));
    let mut input = BufReader::with_capacity(1 << 20, io::stdin().lock());
    let mut output = BufWriter::with_capacity(1 << 20, io::stdout().lock());
    let mut header = [0; HEADER];
    let mut profile = Vec::new();
    while input.read(&mut header[..1])? == 1 {
        input.read_exact(&mut header[1..])?;
        let number = |at: usize| u32::from_be_bytes(header[at..at + 4].try_into().unwrap());
        let limit = |at: usize| u64::from_be_bytes(header[at..at + 8].try_into().unwrap()) as usize;
        profile.resize(number(29) as usize, 0);
        input.read_exact(&mut profile)?;
        if header[0] == TABLE_VIEW {
            input.read_exact(&mut [0; TABLE_VIEW_TAIL])?;
        }
        let options = ParsingOptions {
            max_profile_size: usize::MAX,
            max_allowed_trc_size: limit(9),
            max_allowed_clut_size: limit(17),
        };
        let line = panic::catch_unwind(|| answer::line(header[0], &profile, number(1), number(5), &options))
            .unwrap_or_else(|_| LAST_PANIC.take());
        writeln!(output, "{line}")?;
    }
    output.flush()
}
