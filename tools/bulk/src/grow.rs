//! The same job with more: bytes behind the profile, higher limits, more words. More must spoil no answer.
use crate::job::{Job, MOST_WORDS};
use crate::line::{Line, Ours};
use crate::rng::Rng;

pub const CHANGES: [&str; 4] = ["bytes appended", "limits raised", "words added", "all three"];

/// A job and its four grown ones, in the order of CHANGES.
pub fn group(rng: &mut Rng, job: Job) -> Vec<Job> {
    let mut bytes = job.clone();
    let more = if rng.chance(500) { rng.within(1..=8) } else { rng.within(1..=64) };
    bytes.profile.extend(rng.bytes(more as usize));
    let mut limits = job.clone();
    for limit in [&mut limits.curve_limit, &mut limits.grid_limit] {
        let near = rng.below(10);
        *limit = limit.saturating_add(rng.pick(&[0, 1, near, 4096, 1 << 32, u64::MAX]));
    }
    let mut words = job.clone();
    words.words = (job.words + rng.pick(&[1, 3, 4, 9, 10, 11, 30])).min(MOST_WORDS);
    let all = Job { curve_limit: limits.curve_limit, grid_limit: limits.grid_limit, words: words.words, ..bytes.clone() };
    vec![job, bytes, limits, words, all]
}

/// Whether the answer changed, or why it may not.
pub fn changed(job: &Job, before: &Line, after: &Line, change: usize) -> Result<bool, String> {
    let firm = matches!(before.answer, Ours::Value(..) | Ours::Default);
    if before.answer == after.answer {
        let kept = after.lent[..before.lent.len()] == before.lent && after.left_alone(before.lent.len());
        return if kept { Ok(false) } else { Err("the lent words changed".to_string()) };
    }
    let want_of_bytes = matches!(job.reader, 2 | 12) && u64::from(job.offset) + 4 > job.profile.len() as u64;
    let by_bytes = matches!(before.answer, Ours::Refused(1 | 11)) || before.answer == Ours::Absent && want_of_bytes;
    let by_limits = matches!(before.answer, Ours::Refused(10 | 16));
    let by_words = matches!(before.answer, Ours::Refused(14));
    let may = [by_bytes, by_limits, by_words, by_bytes || by_limits || by_words][change];
    if may && !firm { Ok(true) } else { Err("this answer may not change".to_string()) }
}
