//! The one number that a C entry answers (all but `burrbeech_check_sheet`): the refusal below 256, 0 for none, and 256 times the detail.
use crate::analysis::Verdict;
use crate::refusal::Refusal;
use crate::scripts::{self, Play};
use crate::task::MOST_TASKS;

/// A refusal with its detail, or what the call answers by its own.
pub fn number<T>(answer: Result<T, Refusal>, detail: impl FnOnce(T) -> u64) -> u64 {
    answer.map_or_else(refused, |t| detail(t) << 8)
}

/// The task in bits 0 to 7 of the detail; of 11 also the frame in bits 8 to 15, the length in 16 to 23, the other frame in 24 to 31. Of 14 the item.
pub fn refused(refusal: Refusal) -> u64 {
    let detail = match refusal {
        Refusal::NotMonotonic(task, why) => task | why.frame << 8 | why.length << 16 | why.other << 24,
        Refusal::Item(item) => item,
        _ => refusal.task(),
    };
    u64::from(refusal.number()) + 256 * detail as u64
}

/// The task count in bits 0 to 7, the policy in bits 8 to 15, the version in bits 16 to 23.
pub fn read((version, policy, tasks): (u32, u32, usize)) -> u64 {
    tasks as u64 + (u64::from(policy) << 8) + (u64::from(version) << 16)
}

/// The outcome in bits 0 to 15, the task count in bits 16 to 23.
pub fn analysed(verdict: Verdict, tasks: usize) -> u64 {
    let outcome = match verdict {
        Verdict::Holds => 0,
        Verdict::Missed { task, blocker } => 1 + 17 * task as u64 + blocker.unwrap_or(16) as u64,
    };
    outcome + ((tasks as u64) << 16)
}

/// The tick in bits 0 to 31; in bits 32 to 39 the task that misses, or 16 for none.
pub fn played(play: Play) -> u64 {
    play.tick + ((play.missed.unwrap_or(MOST_TASKS) as u64) << 32)
}

/// What `burrbeech_play` answers.
pub fn play(sheet: &[u8], script: &[u8]) -> u64 {
    number(scripts::play_sheet(sheet, script), played)
}

/// What `burrbeech_trace` answers, and what it leaves in the lent bytes.
pub fn trace(sheet: &[u8], script: &[u8], ticks: &mut [u8]) -> u64 {
    number(scripts::trace_into(sheet, script, ticks), played)
}

/// What `burrbeech_worst_run` answers, and what it leaves in the lent bytes.
pub fn worst_run(sheet: &[u8], script: &mut [u8]) -> u64 {
    number(scripts::worst_into(sheet, script), |bytes| bytes as u64)
}
