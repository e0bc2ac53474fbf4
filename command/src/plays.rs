//! The proved library's entries for runs: safe wrappers that lend the room each needs and decode the numbers.
#![allow(unsafe_code)]
use crate::library::{decoded, odd, Answer, Refusal};
use crate::script;
use crate::set::{MOST_TASKS, MOST_TICKS};
use crate::status::Trouble;

extern "C" {
    fn burrbeech_play(sheet: *const u8, sheet_len: usize, script: *const u8, script_len: usize) -> u64;
    fn burrbeech_worst_run(sheet: *const u8, sheet_len: usize, script: *mut u8, script_len: usize) -> u64;
    fn burrbeech_trace(sheet: *const u8, sheet_len: usize, script: *const u8, script_len: usize, ticks: *mut u8, ticks_len: usize) -> u64;
}

/// In an answer stands for the task of a play without a miss, and in a trace for that of an idle tick.
pub const NO_TASK: usize = 16;

/// What a tick in a locked stretch has above its task.
pub const LOCKED: u8 = 32;

/// The longest play: a job is released by the greatest tick, and misses so much later at the latest.
const MOST_PLAYED: u32 = 2 * MOST_TICKS;

/// Bytes that hold every worst run, as is proved: an entry for each tick up to the deadline, and one more for each task.
const WORST_RUN_ROOM: usize = script::length(MOST_TASKS, MOST_TICKS as usize + MOST_TASKS);

/// How a play ends.
#[derive(Clone, Copy, Debug, PartialEq, Eq)]
pub struct Play {
    /// The moment reached: the end of the tick before it.
    pub tick: u32,
    /// The task that misses then; without one all jobs are done.
    pub missed: Option<usize>,
}

/// Who is refused: the sheet comes first.
#[derive(Clone, Copy, Debug, PartialEq, Eq)]
pub enum Refused {
    Sheet(Refusal),
    Script(ScriptRefusal),
}

#[derive(Clone, Copy, Debug, PartialEq, Eq)]
pub enum ScriptRefusal {
    /// 13: length, fill or check word.
    Whole,
    /// 14: first frames and entries are counted together from 0.
    Item(usize),
}

impl ScriptRefusal {
    pub fn number(self) -> u32 {
        match self {
            ScriptRefusal::Whole => 13,
            ScriptRefusal::Item(_) => 14,
        }
    }

    pub fn item(self) -> Option<usize> {
        match self {
            ScriptRefusal::Whole => None,
            ScriptRefusal::Item(item) => Some(item),
        }
    }
}

/// What an entry that takes a script answers.
pub type PlayAnswer<T> = Result<Result<T, Refused>, Trouble>;

/// How the play of a script ends.
pub fn play(sheet: &[u8], script: &[u8]) -> PlayAnswer<Play> {
    // SAFETY: pointers and lengths are those of live slices
    played(unsafe { burrbeech_play(sheet.as_ptr(), sheet.len(), script.as_ptr(), script.len()) })
}

/// How the play of a script ends, and a byte for each tick of it. Two entries must say the same.
pub fn trace(sheet: &[u8], script: &[u8]) -> PlayAnswer<(Play, Vec<u8>)> {
    let play = match play(sheet, script)? {
        Ok(play) => play,
        Err(refused) => return Ok(Err(refused)),
    };
    let mut ticks = vec![0; play.tick as usize];
    // SAFETY: as above, and what is written overlaps nothing
    let answer = unsafe { burrbeech_trace(sheet.as_ptr(), sheet.len(), script.as_ptr(), script.len(), ticks.as_mut_ptr(), ticks.len()) };
    match played(answer)? {
        Ok(traced) if traced == play => Ok(Ok((play, ticks))),
        _ => Err(Trouble::Disagreement("playing and tracing do not say the same of this script".to_string())),
    }
}

/// The script of a missed set's worst run; none of a set that holds.
pub fn worst_run(sheet: &[u8]) -> Answer<Option<Vec<u8>>> {
    let mut script = vec![0; WORST_RUN_ROOM];
    // SAFETY: as above
    let answer = unsafe { burrbeech_worst_run(sheet.as_ptr(), sheet.len(), script.as_mut_ptr(), script.len()) };
    decoded(answer, |detail| {
        let length = usize::try_from(detail).ok().filter(|&length| length <= WORST_RUN_ROOM)?;
        script.truncate(length);
        script.shrink_to_fit();
        Some(Some(script).filter(|script| !script.is_empty()))
    })
}

/// The script's refusals are told apart from the sheet's, which are decoded as everywhere.
fn played(answer: u64) -> PlayAnswer<Play> {
    let (number, detail) = (answer & 0xFF, answer >> 8);
    match number {
        13 if detail == 0 => Ok(Err(Refused::Script(ScriptRefusal::Whole))),
        14 if detail < (MOST_TASKS + script::MOST_ENTRIES) as u64 => Ok(Err(Refused::Script(ScriptRefusal::Item(detail as usize)))),
        13 | 14 => Err(odd(answer)),
        _ => Ok(decoded(answer, play_of)?.map_err(Refused::Sheet)),
    }
}

/// The tick in bits 0 to 31, the task in bits 32 to 39.
fn play_of(detail: u64) -> Option<Play> {
    let (tick, task) = (detail as u32, usize::try_from(detail >> 32).ok()?);
    let missed = Some(task).filter(|&task| task != NO_TASK);
    (tick <= MOST_PLAYED && missed.is_none_or(|task| task < MOST_TASKS)).then_some(Play { tick, missed })
}

#[cfg(test)]
mod tests {
    use super::*;

    fn ended(tick: u64, task: u64) -> u64 {
        (tick | task << 32) << 8
    }

    #[test]
    fn plays_decode() {
        let play = |answer| played(answer).expect("an answer").expect("a play");
        assert_eq!(play(ended(5, 0)), Play { tick: 5, missed: Some(0) });
        assert_eq!(play(ended(2_097_150, 15)), Play { tick: 2_097_150, missed: Some(15) });
        assert_eq!(play(ended(0, 16)), Play { tick: 0, missed: None });
    }

    #[test]
    fn refusals_decode() {
        let refused = |answer| played(answer).expect("an answer").expect_err("a refusal");
        assert_eq!(refused(13), Refused::Script(ScriptRefusal::Whole));
        for item in [0, 3, 16_777_230] {
            assert_eq!(refused(14 | item << 8), Refused::Script(ScriptRefusal::Item(item as usize)));
        }
        assert_eq!(refused(9 | 1 << 8), Refused::Sheet(Refusal { number: 9, task: Some(1), no_start: None }));
    }

    #[test]
    fn numbers_that_say_nothing_are_trouble() {
        for answer in [12, 15, 1 << 8 | 13, 16_777_231 << 8 | 14, ended(2_097_151, 16), ended(5, 17), ended(5, 256), u64::MAX - 255] {
            assert!(matches!(played(answer), Err(Trouble::Disagreement(_))), "{answer}");
        }
    }
}
