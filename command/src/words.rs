//! The words for verdicts, policies and refusal numbers.
use crate::library::{Refusal, Verdict, DEADLINES_DIFFER};
use crate::plays::ScriptRefusal;
use crate::set::{differ_by_frame, policy_name, Set};

/// Each refusal's number and what it says, in the words of `burrbeech_refusal_words` of the header.
const REFUSALS: [(u32, &str); 15] = [
    (1, "shorter than 15 or longer than 732 bytes"),
    (2, "check word wrong"),
    (3, "version neither 1 nor 2, or not the converter's"),
    (4, "policy not 0, 1 or 2"),
    (5, "a spare or fill bit set"),
    (6, "task count 0 or over 16"),
    (7, "frame count 0 or over 8"),
    (8, "records run past the check word, or 8 or more bits remain after the last"),
    (9, "a task out of range or not well formed"),
    (10, "lock above the largest frame"),
    (11, "not accumulatively monotonic"),
    (12, "lent room too small"),
    (13, "length, fill or check word of the script wrong"),
    (14, "a first frame or an entry of the script out of range, out of order or against a run rule"),
    (DEADLINES_DIFFER, "a set that version 1 cannot hold: the deadlines of a task differ"),
];

/// The short words for a refusal's number.
pub fn short(number: u32) -> &'static str {
    let said = REFUSALS.iter().find(|(refusal, _)| *refusal == number);
    said.map_or("a refusal that this version does not know", |(_, words)| words)
}

/// A line for each number.
pub fn refusals() -> String {
    REFUSALS.iter().map(|(number, words)| format!("{number:2}  {words}\n")).collect()
}

/// `refused 9 (task 1)`.
pub fn refused(refusal: Refusal) -> String {
    match refusal.task {
        Some(task) => format!("refused {} (task {task})", refusal.number),
        None => format!("refused {}", refusal.number),
    }
}

/// `refused 14 (item 3)`.
pub fn script_refused(refusal: ScriptRefusal) -> String {
    match refusal.item() {
        Some(item) => format!("refused {} (item {item})", refusal.number()),
        None => format!("refused {}", refusal.number()),
    }
}

/// `5, the end of tick 4`: a moment of a run.
pub fn moment(tick: u32) -> String {
    match tick.checked_sub(1) {
        Some(before) => format!("{tick}, the end of tick {before}"),
        None => "0, before any tick".to_string(),
    }
}

/// `1 entry`, `2 entries`.
pub fn entries(count: usize) -> String {
    match count {
        1 => "1 entry".to_string(),
        _ => format!("{count} entries"),
    }
}

/// `holds, 2 tasks` or `missed, 2 tasks: task 0 misses, blocker 1`.
pub fn verdict(verdict: Verdict, task_count: usize) -> String {
    let tasks = counted(task_count as u64, "task");
    match verdict {
        Verdict::Holds => format!("holds, {tasks}"),
        Verdict::Missed { task, blocker: Some(blocker) } => format!("missed, {tasks}: task {task} misses, blocker {blocker}"),
        Verdict::Missed { task, blocker: None } => format!("missed, {tasks}: task {task} misses, no blocker"),
    }
}

/// The policy by number and name, and what it says.
pub fn policy(set: &Set) -> String {
    let name = policy_name(set.policy).unwrap_or("unknown");
    let rule = match set.policy {
        0 => "task 0 has the highest priority, then task 1 and so on",
        1 => "the shorter period has the higher priority; of equal ones the lower task number",
        _ if differ_by_frame(&set.tasks) => {
            "the shorter deadline has the higher priority, of a task's deadlines the smallest; of equal ones the lower task number"
        }
        _ => "the shorter deadline has the higher priority; of equal ones the lower task number",
    };
    format!("Policy {}, {name}: {rule}.", set.policy)
}

/// `1 tick`, `2 ticks`.
pub fn counted(count: u64, thing: &str) -> String {
    match count {
        1 => format!("1 {thing}"),
        _ => format!("{count} {thing}s"),
    }
}

/// A length at which sums of frames can differ, 2 to 7, as a word.
pub fn in_words(length: usize) -> &'static str {
    match length {
        2 => "two",
        3 => "three",
        4 => "four",
        5 => "five",
        6 => "six",
        _ => "seven",
    }
}

/// Whether bytes that should be packed bits are a text.
pub fn is_text(bytes: &[u8]) -> bool {
    !bytes.is_empty() && bytes.iter().all(|byte| byte.is_ascii_graphic() || byte.is_ascii_whitespace())
}

/// Numbers with one string between them.
pub fn joined(numbers: &[u32], between: &str) -> String {
    numbers.iter().map(u32::to_string).collect::<Vec<_>>().join(between)
}

pub const UNITS: &str = "Times are ticks; tasks and frames count from 0.";
