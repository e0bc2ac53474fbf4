//! What is wrong with a refused sheet or list, in words: one function for each refusal. Each answers nothing where it sees no fault, and
//! the command then says that it disagrees with the library instead of making up a reason.
use crate::frames::{no_start, sum_from, taken};
use crate::library::{NoStart, Refusal, DEADLINES_DIFFER};
use crate::set::{
    other_version, policy_name, Set, Task, BY_FRAME, GREATEST_SHEET, LEAST_SHEET, MOST_FRAMES, MOST_TASKS, MOST_TICKS, ONE_DEADLINE,
    POLICIES,
};
use crate::sheet_bits::{self, Cut, End, Layout, SheetBits};
use crate::status::Trouble;
use crate::words::{counted, in_words, is_text, joined};
use std::borrow::Cow;

/// The part of a sheet that has the fault.
#[derive(Clone, Copy, Debug, PartialEq, Eq)]
pub enum Part {
    Length,
    CheckWord,
    Version,
    Policy,
    Spare,
    TaskCount,
    Task(usize),
    End,
}

#[derive(Clone, Debug)]
pub struct Fault {
    pub part: Part,
    /// Field, value and limit.
    pub words: String,
    /// What to do about it, where that helps.
    pub advice: Cow<'static, str>,
}

fn fault_if(seen: bool, part: Part, words: String, advice: impl Into<Cow<'static, str>>) -> Option<Fault> {
    seen.then(|| Fault { part, words, advice: advice.into() })
}

/// The fault of a refused sheet.
pub fn of_sheet(refusal: Refusal, sheet: &[u8]) -> Result<Fault, Trouble> {
    let bits = sheet_bits::read(sheet);
    let found = match (refusal.number, &bits) {
        (1, _) => length(sheet),
        (2, Some(bits)) => check_word(bits, sheet),
        (3, Some(bits)) => version(bits.version, NO_SHEET),
        (4, Some(bits)) => policy(bits.policy),
        (5, Some(bits)) => spare(bits).or_else(|| fill(bits)),
        (6, Some(bits)) => task_count(bits.task_count as usize),
        (8, Some(bits)) => records(bits),
        (_, Some(bits)) => refusal.task.and_then(|task| of_record(refusal, task, bits)),
        (_, None) => None,
    };
    found.ok_or_else(|| unseen(refusal))
}

fn of_record(refusal: Refusal, task: usize, bits: &SheetBits) -> Option<Fault> {
    let record = bits.records.get(task)?;
    match refusal.number {
        7 => frame_count(task, record.frame_count as usize),
        _ => of_task(refusal, task, &record.task, bits.version),
    }
}

/// The fault of a refused list.
pub fn of_list(refusal: Refusal, set: &Set) -> Result<Fault, Trouble> {
    let named = refusal.task.and_then(|task| Some((task, set.tasks.get(task)?)));
    let found = match (refusal.number, named) {
        (3, _) => version(set.version, "Write one of them, or leave the line out: version 1 is then made where it can hold the set."),
        (4, _) => policy(set.policy),
        (6, _) => task_count(set.tasks.len()),
        (7, Some((number, task))) => frame_count(number, task.frames.len()),
        (DEADLINES_DIFFER, _) => deadlines(&set.tasks).filter(|_| set.version == ONE_DEADLINE),
        (_, Some((number, task))) => of_task(refusal, number, task, set.version),
        (_, None) => None,
    };
    found.ok_or_else(|| unseen(refusal))
}

/// The fault of a sheet that is not converted to this version.
pub fn of_conversion(refusal: Refusal, to: u32, sheet: &[u8]) -> Result<Fault, Trouble> {
    let found = match (refusal.number, sheet_bits::read(sheet)) {
        (3, Some(bits)) => version(bits.version, NO_SHEET).or_else(|| same_version(bits.version, to)),
        (DEADLINES_DIFFER, Some(bits)) => {
            let tasks: Vec<Task> = bits.records.into_iter().map(|record| record.task).collect();
            deadlines(&tasks).filter(|_| to == ONE_DEADLINE)
        }
        _ => return of_sheet(refusal, sheet),
    };
    found.ok_or_else(|| unseen(refusal))
}

fn of_task(refusal: Refusal, number: usize, task: &Task, version: u32) -> Option<Fault> {
    match refusal.number {
        9 => form(number, task, version),
        10 => lock(number, task),
        11 => monotony(number, task, refusal.no_start?),
        _ => None,
    }
}

fn unseen(refusal: Refusal) -> Trouble {
    Trouble::Disagreement(format!("the library refuses by number {}, and the command sees no such fault", refusal.number))
}

const TEXT_ADVICE: &str = "This is text, not a sheet: `burrbeech compose` makes a sheet from a task table.";

/// 1.
fn length(sheet: &[u8]) -> Option<Fault> {
    let length = match sheet.len() {
        LEAST_SHEET..=GREATEST_SHEET => return None,
        0 => "the input is empty, 0 bytes".to_string(),
        short @ 1..LEAST_SHEET => format!("length {}", counted(short as u64, "byte")),
        _ => format!("length {} bytes or more", GREATEST_SHEET + 1),
    };
    let advice = if is_text(sheet) { TEXT_ADVICE } else { "Look whether this is the right file, and whole." };
    fault_if(true, Part::Length, format!("{length}: a sheet has {LEAST_SHEET} to {GREATEST_SHEET}"), advice)
}

/// 2.
fn check_word(bits: &SheetBits, sheet: &[u8]) -> Option<Fault> {
    let (stated, computed) = (bits.stated_word, bits.computed_word);
    let advice = if is_text(sheet) {
        TEXT_ADVICE
    } else {
        "The bytes were changed after they were sealed, or whoever made them computed the word otherwise (docs/SHEET.md has values to try), \
         or this is no sheet."
    };
    let words = format!("the check word is {stated:04X}, the bytes before it give {computed:04X}");
    fault_if(stated != computed, Part::CheckWord, words, advice)
}

const NO_SHEET: &str = "Look whether this is a task sheet.";

/// 3.
fn version(version: u32, advice: &'static str) -> Option<Fault> {
    let words = format!("version {version}: only versions {ONE_DEADLINE} and {BY_FRAME} are known");
    fault_if(Layout::of(version).is_none(), Part::Version, words, advice)
}

/// 3 of a conversion: a sheet of the other version is asked for.
fn same_version(version: u32, to: u32) -> Option<Fault> {
    let other = other_version(to);
    let words = format!("the sheet has version {version}, and version {to} was asked for: a sheet of version {other} is converted to it");
    fault_if(version == to, Part::Version, words, "There is nothing to convert; `burrbeech check` says whether it is admitted.")
}

/// 4.
fn policy(policy: u32) -> Option<Fault> {
    let [zero, one, two] = POLICIES;
    let words = format!("policy {policy}: 0 ({zero}), 1 ({one}) and 2 ({two}) are allowed");
    fault_if(policy_name(policy).is_none(), Part::Policy, words, "")
}

/// 5 in the header.
fn spare(bits: &SheetBits) -> Option<Fault> {
    let words = format!("spare bits {}, bits 11 to 15 of the header: they must be 0", bits.spare);
    fault_if(bits.spare.contains('1'), Part::Spare, words, "Write zeros there and seal the sheet anew.")
}

/// 5 after the records.
fn fill(bits: &SheetBits) -> Option<Fault> {
    let End::Left(fill) = &bits.end else { return None };
    let words = format!("fill bits {fill} after the last record: they must be 0");
    fault_if(fill.contains('1'), Part::End, words, "Write zeros there and seal the sheet anew.")
}

/// 6.
fn task_count(count: usize) -> Option<Fault> {
    let words = format!("task count {count}: 1 to {MOST_TASKS} are allowed");
    fault_if(count == 0 || count > MOST_TASKS, Part::TaskCount, words, "")
}

/// 7.
fn frame_count(task: usize, count: usize) -> Option<Fault> {
    let words = format!("frame count {count}: 1 to {MOST_FRAMES} are allowed");
    fault_if(count == 0 || count > MOST_FRAMES, Part::Task(task), words, "")
}

/// 8.
fn records(bits: &SheetBits) -> Option<Fault> {
    let next = bits.records.len();
    let (part, words) = match &bits.end {
        End::FixedCut(Cut { needed, there }) => {
            let words = format!("task {next}: the record runs past the check word: {needed} bits for its fixed part, {there} are there");
            (Part::End, words)
        }
        End::FramesCut(Cut { needed, there }) => {
            let frames = counted(bits.records.last()?.frame_count.into(), "frame");
            let words = format!("task {}: the record runs past the check word: {needed} bits for {frames}, {there} are there", next - 1);
            (Part::Task(next - 1), words)
        }
        End::Left(left) if left.len() >= 8 => {
            (Part::End, format!("{} bits are left after the last record: fewer than 8 are allowed", left.len()))
        }
        _ => return None,
    };
    fault_if(true, part, words, "Look at the task count, the frame counts and the sheet's length: they must agree.")
}

/// 9, with every reason.
fn form(number: usize, task: &Task, version: u32) -> Option<Fault> {
    let deadlines = deadline_words(task, version);
    let frames = || task.frames.iter().zip(&task.deadlines).enumerate();
    let mut reasons: Vec<String> = Vec::new();
    reasons.extend(out_of_range(&format!("period {}", task.period), task.period, 1));
    reasons.extend(deadlines.iter().filter_map(|(deadline, words)| out_of_range(words, *deadline, 1)));
    reasons.extend(out_of_range(&format!("lock {}", task.lock), task.lock, 0));
    reasons.extend(frames().filter_map(|(frame, (&time, _))| out_of_range(&format!("frame {frame} with work {time}"), time, 1)));
    let late = deadlines.iter().filter(|(deadline, _)| *deadline > task.period);
    reasons.extend(late.map(|(_, words)| format!("{words} is above the period {}", task.period)));
    let above = frames().filter(|(_, (time, deadline))| time > deadline);
    reasons.extend(above.map(|(frame, (time, deadline))| format!("frame {frame} with work {time} is above its deadline {deadline}")));
    fault_if(!reasons.is_empty(), Part::Task(number), reasons.join("; "), "")
}

/// Each deadline with its words, which name the frame unless one field or column stands for all frames.
fn deadline_words(task: &Task, version: u32) -> Vec<(u32, String)> {
    let by_frame = |(frame, &deadline): (usize, &u32)| (deadline, format!("deadline {deadline} of frame {frame}"));
    match task.one_deadline().filter(|_| version == ONE_DEADLINE) {
        Some(deadline) => vec![(deadline, format!("deadline {deadline}"))],
        None => task.deadlines.iter().enumerate().map(by_frame).collect(),
    }
}

fn out_of_range(words: &str, value: u32, least: u32) -> Option<String> {
    let fits = (least..=MOST_TICKS).contains(&value);
    (!fits).then(|| format!("{words}: {least} to {MOST_TICKS} are allowed"))
}

/// 10.
fn lock(number: usize, task: &Task) -> Option<Fault> {
    let (frame, largest) = task.largest_frame()?;
    let words = format!("lock {} is above the largest frame, frame {frame} with work {largest}", task.lock);
    fault_if(task.lock > largest, Part::Task(number), words, "A job cannot lock for longer than it works.")
}

/// 11, where the frames have no start frame for the very reason that the library names.
fn monotony(number: usize, task: &Task, named: NoStart) -> Option<Fault> {
    let seen = no_start(task).filter(|&seen| seen == named)?;
    fault_if(true, Part::Task(number), no_start_words(&task.frames, seen), no_start_advice(task, seen))
}

/// 17: the first task whose deadlines differ, frame 0 and the first frame that has another.
fn deadlines(tasks: &[Task]) -> Option<Fault> {
    let (number, task, frame) = tasks.iter().enumerate().find_map(|(number, task)| Some((number, task, task.unequal_deadline()?)))?;
    let [first, other] = [0, frame].map(|frame| format!("frame {frame} has deadline {}", task.deadlines[frame]));
    let words = format!("task {number}: {first}, {other}: version {ONE_DEADLINE} has one deadline for all frames of a task");
    fault_if(true, Part::Task(number), words, "Version 2 can hold it; or give all frames of each task one deadline.")
}

/// The largest frame and the two sums, term by term.
fn no_start_words(frames: &[u32], no_start: NoStart) -> String {
    let NoStart { frame, length, other_frame } = no_start;
    let largest = frames[frame];
    let is_alone = frames.iter().filter(|&&time| time == largest).count() == 1;
    let which = if is_alone { "the largest is" } else { "the first of the largest is" };
    let sum = |from| format!("{} = {}", joined(&taken(frames, from, length), " + "), sum_from(frames, from, length));
    let (count, ticks) = (in_words(length), counted(largest.into(), "tick"));
    format!(
        "frames {} have no start frame: {which} frame {frame} ({ticks}); {count} frames from it on, going round, make {}, {count} from frame \
         {other_frame} on make {}",
        joined(frames, " "),
        sum(frame),
        sum(other_frame)
    )
}

/// What the smaller sum lacks can be given to its last frame, which the greater has not, and which comes to no more than the largest.
/// Its own deadline may be too short for that, and is within the period when it is raised with it.
fn no_start_advice(task: &Task, no_start: NoStart) -> String {
    let (NoStart { frame, length, other_frame }, frames) = (no_start, &task.frames);
    let last = (frame + length - 1) % frames.len();
    let (missing, time) = (sum_from(frames, other_frame, length) - sum_from(frames, frame, length), u64::from(frames[last]));
    let (raised, deadline) = (time + missing, u64::from(task.deadlines[last]));
    let longer = if raised > deadline { format!(", its deadline from {deadline} to {raised},") } else { String::new() };
    format!(
        "Change the order of the frames, or raise frame {last} from {time} to {raised}{longer} and ask again. A list that never rises in a round \
         from one of its largest frames on has a start frame. Frames count from 0; docs/SHEET.md shows how a list is mended."
    )
}

#[cfg(test)]
mod tests {
    use super::*;
    use crate::library;

    /// Of a set that is admitted no refusal is made up.
    #[test]
    fn no_fault_is_said_where_there_is_none() {
        let task = Task { period: 10, lock: 2, frames: vec![2, 1], deadlines: vec![4, 4] };
        for version in [ONE_DEADLINE, BY_FRAME] {
            let set = Set { version, policy: 0, tasks: vec![task.clone()] };
            let sheet = library::write(&set).expect("an answer").expect("a sheet");
            for (number, task) in (1..=17).flat_map(|number| [None, Some(0), Some(1)].map(|task| (number, task))) {
                for no_start in [None, Some(NoStart { frame: 0, length: 2, other_frame: 1 })] {
                    let refusal = Refusal { number, task, no_start };
                    assert!(matches!(of_sheet(refusal, &sheet), Err(Trouble::Disagreement(_))), "{refusal:?}");
                    assert!(matches!(of_list(refusal, &set), Err(Trouble::Disagreement(_))), "{refusal:?}");
                    let to_the_other = of_conversion(refusal, other_version(version), &sheet);
                    assert!(matches!(to_the_other, Err(Trouble::Disagreement(_))), "{refusal:?}");
                }
            }
        }
    }

    /// Deadlines that differ are a fault in version 1 alone, and a version only where it is the one asked for.
    #[test]
    fn the_fault_is_that_of_the_version_asked_for() {
        let tasks = vec![task(&[3]), Task { deadlines: vec![4, 4, 5], ..task(&[3, 2, 1]) }];
        let [one, two] = [ONE_DEADLINE, BY_FRAME].map(|version| Set { version, policy: 0, tasks: tasks.clone() });
        let sheet = library::write(&two).expect("an answer").expect("a sheet");
        let refusal = |number| Refusal { number, task: None, no_start: None };
        let words = "task 1: frame 0 has deadline 4, frame 2 has deadline 5: version 1 has one deadline for all frames of a task";
        let fault = of_list(refusal(DEADLINES_DIFFER), &one).expect("a fault");
        assert_eq!((fault.words.as_str(), fault.part), (words, Part::Task(1)));
        assert_eq!(of_conversion(refusal(DEADLINES_DIFFER), ONE_DEADLINE, &sheet).expect("a fault").words, words);
        let words = "the sheet has version 2, and version 2 was asked for: a sheet of version 1 is converted to it";
        assert_eq!(of_conversion(refusal(3), BY_FRAME, &sheet).expect("a fault").words, words);
        for fault in [
            of_list(refusal(DEADLINES_DIFFER), &two),
            of_conversion(refusal(DEADLINES_DIFFER), BY_FRAME, &sheet),
            of_conversion(refusal(3), ONE_DEADLINE, &sheet),
        ] {
            assert!(matches!(fault, Err(Trouble::Disagreement(_))), "{fault:?}");
        }
    }

    fn task(frames: &[u32]) -> Task {
        Task { period: 10, lock: 0, frames: frames.to_vec(), deadlines: vec![10; frames.len()] }
    }

    fn set(frames: &[u32]) -> Set {
        Set { version: ONE_DEADLINE, policy: 0, tasks: vec![task(frames)] }
    }

    /// The words where the library refuses these frames for this reason; none where the command does not agree.
    fn words_of(frames: &[u32], frame: usize, length: usize, other_frame: usize) -> Option<String> {
        let refusal = Refusal { number: 11, task: Some(0), no_start: Some(NoStart { frame, length, other_frame }) };
        match of_list(refusal, &set(frames)) {
            Ok(fault) => Some(fault.words),
            Err(Trouble::Disagreement(_)) => None,
            Err(trouble) => panic!("{trouble:?}"),
        }
    }

    /// Of every reason that an answer can name, the one that the frames give is said, and no other.
    #[test]
    fn another_reason_is_a_disagreement() {
        for (frames, seen) in [([1, 2, 3].as_slice(), (2, 2, 1)), (&[9, 1, 8, 8], (0, 2, 2)), (&[2, 1, 2, 3, 2, 2, 3, 2], (3, 7, 2))] {
            let all = (0..8).flat_map(|frame| (2..8).flat_map(move |length| (0..8).map(move |other| (frame, length, other))));
            let said: Vec<_> = all.filter(|&(frame, length, other)| words_of(frames, frame, length, other).is_some()).collect();
            assert_eq!(said, [seen], "{frames:?}");
        }
    }

    /// The same of a sheet: case I, whose frames are 1, 2 and 3.
    #[test]
    fn another_reason_of_a_sheet_is_a_disagreement() {
        let fault = |frame, length, other_frame| {
            let refusal = Refusal { number: 11, task: Some(0), no_start: Some(NoStart { frame, length, other_frame }) };
            of_sheet(refusal, include_bytes!("../../sheets/i.sheet"))
        };
        assert_eq!(fault(2, 2, 1).expect("a fault").words, words_of(&[1, 2, 3], 2, 2, 1).expect("words"));
        for (frame, length, other_frame) in [(1, 2, 2), (0, 2, 1), (2, 3, 1), (2, 2, 0), (2, 2, 3), (7, 2, 1)] {
            let fault = fault(frame, length, other_frame);
            assert!(matches!(fault, Err(Trouble::Disagreement(_))), "{frame} {length} {other_frame}");
        }
    }

    /// Frames with a start frame are not said to have none, though another than the first largest qualifies (case K).
    #[test]
    fn no_reason_is_said_of_case_k() {
        assert_eq!(words_of(&[3, 1, 3, 2], 0, 2, 2), None);
    }

    #[test]
    fn no_fault_without_a_reason() {
        let refusal = Refusal { number: 11, task: Some(0), no_start: None };
        assert!(matches!(of_list(refusal, &set(&[1, 2, 3])), Err(Trouble::Disagreement(_))));
    }

    #[test]
    fn frames_without_a_start_in_words() {
        let words = |frames: &[u32], frame, length, other_frame| words_of(frames, frame, length, other_frame).expect("words");
        assert_eq!(
            words(&[1, 2, 3], 2, 2, 1),
            "frames 1 2 3 have no start frame: the largest is frame 2 (3 ticks); two frames from it on, going round, make 3 + 1 = 4, two from \
             frame 1 on make 2 + 3 = 5"
        );
        assert_eq!(
            words(&[5, 1, 5, 1, 3], 0, 2, 4),
            "frames 5 1 5 1 3 have no start frame: the first of the largest is frame 0 (5 ticks); two frames from it on, going round, make \
             5 + 1 = 6, two from frame 4 on make 3 + 5 = 8"
        );
    }
}
