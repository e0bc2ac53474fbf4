//! What is wrong with a refused script, in words. The library says that it is refused and at which item; where the command sees no fault
//! there, or one before it, it says that it disagrees instead of making up a reason.
use crate::library;
use crate::plays::ScriptRefusal;
use crate::script::{length, Entry, Script, MOST_BYTES};
use crate::set::{Set, Task, MOST_TASKS, MOST_TICKS};
use crate::status::Trouble;
use crate::words::{counted, entries, is_text};
use std::cmp::Ordering;

/// The part of a script that has a fault.
#[derive(Clone, Copy, Debug, PartialEq, Eq)]
pub enum Part {
    Length,
    CheckWord,
    Fill,
    /// The item that the refusal names.
    Item,
}

#[derive(Clone, Debug, PartialEq, Eq)]
pub struct ScriptFault {
    /// Field, value and limit, of each part that is at fault.
    pub reasons: Vec<(Part, String)>,
    /// What to do about it, where that helps.
    pub advice: String,
}

impl ScriptFault {
    /// Every reason.
    pub fn words(&self) -> String {
        self.reasons.iter().map(|(_, words)| words.as_str()).collect::<Vec<_>>().join("; ")
    }

    /// The reason that is about a part.
    pub fn of_part(&self, part: Part) -> Option<&str> {
        self.reasons.iter().find(|(at, _)| *at == part).map(|(_, words)| words.as_str())
    }

    /// The fault of an item, with every reason; none without one.
    fn of_item(reasons: &[String], advice: &str) -> Option<Self> {
        let words = (Part::Item, reasons.join("; "));
        (!reasons.is_empty()).then(|| ScriptFault { reasons: vec![words], advice: advice.to_string() })
    }
}

/// The fault of a refused script.
pub fn of(refusal: ScriptRefusal, bytes: &[u8], set: &Set) -> Result<ScriptFault, Trouble> {
    let script = Script::of(bytes, set.tasks.len());
    let found = match (refusal, &script) {
        (ScriptRefusal::Whole, _) => whole(bytes, set.tasks.len())?,
        (ScriptRefusal::Item(item), Some(script)) => first_item(set, script).filter(|&(first, _)| first == item).map(|(_, fault)| fault),
        (ScriptRefusal::Item(_), None) => None,
    };
    found.ok_or_else(|| {
        let number = refusal.number();
        Trouble::Disagreement(format!("the library refuses by number {number}, and the command sees no such fault, or an earlier one"))
    })
}

/// That the command sees no fault in a script that the library admits, so that what is shown or made is what was judged.
pub fn none(bytes: &[u8], set: &Set) -> Result<(), Trouble> {
    let tasks = set.tasks.len();
    let seen = Script::of(bytes, tasks).is_some_and(|script| is_whole(bytes, tasks) && first_item(set, &script).is_none());
    let words = "the library admits a script in which the command sees a fault";
    seen.then_some(()).ok_or_else(|| Trouble::Disagreement(words.to_string()))
}

/// 13, with every reason.
fn whole(bytes: &[u8], tasks: usize) -> Result<Option<ScriptFault>, Trouble> {
    let reasons = match Script::of(bytes, tasks) {
        Some(script) => {
            [check_word_reason(&script, bytes), length_reason(&script, bytes), fill_reason(&script)].into_iter().flatten().collect()
        }
        None => vec![(Part::Length, short_reason(bytes, tasks))],
    };
    let advice = whole_advice(bytes, tasks)?;
    Ok((!reasons.is_empty()).then_some(ScriptFault { reasons, advice }))
}

fn short_reason(bytes: &[u8], tasks: usize) -> String {
    let there = if bytes.is_empty() { "the input is empty, 0 bytes".to_string() } else { format!("length {}", bytes_words(bytes.len())) };
    format!("{there}: {} has at least {}", for_tasks(tasks), length(tasks, 0))
}

/// What is longer than every script was not read to its end, where its check word would stand.
fn check_word_reason(script: &Script, bytes: &[u8]) -> Option<(Part, String)> {
    let (stated, computed) = (script.stated_word(), script.computed_word());
    let words = format!("the check word is {stated:04X}, the bytes before it give {computed:04X}");
    (stated != computed && bytes.len() <= MOST_BYTES).then_some((Part::CheckWord, words))
}

fn length_reason(script: &Script, bytes: &[u8]) -> Option<(Part, String)> {
    let (there, needed) = (bytes_words(bytes.len()), length(script.tasks(), script.count()));
    let words = format!("length {there}: {} whose count says {} has {needed}", for_tasks(script.tasks()), entries(script.count()));
    (bytes.len() != needed).then_some((Part::Length, words))
}

fn fill_reason(script: &Script) -> Option<(Part, String)> {
    let fill = script.fill().filter(|fill| fill.contains('1'))?;
    Some((Part::Fill, format!("fill bits {fill} after the last entry: they must be 0")))
}

fn for_tasks(tasks: usize) -> String {
    format!("a script for {}", counted(tasks as u64, "task"))
}

/// `22 bytes`: of what is longer than every script no more was read than shows it.
pub fn bytes_words(count: usize) -> String {
    let more = if count > MOST_BYTES { " or more" } else { "" };
    counted(count as u64, "byte") + more
}

/// A script does not say for how many tasks it is, so that with another sheet its fields fall elsewhere.
fn whole_advice(bytes: &[u8], tasks: usize) -> Result<String, Trouble> {
    if is_text(bytes) {
        return Ok("This is text, not a script: `burrbeech script compose` makes a script from it.".to_string());
    }
    if library::read(bytes)?.is_ok() {
        return Ok("It reads as a sheet, and a script is asked for.".to_string());
    }
    Ok(match (1..=MOST_TASKS).find(|&other| other != tasks && is_whole(bytes, other)) {
        Some(other) => format!("It would be one for a sheet of {}: look whether this is its sheet.", counted(other as u64, "task")),
        None => "Look whether this is the right file, and whole, and the sheet that it was made for.".to_string(),
    })
}

/// Whether the bytes are a script for so many tasks, as far as 13 goes.
fn is_whole(bytes: &[u8], tasks: usize) -> bool {
    Script::of(bytes, tasks).is_some_and(|script| {
        let fits = bytes.len() == length(tasks, script.count()) && script.fill().is_some_and(|fill| !fill.contains('1'));
        fits && script.stated_word() == script.computed_word()
    })
}

/// 14: the first item at fault, with every reason.
fn first_item(set: &Set, script: &Script) -> Option<(usize, ScriptFault)> {
    let tasks = set.tasks.len();
    let first_frame = |task: usize| Some((task, first_frame_fault(task, &set.tasks[task], script.first_frame(task))?));
    (0..tasks).find_map(first_frame).or_else(|| {
        let mut seen = Seen::new(set, script);
        script.entries().enumerate().find_map(|(number, entry)| {
            let fault = seen.fault_of(&entry);
            seen.note(number, entry);
            Some((tasks + number, fault?))
        })
    })
}

fn first_frame_fault(number: usize, task: &Task, first: u32) -> Option<ScriptFault> {
    let frames = task.frames.len();
    let there = counted(frames as u64, "frame");
    let words = format!("first frame {first} of task {number}: it has {there}, {}", allowed_below(frames));
    ScriptFault::of_item(&[words], "").filter(|_| first as usize >= frames)
}

/// `0 to 2 are allowed`.
fn allowed_below(count: usize) -> String {
    match count {
        1 => "0 is allowed".to_string(),
        _ => format!("0 to {} are allowed", count - 1),
    }
}

const ONE_OVER_NONE: &str = "A lock of 1 locks nothing, and above a lock of 0 it is out of range all the same: write 0.";

fn lock_reason(entry: &Entry, task: &Task) -> Option<String> {
    let above = counted(entry.lock.checked_sub(task.lock).filter(|&above| above > 0)?.into(), "tick");
    Some(format!("lock {} is {above} above the lock {} of task {}", entry.lock, task.lock, entry.task))
}

/// What the entries so far leave for the next.
struct Seen<'a> {
    set: &'a Set,
    last: Option<Entry>,
    /// Of each task the frame of its next job, how many it had, and its last release with its item.
    next_frames: Vec<usize>,
    jobs: Vec<usize>,
    released: Vec<Option<(u32, usize)>>,
}

impl<'a> Seen<'a> {
    fn new(set: &'a Set, script: &Script) -> Self {
        let tasks = set.tasks.len();
        let next_frames = script.first_frames().iter().map(|&frame| frame as usize).collect();
        Seen { set, last: None, next_frames, jobs: vec![0; tasks], released: vec![None; tasks] }
    }

    fn note(&mut self, number: usize, entry: Entry) {
        let task = entry.task as usize;
        if let Some(frames) = self.set.tasks.get(task).map(|task| task.frames.len()) {
            self.next_frames[task] = (self.next_frames[task] + 1) % frames;
            self.jobs[task] += 1;
            self.released[task] = Some((entry.tick, self.set.tasks.len() + number));
        }
        self.last = Some(entry);
    }

    /// Every rule that an entry breaks. What order it is in decides whether its distance from the last can be told.
    fn fault_of(&self, entry: &Entry) -> Option<ScriptFault> {
        let order = self.order_reason(entry);
        let reasons = match self.set.tasks.get(entry.task as usize) {
            None => [Some(self.task_reason(entry)), order, None, None],
            Some(task) => {
                let early = if order.is_none() { self.early_reason(entry, task) } else { None };
                [order, early, self.work_reason(entry, task), lock_reason(entry, task)]
            }
        };
        let reasons: Vec<String> = reasons.into_iter().flatten().collect();
        let is_one_over_none = entry.lock == 1 && self.set.tasks.get(entry.task as usize).is_some_and(|task| task.lock == 0);
        let advice = if is_one_over_none { ONE_OVER_NONE } else { "" };
        ScriptFault::of_item(&reasons, advice)
    }

    fn task_reason(&self, entry: &Entry) -> String {
        let count = self.set.tasks.len();
        format!("task {}: the sheet has {}, {}", entry.task, counted(count as u64, "task"), allowed_below(count))
    }

    fn order_reason(&self, entry: &Entry) -> Option<String> {
        let last = self.last?;
        let (here, there) = ((entry.tick, entry.task), (last.tick, last.task));
        let place = |(tick, task)| format!("tick {tick}, task {task}");
        match here.cmp(&there) {
            Ordering::Greater => None,
            Ordering::Equal => Some(format!("{} stands there twice: a task is released once in a tick at most", place(here))),
            Ordering::Less => Some(format!("{} stands behind {}: entries go by tick, then by task number", place(here), place(there))),
        }
    }

    fn early_reason(&self, entry: &Entry, task: &Task) -> Option<String> {
        let (last, item) = self.released[entry.task as usize]?;
        let free = last + task.period;
        let again = match free <= MOST_TICKS {
            true => format!("it may be released again at {free}"),
            false => format!("it can be released no more: no tick after {MOST_TICKS} can be written in a script"),
        };
        let (number, missing) = (entry.task, counted(free.checked_sub(entry.tick).filter(|&missing| missing > 0)?.into(), "tick"));
        let words = format!("tick {} is {missing} too early for task {number}: it was released at {last} (item {item}), ", entry.tick);
        Some(words + &format!("its period is {}, and {again}", task.period))
    }

    fn work_reason(&self, entry: &Entry, task: &Task) -> Option<String> {
        let (number, frame) = (entry.task as usize, self.next_frames[entry.task as usize]);
        let time = *task.frames.get(frame)?;
        let above = counted(entry.work.checked_sub(time).filter(|&above| above > 0)?.into(), "tick");
        let which = format!("its job {} takes frame {frame}, with {}", self.jobs[number], counted(time.into(), "tick"));
        Some(format!("work {} is {above} above the frame of task {number}: {which}", entry.work))
    }
}

#[cfg(test)]
mod tests {
    use super::*;
    use crate::script;

    /// Case F, and entries that its tasks may have.
    fn of_f(change: impl FnOnce(&mut Vec<Entry>)) -> (Set, Vec<u8>) {
        let task = |period, deadline, lock, frame| Task { period, lock, frames: vec![frame], deadlines: vec![deadline] };
        let set = Set { version: 1, policy: 0, tasks: vec![task(10, 4, 0, 2), task(20, 20, 3, 5)] };
        let entry = |task, tick, work, lock| Entry { task, tick, work, lock };
        let mut entries = vec![entry(1, 0, 5, 3), entry(0, 1, 2, 0), entry(0, 11, 0, 0), entry(1, 20, 1, 1), entry(0, 25, 2, 0)];
        change(&mut entries);
        (set, script::write(&[0, 0], &entries))
    }

    /// Of a script that keeps the rules no fault is made up.
    #[test]
    fn no_fault_is_said_where_there_is_none() {
        let (set, bytes) = of_f(|_| {});
        for refusal in [ScriptRefusal::Whole, ScriptRefusal::Item(0), ScriptRefusal::Item(2), ScriptRefusal::Item(7)] {
            assert!(matches!(of(refusal, &bytes, &set), Err(Trouble::Disagreement(_))), "{refusal:?}");
        }
    }

    /// What the library admits must be without a fault.
    #[test]
    fn an_admitted_script_with_a_fault_is_a_disagreement() {
        let (set, bytes) = of_f(|_| {});
        assert!(none(&bytes, &set).is_ok());
        assert!(matches!(none(&bytes[1..], &set), Err(Trouble::Disagreement(_))));
        let (set, bytes) = of_f(|entries| entries[4].lock = 1);
        assert!(matches!(none(&bytes, &set), Err(Trouble::Disagreement(_))));
    }

    /// The first fault is that of the item that the library names, and of no other.
    #[test]
    fn another_item_is_a_disagreement() {
        let (set, bytes) = of_f(|entries| {
            entries[2].work = 3;
            entries[4].lock = 1;
        });
        for item in 0..8 {
            let fault = of(ScriptRefusal::Item(item), &bytes, &set);
            assert_eq!(fault.is_ok(), item == 4, "{item}");
        }
    }

    #[test]
    fn several_reasons_are_all_said() {
        let (set, bytes) = of_f(|entries| entries[2] = Entry { task: 0, tick: 9, work: 4, lock: 1 });
        let fault = of(ScriptRefusal::Item(4), &bytes, &set).expect("a fault");
        assert_eq!(
            fault.words(),
            "tick 9 is 2 ticks too early for task 0: it was released at 1 (item 3), its period is 10, and it may be released again at 11; work 4 \
             is 2 ticks above the frame of task 0: its job 1 takes frame 0, with 2 ticks; lock 1 is 1 tick above the lock 0 of task 0"
        );
        assert_eq!(fault.advice, ONE_OVER_NONE);
    }

    #[test]
    fn the_sheet_that_a_script_is_for_is_guessed() {
        let (mut set, bytes) = of_f(|_| {});
        set.tasks.push(set.tasks[1].clone());
        let fault = of(ScriptRefusal::Whole, &bytes, &set).expect("a fault");
        assert_eq!(fault.advice, "It would be one for a sheet of 2 tasks: look whether this is its sheet.");
    }
}
