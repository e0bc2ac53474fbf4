//! The proved library's entries: safe wrappers that lend the room each needs and decode the numbers.
#![allow(unsafe_code)]
use crate::set::{Set, Task, BY_FRAME, GREATEST_SHEET, MOST_FRAMES, MOST_TASKS, ONE_DEADLINE};
use crate::status::Trouble;

/// `struct burrbeech_task`.
#[repr(C)]
#[derive(Clone, Copy, Debug, Default)]
struct Record {
    period: u32,
    lock: u32,
    frame_count: u32,
    frames: [u32; MOST_FRAMES],
    deadlines: [u32; MOST_FRAMES],
}

extern "C" {
    fn burrbeech_check_sheet(sheet: *const u8, sheet_len: usize, times: *mut u8, times_len: usize) -> u32;
    fn burrbeech_read_list(sheet: *const u8, sheet_len: usize, list: *mut Record, list_len: usize) -> u64;
    fn burrbeech_write_list(version: u32, policy: u32, list: *const Record, list_len: usize, sheet: *mut u8, sheet_len: usize) -> u64;
    fn burrbeech_convert(version: u32, sheet: *const u8, sheet_len: usize, out: *mut u8, out_len: usize) -> u64;
    fn burrbeech_analyse_sheet(sheet: *const u8, sheet_len: usize, times: *mut u32, times_len: usize) -> u64;
    fn burrbeech_report(sheet: *const u8, sheet_len: usize, text: *mut u8, text_len: usize) -> u64;
}

/// The longest report.
const REPORT_ROOM: usize = 2_048;

/// In an outcome, stands for the blocker of a miss without one.
const NO_BLOCKER: usize = 16;

/// `burrbeech_check_sheet` numbers misses from here on.
const MISSES_FROM: usize = 100;

/// The refusal of a set that version 1 cannot hold.
pub const DEADLINES_DIFFER: u32 = 17;

#[derive(Clone, Copy, Debug, PartialEq, Eq)]
pub struct Refusal {
    pub number: u32,
    /// The task that 7, 9, 10 and 11 name.
    pub task: Option<usize>,
    /// Why that task has no start frame, which 11 says.
    pub no_start: Option<NoStart>,
}

/// At this length, the shortest such, another frame's sum is greater than that of the lowest-numbered largest frame.
#[derive(Clone, Copy, Debug, PartialEq, Eq)]
pub struct NoStart {
    pub frame: usize,
    pub length: usize,
    /// The lowest-numbered frame with a greater sum.
    pub other_frame: usize,
}

#[derive(Clone, Copy, Debug, PartialEq, Eq)]
pub enum Verdict {
    Holds,
    Missed { task: usize, blocker: Option<usize> },
}

#[derive(Clone, Debug)]
pub struct Analysis {
    pub task_count: usize,
    pub verdict: Verdict,
    /// Eight slots for each task, in task-number order.
    pub times: Vec<[u32; MOST_FRAMES]>,
}

/// What an entry answers: a refusal is an answer, a number that decodes to none is trouble.
pub type Answer<T> = Result<Result<T, Refusal>, Trouble>;

impl From<&Task> for Record {
    /// The count says how many frames there are, even if the record has no room for all of them.
    fn from(task: &Task) -> Self {
        let frame_count = u32::try_from(task.frames.len()).unwrap_or(u32::MAX);
        let Task { period, lock, frames, deadlines } = task;
        Record { period: *period, lock: *lock, frame_count, frames: slots(frames), deadlines: slots(deadlines) }
    }
}

/// The first eight numbers, with 0 where there are fewer.
fn slots(numbers: &[u32]) -> [u32; MOST_FRAMES] {
    let mut slots = [0; MOST_FRAMES];
    slots.iter_mut().zip(numbers).for_each(|(slot, &number)| *slot = number);
    slots
}

impl Record {
    fn task(&self) -> Option<Task> {
        let used = |slots: &[u32]| slots.get(..self.frame_count as usize).map(<[u32]>::to_vec);
        Some(Task { period: self.period, lock: self.lock, frames: used(&self.frames)?, deadlines: used(&self.deadlines)? })
    }
}

/// The set in a sheet, with the sheet's version.
pub fn read(sheet: &[u8]) -> Answer<Set> {
    let mut list = [Record::default(); MOST_TASKS];
    // SAFETY: pointers and lengths are those of live slices that do not overlap
    let answer = unsafe { burrbeech_read_list(sheet.as_ptr(), sheet.len(), list.as_mut_ptr(), list.len()) };
    decoded(answer, |detail| {
        let [count, policy, version] = [0, 8, 16].map(|from| (detail >> from & 0xFF) as u32);
        let tasks = list.get(..count as usize)?.iter().map(Record::task).collect::<Option<Vec<Task>>>()?;
        let known = version == ONE_DEADLINE || version == BY_FRAME;
        (known && detail >> 24 == 0).then_some(Set { version, policy, tasks })
    })
}

/// The sheet of a set.
pub fn write(set: &Set) -> Answer<Vec<u8>> {
    let list: Vec<Record> = set.tasks.iter().map(Record::from).collect();
    let mut sheet = vec![0; GREATEST_SHEET];
    let (version, policy) = (set.version, set.policy);
    // SAFETY: as above
    let answer = unsafe { burrbeech_write_list(version, policy, list.as_ptr(), list.len(), sheet.as_mut_ptr(), sheet.len()) };
    written(answer, &sheet)
}

/// The sheet of this version for a sheet of the other one.
pub fn convert(version: u32, sheet: &[u8]) -> Answer<Vec<u8>> {
    let mut out = vec![0; GREATEST_SHEET];
    // SAFETY: as above
    let answer = unsafe { burrbeech_convert(version, sheet.as_ptr(), sheet.len(), out.as_mut_ptr(), out.len()) };
    written(answer, &out)
}

/// The bytes that an answer counts. Only what writes a sheet refuses a set for its deadlines.
fn written(answer: u64, sheet: &[u8]) -> Answer<Vec<u8>> {
    if answer == DEADLINES_DIFFER.into() {
        return Ok(Err(Refusal { number: DEADLINES_DIFFER, task: None, no_start: None }));
    }
    decoded(answer, |detail| {
        let length = usize::try_from(detail).ok()?;
        sheet.get(..length).map(<[u8]>::to_vec)
    })
}

/// The verdict and the response times of a sheet, of which two entries must say the same.
pub fn analyse(sheet: &[u8]) -> Answer<Analysis> {
    let answer = analysed(sheet)?;
    let mut times = [0; 4 * MOST_FRAMES * MOST_TASKS];
    // SAFETY: as above
    let number = unsafe { burrbeech_check_sheet(sheet.as_ptr(), sheet.len(), times.as_mut_ptr(), times.len()) };
    match is_checked(&answer, number, &times) {
        true => Ok(answer),
        false => Err(Trouble::disagreement("checking and analysing")),
    }
}

/// Whether the number of `burrbeech_check_sheet` stands for this answer, and its bytes for the times.
fn is_checked(answer: &Result<Analysis, Refusal>, number: u32, times: &[u8]) -> bool {
    let Analysis { verdict, times: slots, .. } = match answer {
        Ok(analysis) => analysis,
        Err(refusal) => return number == refusal.number,
    };
    let expected = match verdict {
        Verdict::Holds => 0,
        Verdict::Missed { task, blocker } => MISSES_FROM + (NO_BLOCKER + 1) * task + blocker.unwrap_or(NO_BLOCKER),
    };
    let bytes: Vec<u8> = slots.iter().flatten().flat_map(|time| time.to_be_bytes()).collect();
    number as usize == expected && times.starts_with(&bytes)
}

fn analysed(sheet: &[u8]) -> Answer<Analysis> {
    let mut times = [0; MOST_FRAMES * MOST_TASKS];
    // SAFETY: as above
    let answer = unsafe { burrbeech_analyse_sheet(sheet.as_ptr(), sheet.len(), times.as_mut_ptr(), times.len()) };
    decoded(answer, |detail| {
        let task_count = (detail >> 16 & 0xFF) as usize;
        let verdict = verdict_of((detail & 0xFFFF) as usize, task_count)?;
        let slots = times.chunks_exact(MOST_FRAMES).take(task_count).map(|eight| eight.try_into().expect("eight slots"));
        Some(Analysis { task_count, verdict, times: slots.collect() })
    })
}

/// 0 holds; 1 + 17p + b is a miss of task p with blocker b.
fn verdict_of(outcome: usize, task_count: usize) -> Option<Verdict> {
    if !(1..=MOST_TASKS).contains(&task_count) {
        return None;
    }
    let Some(miss) = outcome.checked_sub(1) else { return Some(Verdict::Holds) };
    let (task, blocker) = (miss / (NO_BLOCKER + 1), miss % (NO_BLOCKER + 1));
    let blocker = Some(blocker).filter(|&blocker| blocker != NO_BLOCKER);
    let known = task < task_count && blocker.is_none_or(|blocker| blocker < task_count);
    known.then_some(Verdict::Missed { task, blocker })
}

/// The report's text, of a refused sheet too.
pub fn report(sheet: &[u8]) -> Result<Vec<u8>, Trouble> {
    let mut text = vec![0; REPORT_ROOM];
    // SAFETY: as above
    let answer = unsafe { burrbeech_report(sheet.as_ptr(), sheet.len(), text.as_mut_ptr(), text.len()) };
    let written = decoded(answer, |detail| {
        let length = usize::try_from(detail).ok()?;
        text.get(..length).map(<[u8]>::to_vec)
    })?;
    written.map_err(|refusal| odd(refusal.number.into()))
}

/// The refusal, or what the detail of a success stands for. 12 cannot be: all the room that there can be need of is lent.
pub fn decoded<T>(answer: u64, success: impl FnOnce(u64) -> Option<T>) -> Answer<T> {
    let (number, detail) = ((answer & 0xFF) as u32, answer >> 8);
    let refused = |task, no_start| Ok(Err(Refusal { number, task, no_start }));
    match number {
        0 => success(detail).map(Ok).ok_or_else(|| odd(answer)),
        7 | 9 | 10 if detail < MOST_TASKS as u64 => refused(Some(detail as usize), None),
        11 => {
            let (task, no_start) = no_start_of(detail).ok_or_else(|| odd(answer))?;
            refused(Some(task), Some(no_start))
        }
        1..=6 | 8 if detail == 0 => refused(None, None),
        _ => Err(odd(answer)),
    }
}

/// The task, the largest frame, the length and the other frame, eight bits each. At length 1 no sum is above the largest frame, and at
/// the number of frames all sums are the same.
fn no_start_of(detail: u64) -> Option<(usize, NoStart)> {
    let [task, frame, length, other_frame] = u32::try_from(detail).ok()?.to_le_bytes().map(usize::from);
    let two_frames = frame < MOST_FRAMES && other_frame < MOST_FRAMES && frame != other_frame;
    let known = task < MOST_TASKS && two_frames && (2..MOST_FRAMES).contains(&length);
    known.then_some((task, NoStart { frame, length, other_frame }))
}

pub fn odd(answer: u64) -> Trouble {
    Trouble::Disagreement(format!("the library's answer {answer} stands for nothing that it can say here"))
}

#[cfg(test)]
mod tests {
    use super::*;

    #[test]
    fn outcomes_decode() {
        assert_eq!(verdict_of(0, 1), Some(Verdict::Holds));
        assert_eq!(verdict_of(1 + 17, 2), Some(Verdict::Missed { task: 1, blocker: Some(0) }));
        assert_eq!(verdict_of(1 + 17 * 15 + 16, 16), Some(Verdict::Missed { task: 15, blocker: None }));
    }

    #[test]
    fn numbers_that_say_nothing_are_trouble() {
        assert_eq!(verdict_of(0, 0), None);
        assert_eq!(verdict_of(0, 17), None);
        assert_eq!(verdict_of(1 + 17 * 2, 2), None);
        assert_eq!(verdict_of(1 + 2, 2), None);
        for answer in [12, 13, 17, 99, 255, 1 << 8 | 1, 16 << 8 | 7, 16 << 8 | 9, 1 << 16 | 10] {
            assert!(is_odd(answer), "{answer}");
        }
    }

    /// 17 is an answer of what writes a sheet, and names no task.
    #[test]
    fn answers_about_a_written_sheet_decode() {
        assert_eq!(written(2 << 8, b"abc").expect("an answer"), Ok(b"ab".to_vec()));
        let refused = |number, task| Err(Refusal { number, task, no_start: None });
        assert_eq!(written(17, b"abc").expect("an answer"), refused(17, None));
        assert_eq!(written(3, b"abc").expect("an answer"), refused(3, None));
        assert_eq!(written(1 << 8 | 9, b"abc").expect("an answer"), refused(9, Some(1)));
        for answer in [4 << 8, 12, 15, 16, 18, 1 << 8 | 17, 1 << 8 | 3] {
            assert!(matches!(written(answer, b"abc"), Err(Trouble::Disagreement(_))), "{answer}");
        }
    }

    fn is_odd(answer: u64) -> bool {
        matches!(decoded(answer, |_| Some(())), Err(Trouble::Disagreement(_)))
    }

    /// The answer that refuses a task's frames.
    fn no_start(task: u64, frame: u64, length: u64, other_frame: u64) -> u64 {
        11 | task << 8 | frame << 16 | length << 24 | other_frame << 32
    }

    #[test]
    fn refusals_decode() {
        let refusal = |answer| decoded(answer, |_| Some(())).expect("an answer").expect_err("a refusal");
        for number in [1, 2, 3, 4, 5, 6, 8] {
            assert_eq!(refusal(number.into()), Refusal { number, task: None, no_start: None });
        }
        for (number, task) in [7, 9, 10].into_iter().flat_map(|number| (0..16).map(move |task| (number, task))) {
            let expected = Refusal { number, task: Some(task), no_start: None };
            assert_eq!(refusal(u64::from(number) | (task as u64) << 8), expected);
        }
        let why = |frame, length, other_frame| Some(NoStart { frame, length, other_frame });
        let expected = |task, no_start| Refusal { number: 11, task: Some(task), no_start };
        assert_eq!(refusal(no_start(0, 2, 2, 1)), expected(0, why(2, 2, 1)));
        assert_eq!(refusal(no_start(15, 0, 7, 7)), expected(15, why(0, 7, 7)));
        assert_eq!(refusal(no_start(9, 7, 3, 0)), expected(9, why(7, 3, 0)));
    }

    /// A reason for 11 must name a task, two of its frames and a length at which their sums can differ, and nothing above.
    #[test]
    fn reasons_that_cannot_be_are_trouble() {
        assert!(!is_odd(no_start(3, 2, 4, 1)));
        for task in [16, 255] {
            assert!(is_odd(no_start(task, 2, 4, 1)), "task {task}");
        }
        for frame in [1, 8, 255] {
            assert!(is_odd(no_start(3, frame, 4, 1)), "frame {frame}");
        }
        for length in [0, 1, 8, 255] {
            assert!(is_odd(no_start(3, 2, length, 1)), "length {length}");
        }
        for other_frame in [2, 8, 255] {
            assert!(is_odd(no_start(3, 2, 4, other_frame)), "other frame {other_frame}");
        }
        for bit in 40..64 {
            assert!(is_odd(no_start(3, 2, 4, 1) | 1 << bit), "bit {bit}");
        }
        // the task alone is no reason
        assert!((0..16).all(|task| is_odd(no_start(task, 0, 0, 0))));
    }

    #[test]
    fn both_entries_say_the_same() {
        let analysis = |verdict| Ok(Analysis { task_count: 1, verdict, times: vec![[0x0102_0304, 5, 0, 0, 0, 0, 0, 0]] });
        let mut bytes = [0; 512];
        bytes[..8].copy_from_slice(&[1, 2, 3, 4, 0, 0, 0, 5]);
        assert!(is_checked(&analysis(Verdict::Holds), 0, &bytes));
        assert!(is_checked(&analysis(Verdict::Missed { task: 3, blocker: Some(2) }), 100 + 17 * 3 + 2, &bytes));
        assert!(is_checked(&analysis(Verdict::Missed { task: 15, blocker: None }), 100 + 17 * 15 + 16, &bytes));
        assert!(is_checked(&Err(Refusal { number: 7, task: Some(3), no_start: None }), 7, &[0; 512]));
    }

    #[test]
    fn another_number_or_time_is_seen() {
        let holds = Ok(Analysis { task_count: 1, verdict: Verdict::Holds, times: vec![[4, 0, 0, 0, 0, 0, 0, 0]] });
        let missed = Ok(Analysis { task_count: 1, verdict: Verdict::Missed { task: 0, blocker: None }, times: vec![[0; 8]] });
        let mut bytes = [0; 512];
        bytes[3] = 4;
        for number in [1, 11, 100, 116] {
            assert!(!is_checked(&holds, number, &bytes), "{number}");
        }
        for number in [0, 1, 12, 16, 100, 117] {
            assert!(!is_checked(&missed, number, &[0; 512]), "{number}");
        }
        for number in [0, 5, 7, 106] {
            assert!(!is_checked(&Err(Refusal { number: 6, task: None, no_start: None }), number, &[0; 512]), "{number}");
        }
        for slot in 0..32 {
            let mut other = bytes;
            other[slot] ^= 1;
            assert!(!is_checked(&holds, 0, &other), "{slot}");
        }
    }
}
