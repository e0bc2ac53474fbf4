//! The analysis: order, blocking, demand, response times and verdict.
use crate::refusal::Refusal;
use crate::sheet;
use crate::task::{admit_list, start_frame, Record, Set, Task, DEADLINE_MONOTONIC, MOST_FRAMES, RATE_MONOTONIC};

#[derive(Clone, Copy, Debug, PartialEq, Eq, Hash)]
pub enum Verdict {
    Holds,
    /// The first task in priority order that does not pass, and its blocker; both by task number.
    Missed {
        task: usize,
        blocker: Option<usize>,
    },
}

impl Verdict {
    /// The number that the workbench gets.
    pub fn code(self) -> u32 {
        match self {
            Verdict::Holds => 0,
            Verdict::Missed { task, blocker } => 100 + 17 * task as u32 + blocker.unwrap_or(16) as u32,
        }
    }
}

/// What the analysis says of one task.
#[derive(Clone, Debug, PartialEq, Eq)]
pub struct Answer {
    pub blocking: u32,
    pub blocker: Option<usize>,
    /// One response time per frame, or none of them if the task does not pass.
    pub times: Option<Vec<u32>>,
}

#[derive(Clone, Debug, PartialEq, Eq)]
pub struct Analysis {
    /// Task numbers, highest priority first.
    pub order: Vec<usize>,
    /// By task number.
    pub answers: Vec<Answer>,
    pub verdict: Verdict,
}

/// Task numbers, highest priority first; the sort is stable, so equal keys leave the lower number higher.
pub fn order(set: &Set) -> Vec<usize> {
    let mut order: Vec<usize> = (0..set.tasks.len()).collect();
    match set.policy {
        RATE_MONOTONIC => order.sort_by_key(|&i| set.tasks[i].period),
        DEADLINE_MONOTONIC => order.sort_by_key(|&i| set.tasks[i].smallest_deadline()),
        _ => {}
    }
    order
}

/// The largest Q among the lower tasks, less 1, but not below 0.
pub fn blocking(set: &Set, lower: &[usize]) -> u32 {
    lower.iter().map(|&i| set.tasks[i].lock).max().unwrap_or(0).saturating_sub(1)
}

/// The first lower task, in priority order, with the largest Q, if that is 2 or more.
pub fn blocker(set: &Set, lower: &[usize]) -> Option<usize> {
    let largest = lower.iter().map(|&i| set.tasks[i].lock).max().filter(|&q| q >= 2)?;
    lower.iter().copied().find(|&i| set.tasks[i].lock == largest)
}

/// A task as the tasks below see it.
pub struct Higher {
    period: u32,
    /// The work of 0, 1, .. jobs up to a whole round.
    sums: Vec<u64>,
}

impl Higher {
    pub fn new(task: &Task) -> Self {
        let start = start_frame(&task.frames).expect("not accumulatively monotonic");
        let mut sums = vec![0];
        for i in 0..task.frames.len() {
            let frame = task.frames[(start + i) % task.frames.len()];
            sums.push(sums[i] + u64::from(frame));
        }
        Higher { period: task.period, sums }
    }

    /// Work of n jobs: whole rounds, and the frames that remain, so that no loop goes over the jobs.
    pub fn work(&self, n: u32) -> u64 {
        let frames = self.sums.len() - 1;
        let (rounds, rest) = (n / frames as u32, n % frames as u32);
        u64::from(rounds) * self.sums[frames] + self.sums[rest as usize]
    }
}

/// Blocking, the frame itself, and the work of ⌈t/T⌉ jobs of each higher task.
pub fn demand(blocking: u32, frame: u32, higher: &[Higher], t: u32) -> u64 {
    let above: u64 = higher.iter().map(|h| h.work(t.div_ceil(h.period))).sum();
    u64::from(blocking) + u64::from(frame) + above
}

/// The least t with demand at most t, if one is at most the deadline: from a value that is not above it, the demand climbs to it.
pub fn response_time(blocking: u32, frame: u32, higher: &[Higher], deadline: u32) -> Option<u32> {
    let mut t = u64::from(blocking) + u64::from(frame);
    while t <= u64::from(deadline) {
        let next = demand(blocking, frame, higher, t as u32);
        if next <= t {
            return Some(t as u32);
        }
        t = next;
    }
    None
}

/// The response times of a task's frames, if each has one within its own deadline.
fn times_of(task: &Task, blocking: u32, higher: &[Higher]) -> Option<Vec<u32>> {
    task.frames.iter().zip(&task.deadlines).map(|(&c, &d)| response_time(blocking, c, higher, d)).collect()
}

/// The analysis of an admitted set.
pub fn analyse(set: &Set) -> Analysis {
    let order = order(set);
    let mut higher = Vec::new();
    let mut answers = vec![Answer { blocking: 0, blocker: None, times: None }; set.tasks.len()];
    let mut verdict = Verdict::Holds;
    for (place, &task) in order.iter().enumerate() {
        let lower = &order[place + 1..];
        let (blocking, blocker) = (blocking(set, lower), blocker(set, lower));
        let times = times_of(&set.tasks[task], blocking, &higher);
        if times.is_none() && verdict == Verdict::Holds {
            verdict = Verdict::Missed { task, blocker };
        }
        answers[task] = Answer { blocking, blocker, times };
        higher.push(Higher::new(&set.tasks[task]));
    }
    Analysis { order, answers, verdict }
}

impl Analysis {
    /// Eight slots per task, in task-number order; 0 without a frame and for a task that does not pass.
    pub fn slots(&self) -> Vec<u32> {
        let eight = |answer: &Answer| {
            let mut slots = [0; MOST_FRAMES];
            for (slot, &time) in slots.iter_mut().zip(answer.times.iter().flatten()) {
                *slot = time;
            }
            slots
        };
        self.answers.iter().flat_map(eight).collect()
    }
}

/// Writes the times of an admitted set; numbers after them stay as they were.
fn analyse_into(set: &Set, times: &mut [u32]) -> Result<Verdict, Refusal> {
    let room = times.get_mut(..MOST_FRAMES * set.tasks.len()).ok_or(Refusal::Room)?;
    let analysis = analyse(set);
    room.copy_from_slice(&analysis.slots());
    Ok(analysis.verdict)
}

/// The analysis of a lent list.
pub fn analyse_list(policy: u32, list: &[Record], times: &mut [u32]) -> Result<Verdict, Refusal> {
    analyse_into(&admit_list(policy, list)?, times)
}

/// The analysis of a sheet.
pub fn analyse_sheet(bytes: &[u8], times: &mut [u32]) -> Result<Verdict, Refusal> {
    analyse_into(&sheet::read(bytes)?, times)
}

/// What the workbench's C entry does: four bytes for each time, high byte first, and one result number.
pub fn check_sheet(bytes: &[u8], times: &mut [u8]) -> u32 {
    let answer = sheet::read(bytes).and_then(|set| {
        let room = times.get_mut(..4 * MOST_FRAMES * set.tasks.len()).ok_or(Refusal::Room)?;
        let analysis = analyse(&set);
        room.copy_from_slice(&analysis.slots().iter().flat_map(|t| t.to_be_bytes()).collect::<Vec<u8>>());
        Ok(analysis.verdict)
    });
    answer.map_or_else(Refusal::number, Verdict::code)
}
