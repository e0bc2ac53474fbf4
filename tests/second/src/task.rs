//! A task and a set, the workbench's records, and what makes a list of them admitted.
use crate::refusal::{NoStart, Refusal};

pub const MOST_TASKS: usize = 16;
pub const MOST_FRAMES: usize = 8;
pub const MOST_TICKS: u32 = 1_048_575;

pub const LISTED: u32 = 0;
pub const RATE_MONOTONIC: u32 = 1;
pub const DEADLINE_MONOTONIC: u32 = 2;

#[derive(Clone, Debug, PartialEq, Eq, Hash)]
pub struct Task {
    pub period: u32,
    pub lock: u32,
    pub frames: Vec<u32>,
    /// One for each frame.
    pub deadlines: Vec<u32>,
}

#[derive(Clone, Debug, PartialEq, Eq, Hash)]
pub struct Set {
    pub policy: u32,
    pub tasks: Vec<Task>,
}

/// A task as the workbench lends it; slots past the count are not read.
#[repr(C)]
#[derive(Clone, Copy, Debug, PartialEq, Eq)]
pub struct Record {
    pub period: u32,
    pub lock: u32,
    pub frame_count: u32,
    pub frames: [u32; MOST_FRAMES],
    pub deadlines: [u32; MOST_FRAMES],
}

impl Task {
    /// A task with the same deadline for all its frames.
    pub fn with_one_deadline(period: u32, deadline: u32, lock: u32, frames: &[u32]) -> Self {
        Task { period, lock, frames: frames.to_vec(), deadlines: vec![deadline; frames.len()] }
    }

    /// The task with this deadline for all its frames.
    pub fn due_by(&self, deadline: u32) -> Self {
        Task::with_one_deadline(self.period, deadline, self.lock, &self.frames)
    }

    pub fn largest_frame(&self) -> u32 {
        self.frames.iter().copied().max().unwrap_or(0)
    }

    /// What the policy and the report take for the task's deadline.
    pub fn smallest_deadline(&self) -> u32 {
        self.deadlines.iter().copied().min().unwrap_or(0)
    }

    pub fn latest_deadline(&self) -> u32 {
        self.deadlines.iter().copied().max().unwrap_or(0)
    }

    /// Whether its deadlines are all equal.
    pub fn has_one_deadline(&self) -> bool {
        self.deadlines.windows(2).all(|two| two[0] == two[1])
    }

    fn in_range(&self) -> bool {
        let ticks = 1..=MOST_TICKS;
        let all = self.frames.iter().chain(&self.deadlines).all(|n| ticks.contains(n));
        ticks.contains(&self.period) && self.lock <= MOST_TICKS && all
    }

    fn well_formed(&self) -> bool {
        self.frames.iter().zip(&self.deadlines).all(|(c, d)| c <= d && *d <= self.period)
    }

    /// 9, 10 and 11, in this order; `number` is the task's own.
    pub fn admit(&self, number: usize) -> Result<(), Refusal> {
        if !self.in_range() || !self.well_formed() {
            return Err(Refusal::NotWellFormed(number));
        }
        if self.lock > self.largest_frame() {
            return Err(Refusal::Lock(number));
        }
        start_frame(&self.frames).map(|_| ()).map_err(|why| Refusal::NotMonotonic(number, why))
    }

    /// The record with 0 in the slots that are not in use.
    pub fn record(&self) -> Record {
        let eight = |numbers: &[u32]| {
            let mut slots = [0; MOST_FRAMES];
            slots[..numbers.len()].copy_from_slice(numbers);
            slots
        };
        let frame_count = self.frames.len() as u32;
        Record { period: self.period, lock: self.lock, frame_count, frames: eight(&self.frames), deadlines: eight(&self.deadlines) }
    }
}

impl Set {
    pub fn list(&self) -> Vec<Record> {
        self.tasks.iter().map(Task::record).collect()
    }

    /// Whether each task's deadlines are all equal, so that a sheet of version 1 can hold the set.
    pub fn has_one_deadline_each(&self) -> bool {
        self.tasks.iter().all(Task::has_one_deadline)
    }
}

impl Record {
    /// The task in the record, if its frame count can be one.
    fn task(&self) -> Option<Task> {
        let count = usize::try_from(self.frame_count).ok().filter(|n| (1..=MOST_FRAMES).contains(n))?;
        let [frames, deadlines] = [self.frames, self.deadlines].map(|slots| slots[..count].to_vec());
        Some(Task { period: self.period, lock: self.lock, frames, deadlines })
    }
}

/// The sum of `length` frames from frame `from` on, going round the list.
pub fn sum_from(frames: &[u32], from: usize, length: usize) -> u64 {
    (from..from + length).map(|i| u64::from(frames[i % frames.len()])).sum()
}

/// The lowest-numbered frame whose sums are, at each length, at least those from any other frame; or why there is none.
pub fn start_frame(frames: &[u32]) -> Result<usize, NoStart> {
    let all = 0..frames.len();
    let beats = |s: usize, other: usize| all.clone().all(|j| sum_from(frames, s, j + 1) >= sum_from(frames, other, j + 1));
    all.clone().find(|&s| all.clone().all(|other| beats(s, other))).ok_or_else(|| no_start(frames))
}

/// Of the lowest-numbered largest frame: the shortest length at which another's sum is greater, and the lowest-numbered such frame.
fn no_start(frames: &[u32]) -> NoStart {
    let m = frames.len();
    let frame = (0..m).find(|&s| frames.iter().all(|&c| c <= frames[s])).expect("no frame");
    let greater = |length: usize, other: usize| sum_from(frames, other, length) > sum_from(frames, frame, length);
    for length in 1..=m {
        if let Some(other) = (0..m).find(|&other| greater(length, other)) {
            return NoStart { frame, length, other };
        }
    }
    panic!("frame {frame} qualifies");
}

/// 9, 10 and 11, task by task.
pub fn admit_tasks(tasks: &[Task]) -> Result<(), Refusal> {
    tasks.iter().enumerate().try_for_each(|(i, task)| task.admit(i))
}

/// The set in a lent list: 4, 6, then 7 task by task, then 9, 10 and 11 task by task.
pub fn admit_list(policy: u32, list: &[Record]) -> Result<Set, Refusal> {
    if ![LISTED, RATE_MONOTONIC, DEADLINE_MONOTONIC].contains(&policy) {
        return Err(Refusal::Policy);
    }
    if !(1..=MOST_TASKS).contains(&list.len()) {
        return Err(Refusal::TaskCount);
    }
    let tasks = list.iter().enumerate().map(|(i, r)| r.task().ok_or(Refusal::FrameCount(i)));
    let tasks = tasks.collect::<Result<Vec<Task>, Refusal>>()?;
    admit_tasks(&tasks)?;
    Ok(Set { policy, tasks })
}
