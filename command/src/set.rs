//! A set as the command shows it, and the limits that its words name.

pub const MOST_TASKS: usize = 16;
pub const MOST_FRAMES: usize = 8;
pub const MOST_TICKS: u32 = 1_048_575;
pub const LEAST_SHEET: usize = 15;
pub const GREATEST_SHEET: usize = 732;

/// The sheet's version with one deadline for all frames of a task, and the one with a deadline for each frame.
pub const ONE_DEADLINE: u32 = 1;
pub const BY_FRAME: u32 = 2;

/// The names of the policies, by number.
pub const POLICIES: [&str; 3] = ["listed", "rate-monotonic", "deadline-monotonic"];

/// A task with any numbers and any count of frames.
#[derive(Clone, Debug, Default, PartialEq, Eq)]
pub struct Task {
    pub period: u32,
    pub lock: u32,
    /// The frame times.
    pub frames: Vec<u32>,
    /// The deadline of each frame.
    pub deadlines: Vec<u32>,
}

#[derive(Clone, Debug, PartialEq, Eq)]
pub struct Set {
    /// Of the sheet, be it read or to be written.
    pub version: u32,
    pub policy: u32,
    pub tasks: Vec<Task>,
}

impl Task {
    /// The lowest-numbered largest frame, and its time.
    pub fn largest_frame(&self) -> Option<(usize, u32)> {
        let largest = *self.frames.iter().max()?;
        Some((self.frames.iter().position(|&frame| frame == largest)?, largest))
    }

    /// The lowest-numbered frame whose deadline is not that of frame 0.
    pub fn unequal_deadline(&self) -> Option<usize> {
        let first = self.deadlines.first()?;
        self.deadlines.iter().position(|deadline| deadline != first)
    }

    /// The deadline that all frames have; none where they differ, or without a frame.
    pub fn one_deadline(&self) -> Option<u32> {
        self.deadlines.first().copied().filter(|_| self.unequal_deadline().is_none())
    }

    /// What the order by deadlines and the report go by.
    pub fn smallest_deadline(&self) -> Option<u32> {
        self.deadlines.iter().copied().min()
    }
}

/// Of the two versions the one that is not this.
pub fn other_version(version: u32) -> u32 {
    match version {
        ONE_DEADLINE => BY_FRAME,
        _ => ONE_DEADLINE,
    }
}

/// Whether the deadlines of some task differ, which version 1 cannot hold.
pub fn differ_by_frame(tasks: &[Task]) -> bool {
    tasks.iter().any(|task| task.unequal_deadline().is_some())
}

pub fn policy_name(policy: u32) -> Option<&'static str> {
    POLICIES.get(policy as usize).copied()
}
