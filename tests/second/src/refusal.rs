//! What is turned away, by number.

/// Why a frame list has no start.
#[derive(Clone, Copy, Debug, PartialEq, Eq, Hash)]
pub struct NoStart {
    /// The lowest-numbered largest frame.
    pub frame: usize,
    /// The shortest length at which another frame's sum is greater.
    pub length: usize,
    /// The lowest-numbered such frame.
    pub other: usize,
}

/// The scope's table of refusals, top to bottom; a task number goes with 7, 9, 10 and 11, with 11 its reason, and an item with 14.
#[derive(Clone, Copy, Debug, PartialEq, Eq, Hash)]
pub enum Refusal {
    Length,
    CheckWord,
    Version,
    Policy,
    SpareOrFillBit,
    TaskCount,
    FrameCount(usize),
    Records,
    NotWellFormed(usize),
    Lock(usize),
    NotMonotonic(usize, NoStart),
    Room,
    /// A script's length, fill or check word.
    Script,
    /// Of a script's first frames and entries, counted together.
    Item(usize),
    /// Some task's deadlines differ, so that version 1 cannot hold the set.
    Deadlines,
}

impl Refusal {
    pub fn number(self) -> u32 {
        match self {
            Refusal::Length => 1,
            Refusal::CheckWord => 2,
            Refusal::Version => 3,
            Refusal::Policy => 4,
            Refusal::SpareOrFillBit => 5,
            Refusal::TaskCount => 6,
            Refusal::FrameCount(_) => 7,
            Refusal::Records => 8,
            Refusal::NotWellFormed(_) => 9,
            Refusal::Lock(_) => 10,
            Refusal::NotMonotonic(..) => 11,
            Refusal::Room => 12,
            Refusal::Script => 13,
            Refusal::Item(_) => 14,
            Refusal::Deadlines => 17,
        }
    }

    /// The task number that is returned beside the refusal: 0 where the scope names none.
    pub fn task(self) -> usize {
        match self {
            Refusal::FrameCount(i) | Refusal::NotWellFormed(i) | Refusal::Lock(i) | Refusal::NotMonotonic(i, _) => i,
            _ => 0,
        }
    }
}

impl std::fmt::Display for Refusal {
    fn fmt(&self, f: &mut std::fmt::Formatter) -> std::fmt::Result {
        write!(f, "refused {} (task {}): {self:?}", self.number(), self.task())
    }
}
