//! The sets worked by hand: cases A to M of the scope, and N and O with a deadline for each frame.
use crate::refusal::{NoStart, Refusal};
use crate::sheet::{self, VERSIONS};
use crate::task::{Set, Task};

/// What the scope says of a case.
#[derive(Clone, Debug, PartialEq, Eq)]
pub enum Expected {
    /// The times of each task, in task-number order.
    Holds(Vec<Vec<u32>>),
    /// As above, with no times for a task that does not pass.
    Missed {
        task: usize,
        blocker: Option<usize>,
        times: Vec<Vec<u32>>,
    },
    Refused(Refusal),
}

#[derive(Clone, Debug)]
pub struct Case {
    /// The letter in small, with the policy where the scope tells two.
    pub name: &'static str,
    pub set: Set,
    pub order: Vec<usize>,
    pub expected: Expected,
}

/// D = T and Q = 0, as the scope has them unless given.
fn plain(period: u32, frames: &[u32]) -> Task {
    Task::with_one_deadline(period, period, 0, frames)
}

fn holds(name: &'static str, policy: u32, tasks: &[Task], times: &[&[u32]]) -> Case {
    let expected = Expected::Holds(times.iter().map(|t| t.to_vec()).collect());
    Case { name, set: Set { policy, tasks: tasks.to_vec() }, order: (0..tasks.len()).collect(), expected }
}

fn missed(name: &'static str, policy: u32, tasks: &[Task], missed: (usize, Option<usize>), times: &[&[u32]]) -> Case {
    let times = times.iter().map(|t| t.to_vec()).collect();
    let expected = Expected::Missed { task: missed.0, blocker: missed.1, times };
    Case { expected, ..holds(name, policy, tasks, &[]) }
}

fn refused(name: &'static str, policy: u32, tasks: &[Task], refusal: Refusal) -> Case {
    Case { expected: Expected::Refused(refusal), ..holds(name, policy, tasks, &[]) }
}

/// F, G and H differ in the lock of task 1.
fn locked(lock: u32) -> [Task; 2] {
    [Task::with_one_deadline(10, 4, 0, &[2]), Task::with_one_deadline(20, 20, lock, &[5])]
}

pub fn cases() -> Vec<Case> {
    let l = [Task::with_one_deadline(10, 5, 0, &[1]), Task::with_one_deadline(8, 5, 0, &[1])];
    let why = NoStart { frame: 2, length: 2, other: 1 };
    vec![
        holds("a", 1, &[plain(100, &[40]), plain(150, &[40]), plain(350, &[100])], &[&[40], &[80], &[300]]),
        holds("b", 1, &[plain(3, &[2, 1]), plain(7, &[3])], &[&[2, 1], &[6]]),
        holds("c", 1, &[plain(3, &[3, 1]), plain(5, &[1])], &[&[3, 1], &[5]]),
        missed("d", 1, &[plain(3, &[3]), plain(5, &[1])], (1, None), &[&[3], &[]]),
        holds("e", 1, &[plain(4, &[1]), plain(14, &[10])], &[&[1], &[14]]),
        holds("f", 0, &locked(3), &[&[4], &[7]]),
        missed("g", 0, &locked(4), (0, Some(1)), &[&[], &[7]]),
        holds("h", 0, &locked(1), &[&[2], &[7]]),
        refused("i", 0, &[plain(10, &[1, 2, 3])], Refusal::NotMonotonic(0, why)),
        holds("j", 0, &[plain(10, &[3, 2, 1, 5])], &[&[3, 2, 1, 5]]),
        holds("k", 0, &[plain(4, &[3, 1, 3, 2]), plain(20, &[2])], &[&[3, 1, 3, 2], &[7]]),
        Case { order: vec![1, 0], ..holds("l1", 1, &l, &[&[2], &[1]]) },
        holds("l2", 2, &l, &[&[1], &[2]]),
        holds("m", 0, &[plain(10, &[3])], &[&[3]]),
    ]
}

/// N and O, which only version 2 can hold: in N one of two equal frames is late, O is ordered by the smallest deadlines.
pub fn cases_of_version_2() -> Vec<Case> {
    let apart =
        |period, frames: [u32; 2], deadlines: [u32; 2]| Task { period, lock: 0, frames: frames.into(), deadlines: deadlines.into() };
    let n = [plain(5, &[2]), apart(10, [3, 3], [6, 4])];
    let o = [apart(20, [4, 2], [10, 5]), Task::with_one_deadline(12, 7, 3, &[3])];
    vec![missed("n", 0, &n, (1, None), &[&[2], &[]]), holds("o", 2, &o, &[&[6, 4], &[7]])]
}

/// Every case in each version that can hold it.
pub fn cases_in_versions() -> Vec<(u32, Case)> {
    let of_both = VERSIONS.into_iter().flat_map(|version| cases().into_iter().map(move |case| (version, case)));
    of_both.chain(cases_of_version_2().into_iter().map(|case| (2, case))).collect()
}

/// File names and bytes of the cases' sheets, each in the first version that can hold it; I is a sheet too, though one that is refused.
pub fn sheets() -> Vec<(String, Vec<u8>)> {
    let of_one = cases().into_iter().map(|case| (1, case));
    let of_two = cases_of_version_2().into_iter().map(|case| (2, case));
    of_one.chain(of_two).map(|(version, case)| (format!("{}.sheet", case.name), sheet::write(version, &case.set))).collect()
}
