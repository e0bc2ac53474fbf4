//! The equation read job by job: every t from 1 on, and at each t every job of the higher tasks, with nothing taken together.
use crate::analysis::{blocker, order, Analysis, Answer, Verdict};
use crate::task::{start_frame, sum_from, Set, Task};

/// The work of so many jobs, of these frames, from this start frame on.
pub type Work = fn(&[u32], usize, usize) -> u64;

/// An admitted set and what its equation takes of it.
pub struct Equation<'a> {
    pub set: &'a Set,
    /// Start frames, by task number.
    pub starts: Vec<usize>,
    /// The sum over the jobs, unless a wrong one is to be tried.
    pub work: Work,
}

/// How many jobs are released before t: those at 0, T, 2T and so on.
pub fn releases(t: u32, period: u32) -> usize {
    (0..t).step_by(period as usize).count()
}

/// The largest Q among the lower tasks, at least 1, less 1.
fn blocking(set: &Set, lower: &[usize]) -> u32 {
    lower.iter().map(|&i| set.tasks[i].lock).fold(1, u32::max) - 1
}

impl<'a> Equation<'a> {
    pub fn of(set: &'a Set) -> Self {
        let start = |task: &Task| start_frame(&task.frames).expect("not accumulatively monotonic");
        Equation { set, starts: set.tasks.iter().map(start).collect(), work: sum_from }
    }

    /// Blocking and the frame, which are `own`, and the work of those jobs of each higher task that are released before t.
    fn demand(&self, own: u64, higher: &[usize], t: u32) -> u64 {
        let task = |i: usize| &self.set.tasks[i];
        let above = higher.iter().map(|&i| (self.work)(&task(i).frames, self.starts[i], releases(t, task(i).period)));
        own + above.sum::<u64>()
    }

    /// The first t from 1 to the deadline whose demand is at most t.
    fn response(&self, own: u64, higher: &[usize], deadline: u32) -> Option<u32> {
        (1..=deadline).find(|&t| self.demand(own, higher, t) <= u64::from(t))
    }

    /// What is said of a task below the higher and above the lower ones: its frames have times if each has one within its deadline.
    fn answer(&self, higher: &[usize], task: &Task, lower: &[usize]) -> Answer {
        let blocking = blocking(self.set, lower);
        let own = |frame: usize| u64::from(blocking) + u64::from(task.frames[frame]);
        let response = |frame: usize| self.response(own(frame), higher, task.deadlines[frame]);
        let times = (0..task.frames.len()).map(response).collect();
        Answer { blocking, blocker: blocker(self.set, lower), times }
    }

    /// The answers of the whole set.
    pub fn analysis(&self) -> Analysis {
        let order = order(self.set);
        let place = |number: usize| order.iter().position(|&i| i == number).expect("not in the order");
        let answer = |(number, task)| self.answer(&order[..place(number)], task, &order[place(number) + 1..]);
        let answers: Vec<Answer> = self.set.tasks.iter().enumerate().map(answer).collect();
        let missed = order.iter().find(|&&i| answers[i].times.is_none());
        let verdict = missed.map_or(Verdict::Holds, |&task| Verdict::Missed { task, blocker: answers[task].blocker });
        Analysis { order, answers, verdict }
    }
}
