//! The demand of a frame term by term, for words about it, and its agreement with the library's answers.
use crate::findings::{Finding, Findings};
use crate::frames::{start_frame, sum_from, taken};
use crate::set::Task;
use crate::status::Trouble;

/// The jobs of a higher task that a demand counts.
#[derive(Clone, Debug)]
pub struct Jobs {
    pub task: usize,
    pub period: u32,
    pub count: u32,
    pub start_frame: usize,
    pub frames: usize,
    /// How many whole rounds of all frames the jobs make, and the work of one.
    pub rounds: u64,
    pub round: u64,
    /// The frames after the last whole round.
    pub rest: Vec<u32>,
    pub work: u64,
}

/// The demand of one frame at one time.
#[derive(Clone, Debug)]
pub struct Demand {
    pub frame: usize,
    pub at: u32,
    pub blocking: u32,
    pub own: u32,
    pub higher: Vec<Jobs>,
    pub total: u64,
}

/// The work of so many jobs as ⌈t/T⌉ says, from the start frame on.
fn jobs(number: usize, task: &Task, t: u32) -> Option<Jobs> {
    let (start_frame, count) = (start_frame(&task.frames)?, t.div_ceil(task.period));
    let frames = task.frames.len();
    let (rounds, left) = (u64::from(count) / frames as u64, count as usize % frames);
    let round = sum_from(&task.frames, 0, frames);
    let rest = taken(&task.frames, start_frame, left);
    let work = rounds * round + rest.iter().map(|&frame| u64::from(frame)).sum::<u64>();
    Some(Jobs { task: number, period: task.period, count, start_frame, frames, rounds, round, rest, work })
}

/// The demand at t of a frame of the task at this place of the priority order.
pub fn of(findings: &Findings, place: usize, frame: usize, at: u32) -> Option<Demand> {
    let Finding { task, blocking, .. } = findings.ordered[place];
    let own = *findings.set.tasks[task].frames.get(frame)?;
    let above = findings.ordered[..place].iter();
    let higher = above.map(|finding| jobs(finding.task, &findings.set.tasks[finding.task], at)).collect::<Option<Vec<Jobs>>>()?;
    let total = u64::from(blocking) + u64::from(own) + higher.iter().map(|jobs| jobs.work).sum::<u64>();
    Some(Demand { frame, at, blocking, own, higher, total })
}

/// The demand of a task's first frame without a response time, at that frame's deadline.
pub fn at_deadline(findings: &Findings, place: usize) -> Option<Demand> {
    let Finding { task, missed_frame, .. } = findings.ordered[place];
    let deadline = *findings.set.tasks[task].deadlines.get(missed_frame?)?;
    of(findings, place, missed_frame?, deadline)
}

/// A higher task as the tasks below it see it: the work of 0, 1 and so on of its jobs up to a whole round.
struct Higher {
    period: u64,
    works: Vec<u64>,
}

impl Higher {
    fn of(task: &Task) -> Option<Self> {
        let (start, frames) = (start_frame(&task.frames)?, task.frames.len());
        Some(Higher { period: task.period.into(), works: (0..=frames).map(|jobs| sum_from(&task.frames, start, jobs)).collect() })
    }

    fn work(&self, t: u64) -> u64 {
        let (jobs, round) = (t.div_ceil(self.period), self.works.len() as u64 - 1);
        jobs / round * self.works[round as usize] + self.works[(jobs % round) as usize]
    }
}

/// The first frame of a task without a response time: from blocking and frame time on, the demand climbs past its deadline.
pub fn missed_frame(findings: &Findings, place: usize) -> Option<usize> {
    let Finding { task, blocking, .. } = findings.ordered[place];
    let task = &findings.set.tasks[task];
    let above = findings.ordered[..place].iter().map(|finding| Higher::of(&findings.set.tasks[finding.task]));
    let higher = above.collect::<Option<Vec<Higher>>>()?;
    let misses = |(&time, &deadline): (&u32, &u32)| {
        let own = u64::from(blocking) + u64::from(time);
        let (mut t, mut demand) = (0, own);
        while t < demand && demand <= deadline.into() {
            t = demand;
            demand = own + higher.iter().map(|task| task.work(t)).sum::<u64>();
        }
        demand > deadline.into()
    };
    task.frames.iter().zip(&task.deadlines).position(misses)
}

/// At each response time the demand is that time, and of a task that does not pass a frame's exceeds its deadline.
pub fn agrees(findings: &Findings) -> Result<(), Trouble> {
    let place_agrees = |place: usize| match &findings.ordered[place].times {
        Some(times) => times.iter().enumerate().all(|(frame, &t)| of(findings, place, frame, t).is_some_and(|d| d.total == u64::from(t))),
        None => at_deadline(findings, place).is_some_and(|d| d.total > u64::from(d.at)),
    };
    match (0..findings.ordered.len()).find(|&place| !place_agrees(place)) {
        None => Ok(()),
        Some(place) => {
            let task = findings.ordered[place].task;
            Err(Trouble::Disagreement(format!("the demand worked out for task {task} does not agree with its times")))
        }
    }
}
