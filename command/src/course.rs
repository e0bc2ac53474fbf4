//! The course of a play, job by job: when each was released and done, by the script's entries and the trace's ticks. Where the two do not
//! fit each other, the sheet or the library's answers, there are no words about the play.
use crate::findings::{self, Findings};
use crate::library::Verdict;
use crate::plays::{self, Play, PlayAnswer, Refused, LOCKED, NO_TASK};
use crate::script::{Entry, Script};
use crate::set::{Set, MOST_TASKS};
use crate::status::Trouble;

/// A job that was released in the play.
#[derive(Clone, Copy, Debug, PartialEq, Eq)]
pub struct Job {
    pub task: u8,
    pub frame: u8,
    pub released: u32,
    pub work: u32,
    /// The length of each of its stretches; 0 or 1 for none.
    pub lock: u32,
    /// The work that the play left.
    pub left: u32,
    /// The moment at which it was complete, of a job whose work is done.
    pub done: u32,
}

/// What has a tick.
#[derive(Clone, Copy, Debug, PartialEq, Eq)]
pub enum Tick {
    Idle,
    Runs { task: usize, lock: Lock },
}

/// A tick's place in a locked stretch.
#[derive(Clone, Copy, Debug, PartialEq, Eq)]
pub enum Lock {
    Free,
    First,
    Later,
}

#[derive(Clone, Debug)]
pub struct Course {
    pub findings: Findings,
    pub play: Play,
    pub ticks: Vec<Tick>,
    /// In the order of their releases.
    pub jobs: Vec<Job>,
    /// The other jobs that miss at the moment of the miss, by task number.
    pub also_missed: Vec<Job>,
}

impl Job {
    pub fn is_done(&self) -> bool {
        self.left == 0
    }

    /// From its release to the end of its last tick.
    pub fn took(&self) -> Option<u32> {
        self.is_done().then(|| self.done - self.released)
    }
}

/// The course of a script's play.
pub fn of(sheet: &[u8], script: &[u8]) -> PlayAnswer<Course> {
    let (findings, (play, bytes)) = match (findings::of(sheet)?, plays::trace(sheet, script)?) {
        (Ok(findings), Ok(traced)) => (findings, traced),
        (Ok(_), Err(refused @ Refused::Script(_))) => return Ok(Err(refused)),
        (Err(one), Err(Refused::Sheet(other))) if one == other => return Ok(Err(Refused::Sheet(one))),
        _ => return Err(Trouble::disagreement("playing and analysing")),
    };
    let unfit = || Trouble::Disagreement("the trace does not fit the script".to_string());
    let fields = Script::of(script, findings.set.tasks.len()).ok_or_else(unfit)?;
    let (ticks, jobs) = followed(&findings.set, &fields, play, &bytes).ok_or_else(unfit)?;
    let also_missed = also_missed(&findings.set, play, &jobs);
    let course = Course { findings, play, ticks, jobs, also_missed };
    match course.fits_the_analysis() {
        true => Ok(Ok(course)),
        false => Err(Trouble::disagreement("the play and the analysis")),
    }
}

/// The ticks and the jobs of the play, unless a tick goes to a task without work, is locked where no stretch is or the other way round, or
/// the play ends otherwise than it is said to.
fn followed(set: &Set, script: &Script, play: Play, bytes: &[u8]) -> Option<(Vec<Tick>, Vec<Job>)> {
    let mut state = State::new(set, script);
    let mut ticks = Vec::with_capacity(bytes.len());
    let mut entries = script.entries().peekable();
    for tick in 0..=play.tick {
        let ends = tick == play.tick;
        if ends && play.missed.is_some() {
            // what is released at the moment of a miss is not seen any more
            break;
        }
        while let Some(entry) = entries.next_if(|entry| entry.tick == tick) {
            state.release(entry)?;
        }
        if !ends {
            ticks.push(state.tick(tick, *bytes.get(tick as usize)?)?);
        }
    }
    let State { jobs, pending, .. } = state;
    let due_now = |task: usize| pending[task].is_some_and(|job| due(set, &jobs[job]) == play.tick);
    let as_said = match play.missed {
        Some(missed) => (0..set.tasks.len()).find(|&task| due_now(task)) == Some(missed),
        None => entries.next().is_none() && pending.iter().all(Option::is_none) && last_done(&jobs) == play.tick,
    };
    as_said.then_some((ticks, jobs))
}

/// What the entries and ticks so far leave.
struct State<'a> {
    set: &'a Set,
    next_frames: Vec<u32>,
    jobs: Vec<Job>,
    /// Of each task the job that has work left.
    pending: [Option<usize>; MOST_TASKS],
    /// The task whose locked stretch is under way, and the ticks that are left of it.
    stretch: Option<(usize, u32)>,
}

impl<'a> State<'a> {
    fn new(set: &'a Set, script: &Script) -> Self {
        State { set, next_frames: script.first_frames(), jobs: Vec::new(), pending: [None; MOST_TASKS], stretch: None }
    }

    fn release(&mut self, entry: Entry) -> Option<()> {
        let Entry { task, tick, work, lock } = entry;
        let frames = self.set.tasks.get(task as usize)?.frames.len() as u32;
        let frame = self.next_frames[task as usize];
        self.next_frames[task as usize] = (frame + 1) % frames;
        let waits = &mut self.pending[task as usize];
        if waits.is_some() {
            return None;
        }
        *waits = Some(self.jobs.len()).filter(|_| work > 0);
        self.jobs.push(Job { task: task as u8, frame: frame as u8, released: tick, work, lock, left: work, done: tick });
        Some(())
    }

    /// The tick that the trace says, if it fits.
    fn tick(&mut self, tick: u32, byte: u8) -> Option<Tick> {
        let (task, locked) = (usize::from(byte & !LOCKED), byte & LOCKED != 0);
        if task == NO_TASK {
            return (!locked && self.pending.iter().all(Option::is_none)).then_some(Tick::Idle);
        }
        let job = &mut self.jobs[(*self.pending.get(task)?)?];
        // a pick outside a stretch starts one where the job has a lock of 2 or more
        let (lock, stretch) = match self.stretch {
            Some((whose, left)) if whose == task => (Lock::Later, left),
            Some(_) => return None,
            None if job.lock >= 2 => (Lock::First, job.lock),
            None => (Lock::Free, 1),
        };
        job.left -= 1;
        job.done = tick + 1;
        self.stretch = Some((task, stretch - 1)).filter(|&(_, left)| left > 0 && job.left > 0);
        if job.left == 0 {
            self.pending[task] = None;
        }
        (locked == (lock != Lock::Free)).then_some(Tick::Runs { task, lock })
    }
}

fn last_done(jobs: &[Job]) -> u32 {
    jobs.iter().map(|job| job.done).max().unwrap_or(0)
}

/// How long after its release a job must be done: the deadline of its frame.
pub fn deadline(set: &Set, job: &Job) -> u32 {
    set.tasks[usize::from(job.task)].deadlines[usize::from(job.frame)]
}

/// The moment by which a job must be done.
pub fn due(set: &Set, job: &Job) -> u32 {
    job.released + deadline(set, job)
}

/// The jobs beside the named task's that are due with work left at the moment of the miss. The play names the lowest task only, so that
/// these are worked out from script, sheet and trace.
fn also_missed(set: &Set, play: Play, jobs: &[Job]) -> Vec<Job> {
    let Some(missed) = play.missed else { return Vec::new() };
    let misses = |job: &&Job| !job.is_done() && usize::from(job.task) != missed && due(set, job) == play.tick;
    let mut others: Vec<Job> = jobs.iter().filter(misses).copied().collect();
    others.sort_by_key(|job| job.task);
    others
}

/// The jobs of a task that have work left somewhere between two moments.
pub fn jobs_in(course: &Course, task: usize, from: u32, to: u32) -> impl Iterator<Item = &Job> {
    let is_in = move |job: &&Job| usize::from(job.task) == task && job.released < to && course.pending_until(job) > from;
    course.jobs.iter().filter(is_in)
}

impl Course {
    /// The moment up to which a job has work left; the end of the play where it is not done.
    pub fn pending_until(&self, job: &Job) -> u32 {
        if job.is_done() {
            job.done
        } else {
            self.play.tick
        }
    }

    /// The job that misses, of the task that the play names.
    pub fn missed_job(&self) -> Option<&Job> {
        let missed = self.play.missed?;
        self.jobs.iter().rev().find(|job| usize::from(job.task) == missed)
    }

    /// Whether a task misses, as the play says or at the same moment.
    pub fn misses(&self, task: usize) -> bool {
        self.play.missed == Some(task) || self.also_missed.iter().any(|job| usize::from(job.task) == task)
    }

    /// No job takes longer than its frame's response time, and a task that passes does not miss.
    fn fits_the_analysis(&self) -> bool {
        let times = |task: usize| self.findings.ordered.iter().find(|finding| finding.task == task).and_then(|f| f.times.as_ref());
        let in_time = |job: &Job| match (job.took(), times(job.task.into())) {
            (Some(took), Some(times)) => times.get(usize::from(job.frame)).is_some_and(|&time| took <= time),
            _ => true,
        };
        let may_miss = |task: usize| self.findings.verdict != Verdict::Holds && times(task).is_none();
        let tasks = 0..self.findings.set.tasks.len();
        tasks.filter(|&task| self.misses(task)).all(may_miss) && self.jobs.iter().all(in_time)
    }
}

#[cfg(test)]
mod tests {
    use super::*;
    use crate::script;
    use crate::set::Task;

    const G: [Entry; 2] = [Entry { task: 1, tick: 0, work: 4, lock: 4 }, Entry { task: 0, tick: 1, work: 2, lock: 0 }];

    /// A run of case G, of which the ticks are given.
    fn run_of_g(entries: &[Entry], play: Play, bytes: &[u8]) -> Option<(Vec<Tick>, Vec<Job>)> {
        let task = |period, deadline, lock, frame| Task { period, lock, frames: vec![frame], deadlines: vec![deadline] };
        let set = Set { version: 1, policy: 0, tasks: vec![task(10, 4, 0, 2), task(20, 20, 4, 5)] };
        followed(&set, &Script::of(&script::write(&[0, 0], entries), 2)?, play, bytes)
    }

    fn of_g(play: Play, bytes: &[u8]) -> Option<Vec<Job>> {
        run_of_g(&G, play, bytes).map(|(_, jobs)| jobs)
    }

    const MISS: Play = Play { tick: 5, missed: Some(0) };

    #[test]
    fn the_course_of_case_g() {
        let jobs = of_g(MISS, &[33, 33, 33, 33, 0]).expect("the course");
        assert_eq!(jobs[0], Job { task: 1, frame: 0, released: 0, work: 4, lock: 4, left: 0, done: 4 });
        assert_eq!(jobs[1], Job { task: 0, frame: 0, released: 1, work: 2, lock: 0, left: 1, done: 5 });
        assert_eq!((jobs[0].took(), jobs[1].took()), (Some(4), None));
    }

    #[test]
    fn ticks_that_do_not_fit() {
        for ticks in
            [[0, 33, 33, 33, 0], [33, 33, 33, 33, 33], [33, 33, 33, 33, 16], [33, 33, 33, 33, 2], [33, 33, 33, 33, 64], [33, 0, 0, 33, 33]]
        {
            assert_eq!(of_g(MISS, &ticks), None, "{ticks:?}");
        }
        let ticks = [33, 33, 33, 33, 0, 0, 0];
        for play in [Play { tick: 4, missed: Some(0) }, Play { tick: 5, missed: Some(1) }, Play { tick: 5, missed: None }] {
            assert_eq!(of_g(play, &ticks), None, "{play:?}");
        }
        assert!(of_g(Play { tick: 6, missed: None }, &ticks).is_some() && of_g(Play { tick: 7, missed: None }, &ticks).is_none());
    }
    /// A stretch of two ticks, one that starts anew, and one that its job's end cuts short.
    #[test]
    fn stretches_are_told_apart() {
        let entries = [Entry { task: 1, tick: 0, work: 5, lock: 2 }];
        let done = Play { tick: 5, missed: None };
        let (ticks, _) = run_of_g(&entries, done, &[33; 5]).expect("the course");
        let locks = [Lock::First, Lock::Later, Lock::First, Lock::Later, Lock::First];
        assert_eq!(ticks, locks.map(|lock| Tick::Runs { task: 1, lock }));
        for bytes in [[33, 1, 33, 33, 33], [33, 33, 33, 33, 1], [1; 5]] {
            assert_eq!(run_of_g(&entries, done, &bytes), None, "{bytes:?}");
        }
        let unlocked = [Entry { lock: 1, ..entries[0] }];
        assert!(run_of_g(&unlocked, done, &[1; 5]).is_some() && run_of_g(&unlocked, done, &[33, 1, 1, 1, 1]).is_none());
    }

    /// No other task has a tick while a stretch is under way.
    #[test]
    fn a_stretch_keeps_the_processor() {
        let entries = [Entry { lock: 3, ..G[0] }, G[1]];
        let done = Play { tick: 6, missed: None };
        assert_eq!(run_of_g(&entries, done, &[33, 33, 0, 33, 33, 0]), None);
        let (ticks, _) = run_of_g(&entries, done, &[33, 33, 33, 0, 0, 33]).expect("the course");
        assert_eq!((ticks[0], ticks[5]), (ticks[5], Tick::Runs { task: 1, lock: Lock::First }));
    }
}
