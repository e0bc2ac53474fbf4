//! Scheduler rules for runs: a little player that goes tick by tick, and the worst run of a frame.
use crate::analysis;
use crate::task::{start_frame, Set};
use std::collections::VecDeque;

#[derive(Clone, Copy, Debug, PartialEq, Eq)]
pub struct Job {
    pub task: usize,
    pub frame: usize,
    pub release: u64,
    pub left: u32,
}

/// A job with its work done, and the ticks it took from its release to the end of its last tick.
#[derive(Clone, Copy, Debug, PartialEq, Eq)]
pub struct Complete {
    pub task: usize,
    pub frame: usize,
    pub release: u64,
    pub took: u64,
}

/// What a run may not do.
#[derive(Clone, Copy, Debug, PartialEq, Eq)]
pub enum Breach {
    /// Less than T after the task's last release.
    ReleaseTooEarly,
    WorkAboveFrame,
    /// Longer than Q, or there is no job that could start one now.
    NoSuchStretch,
}

/// A run so far. At each tick first call `release` for what is released now, then `tick`.
pub struct Player<'a> {
    set: &'a Set,
    order: Vec<usize>,
    now: u64,
    next_frame: Vec<usize>,
    last_release: Vec<Option<u64>>,
    /// By task number, oldest job first.
    pending: Vec<VecDeque<Job>>,
    /// The locked stretch under way: its task and how many ticks are left of it.
    stretch: Option<(usize, u32)>,
    pub complete: Vec<Complete>,
    pub missed: Vec<Job>,
}

impl<'a> Player<'a> {
    /// Tick 0, nothing pending; each task's first job will be that of its first frame.
    pub fn new(set: &'a Set, first_frames: Vec<usize>) -> Self {
        let n = set.tasks.len();
        Player {
            set,
            order: analysis::order(set),
            now: 0,
            next_frame: first_frames,
            last_release: vec![None; n],
            pending: vec![VecDeque::new(); n],
            stretch: None,
            complete: Vec::new(),
            missed: Vec::new(),
        }
    }

    pub fn now(&self) -> u64 {
        self.now
    }

    pub fn may_release(&self, task: usize) -> bool {
        self.last_release[task].is_none_or(|last| self.now - last >= u64::from(self.set.tasks[task].period))
    }

    /// The frame time of the task's next job.
    pub fn next_frame_time(&self, task: usize) -> u32 {
        self.set.tasks[task].frames[self.next_frame[task]]
    }

    /// Releases a job of the task at this tick; with no work it is complete at once.
    pub fn release(&mut self, task: usize, work: u32) -> Result<(), Breach> {
        if !self.may_release(task) {
            return Err(Breach::ReleaseTooEarly);
        }
        if work > self.next_frame_time(task) {
            return Err(Breach::WorkAboveFrame);
        }
        let frame = self.next_frame[task];
        self.next_frame[task] = (frame + 1) % self.set.tasks[task].frames.len();
        self.last_release[task] = Some(self.now);
        if work == 0 {
            self.complete.push(Complete { task, frame, release: self.now, took: 0 });
        } else {
            self.pending[task].push_back(Job { task, frame, release: self.now, left: work });
        }
        Ok(())
    }

    /// The task whose oldest job has this tick: that of the stretch, else the highest that pends.
    pub fn running(&self) -> Option<usize> {
        match self.stretch {
            Some((task, _)) => Some(task),
            None => self.order.iter().copied().find(|&task| !self.pending[task].is_empty()),
        }
    }

    /// The job that has this tick.
    pub fn running_job(&self) -> Option<Job> {
        self.running().map(|task| self.pending[task][0])
    }

    pub fn in_stretch(&self) -> bool {
        self.stretch.is_some()
    }

    /// The longest stretch that may start with this tick; 0 if none may.
    pub fn longest_stretch(&self) -> u32 {
        match (self.stretch, self.running()) {
            (None, Some(task)) => self.set.tasks[task].lock,
            _ => 0,
        }
    }

    /// Goes through this tick; `stretch` is the length of a stretch that starts with it, or 0.
    pub fn tick(&mut self, stretch: u32) -> Result<(), Breach> {
        if stretch > self.longest_stretch() {
            return Err(Breach::NoSuchStretch);
        }
        let running = self.running();
        if let (Some(task), 1..) = (running, stretch) {
            self.stretch = Some((task, stretch));
        }
        self.now += 1;
        if let Some(task) = running {
            self.work(task);
        }
        self.see_misses();
        Ok(())
    }

    /// One tick of the task's oldest job; the stretch under way shortens, and ends with its job.
    fn work(&mut self, task: usize) {
        let job = &mut self.pending[task][0];
        job.left -= 1;
        let (frame, release, left) = (job.frame, job.release, job.left);
        self.stretch = self.stretch.map(|(task, ticks)| (task, ticks - 1)).filter(|&(_, ticks)| ticks > 0 && left > 0);
        if left == 0 {
            self.pending[task].pop_front();
            self.complete.push(Complete { task, frame, release, took: self.now - release });
        }
    }

    /// The run has reached `now`: jobs whose frame's deadline that is and that have work left miss.
    fn see_misses(&mut self) {
        for job in self.pending.iter().flatten() {
            if job.release + u64::from(self.set.tasks[job.task].deadlines[job.frame]) == self.now {
                self.missed.push(*job);
            }
        }
    }
}

/// Plays the worst run of a frame; the ticks that its job takes, or none if it misses.
pub fn play_worst_run(set: &Set, task: usize, frame: usize) -> Result<Option<u64>, Breach> {
    let order = analysis::order(set);
    let place = order.iter().position(|&i| i == task).expect("no such task");
    let (higher, lower) = (&order[..place], &order[place + 1..]);
    let blocker = analysis::blocker(set, lower);
    let mut player = Player::new(set, worst_first_frames(set, (task, frame), higher, blocker));
    if let Some(blocker) = blocker {
        player.release(blocker, set.tasks[blocker].lock)?;
    }
    player.tick(blocker.map_or(0, |b| set.tasks[b].lock))?;
    let deadline = u64::from(set.tasks[task].deadlines[frame]);
    while player.now() < 1 + deadline {
        let since = player.now() - 1;
        if since == 0 {
            player.release(task, set.tasks[task].frames[frame])?;
        }
        for &i in higher.iter().filter(|&&i| since.is_multiple_of(u64::from(set.tasks[i].period))) {
            player.release(i, player.next_frame_time(i))?;
        }
        player.tick(0)?;
        if let Some(job) = player.complete.iter().find(|job| job.task == task) {
            return Ok(Some(job.took));
        }
    }
    Ok(None)
}

/// The frame itself, the blocker's lowest-numbered largest frame, the higher tasks' start frames; else 0.
pub fn worst_first_frames(set: &Set, own: (usize, usize), higher: &[usize], blocker: Option<usize>) -> Vec<usize> {
    let mut first = vec![0; set.tasks.len()];
    first[own.0] = own.1;
    for &i in higher {
        first[i] = start_frame(&set.tasks[i].frames).expect("not accumulatively monotonic");
    }
    if let Some(i) = blocker {
        let task = &set.tasks[i];
        first[i] = task.frames.iter().position(|&c| c == task.largest_frame()).expect("no frame");
    }
    first
}
