//! Every run of a tiny set, by the scope's scheduler rules: the worst time of each frame, with nothing of the analysis but the order.
use crate::analysis;
use crate::task::{Set, Task};
use std::collections::HashSet;

/// So many tasks a set may have here, with periods and frame times up to 7 and up to four frames.
pub const MOST_TASKS: usize = 3;

/// So many jobs of one task may pend: two do only after a miss, and with too much load a backlog would grow for ever.
const BACKLOG: usize = 2;

/// What the search has found, by task number.
#[derive(Clone, Debug)]
pub struct Found {
    /// For each frame the longest time of a job; it says nothing of a task that misses in some run.
    pub worst: Vec<Vec<u32>>,
    /// Whether a job of the task misses in some run.
    pub misses: Vec<bool>,
    /// Whether no run was left out for a longer backlog.
    pub whole: bool,
    /// How many states between two ticks were met.
    pub states: usize,
}

/// A task at the start of a tick.
#[derive(Clone, Copy, Default)]
struct Pending {
    next_frame: u8,
    /// Ticks since its last release, T at most; T too if there was none.
    since: u8,
    /// Work left of its pending jobs, oldest first; 0 where there is none.
    left: [u8; BACKLOG],
}

impl Pending {
    /// The frame of the task's last job.
    fn last_frame(&self, task: &Task) -> usize {
        let frames = task.frames.len();
        (usize::from(self.next_frame) + frames - 1) % frames
    }
}

/// All that the past of a run decides about its future: tasks in priority order and the stretch under way.
#[derive(Clone, Copy, Default)]
struct State {
    tasks: [Pending; MOST_TASKS],
    /// Ticks left of the stretch under way, 0 for none, and the place of its task.
    stretch: u8,
    stretch_place: u8,
}

impl State {
    /// A number that differs for different states: every part is below 8.
    fn key(&self) -> u64 {
        let tasks = self.tasks.iter().flat_map(|p| [p.next_frame, p.since].into_iter().chain(p.left));
        tasks.chain([self.stretch, self.stretch_place]).fold(0, |key, part| key << 3 | u64::from(part))
    }

    /// The place whose oldest job has the tick.
    fn running(&self) -> Option<usize> {
        match self.stretch {
            0 => self.tasks.iter().position(|p| p.left[0] > 0),
            _ => Some(usize::from(self.stretch_place)),
        }
    }
}

struct Search<'a> {
    /// In priority order.
    tasks: Vec<&'a Task>,
    order: Vec<usize>,
    seen: HashSet<u64>,
    open: Vec<State>,
    found: Found,
}

/// Follows every run of the set: all first frames, releases, works and stretches.
pub fn search(set: &Set) -> Found {
    let order = analysis::order(set);
    let tasks: Vec<&Task> = order.iter().map(|&i| &set.tasks[i]).collect();
    assert!(tasks.len() <= MOST_TASKS && tasks.iter().all(|t| t.period <= 7 && t.frames.len() <= 4), "not a tiny set");
    let worst = set.tasks.iter().map(|t| vec![0; t.frames.len()]).collect();
    let found = Found { worst, misses: vec![false; set.tasks.len()], whole: true, states: 0 };
    let mut search = Search { tasks, order, seen: HashSet::new(), open: Vec::new(), found };
    search.start(State::default(), 0);
    while let Some(state) = search.open.pop() {
        search.releases(state, 0);
    }
    search.found.states = search.seen.len();
    search.found
}

impl Search<'_> {
    fn meet(&mut self, state: State) {
        if self.seen.insert(state.key()) {
            self.open.push(state);
        }
    }

    /// Tick 0 with nothing pending, for each choice of first frames from this place on.
    fn start(&mut self, state: State, place: usize) {
        let Some(task) = self.tasks.get(place) else { return self.meet(state) };
        let (frames, period) = (task.frames.len() as u8, task.period as u8);
        for next_frame in 0..frames {
            let mut chosen = state;
            chosen.tasks[place] = Pending { next_frame, since: period, left: [0; BACKLOG] };
            self.start(chosen, place + 1);
        }
    }

    /// Each choice of releases at this tick from this place on, with each work; then the tick.
    fn releases(&mut self, state: State, place: usize) {
        let Some(task) = self.tasks.get(place) else { return self.ticks(state) };
        let pending = state.tasks[place];
        let (frame, frames) = (task.frames[usize::from(pending.next_frame)] as u8, task.frames.len() as u8);
        let free = u32::from(pending.since) >= task.period;
        self.releases(state, place + 1);
        if !free {
            return;
        }
        for work in 0..=frame {
            let mut released = state;
            let job = &mut released.tasks[place];
            job.next_frame = (pending.next_frame + 1) % frames;
            job.since = 0;
            match job.left.iter().position(|&left| left == 0) {
                Some(end) => job.left[end] = work,
                None if work > 0 => {
                    self.found.whole = false;
                    continue;
                }
                None => {}
            }
            self.releases(released, place + 1);
        }
    }

    /// The tick itself, with each stretch that the run may start with it.
    fn ticks(&mut self, state: State) {
        let Some(place) = state.running() else { return self.passed(state) };
        let longest = if state.stretch > 0 { 0 } else { self.tasks[place].lock as u8 };
        for stretch in 0..=longest {
            let mut next = state;
            if stretch > 0 {
                (next.stretch, next.stretch_place) = (stretch, place as u8);
            }
            self.work(&mut next, place);
            self.passed(next);
        }
    }

    /// One tick of the oldest job at this place; the stretch shortens, and ends with its job.
    fn work(&mut self, state: &mut State, place: usize) {
        let left = &mut state.tasks[place].left;
        left[0] -= 1;
        let complete = left[0] == 0;
        if complete {
            left.rotate_left(1);
            if left[0] == 0 {
                self.complete(state.tasks[place], place);
            }
        }
        state.stretch = if complete { 0 } else { state.stretch.saturating_sub(1) };
        if state.stretch == 0 {
            state.stretch_place = 0;
        }
    }

    /// The youngest job of the task completes with this tick; if it is in time, `since` is exact.
    fn complete(&mut self, pending: Pending, place: usize) {
        let (task, number) = (self.tasks[place], self.order[place]);
        let took = u32::from(pending.since) + 1;
        let frame = pending.last_frame(task);
        if took <= task.deadlines[frame] {
            let worst = &mut self.found.worst[number][frame];
            *worst = took.max(*worst);
        }
    }

    /// The tick has passed: deadlines reached with work left are missed. An older job than the last one released has missed before.
    fn passed(&mut self, mut state: State) {
        for (place, task) in self.tasks.iter().enumerate() {
            let pending = &mut state.tasks[place];
            pending.since = (pending.since + 1).min(task.period as u8);
            if pending.left[0] > 0 && u32::from(pending.since) >= task.deadlines[pending.last_frame(task)] {
                self.found.misses[self.order[place]] = true;
            }
        }
        self.meet(state);
    }
}
