//! A panel whose ticks are narrower than a pixel: for each pixel the share of its ticks that each colour has, and under the lane a line
//! that tells what is there at all, however small its share.
use super::{Panel, BOX, LEFT, PLOT};
use crate::course::{jobs_in, Lock, Tick};
use crate::svg::{px, Svg, IDLE, LOCKED, RUNS, STARTS, WAITS};

/// A pixel is a column.
const COLUMNS: usize = PLOT as usize;

/// Where the line under a lane begins below its boxes, and how high it is.
const LINE_GAP: f64 = 2.5;
const LINE: f64 = 3.5;
/// By how much it is wider on each side where it is locked: a single pixel is easily overlooked.
const WIDER: f64 = 0.5;

/// How many ticks of a column a task has.
#[derive(Clone, Copy, Default)]
struct Has {
    first: u32,
    later: u32,
    free: u32,
    /// Running ones too.
    pending: u32,
}

impl Has {
    /// How high each colour reaches, in ticks: one stands on the other.
    fn tops(&self) -> [(&'static str, u32); 4] {
        let locked = self.first + self.later;
        [(WAITS, self.pending), (RUNS, locked + self.free), (LOCKED, locked), (STARTS, self.first)]
    }

    /// The colour of the line: a locked tick is not to be overlooked, nor a running one among those that wait.
    fn strongest(&self) -> Option<&'static str> {
        match self {
            _ if self.first + self.later > 0 => Some(LOCKED),
            _ if self.free > 0 => Some(RUNS),
            _ if self.pending > 0 => Some(WAITS),
            _ => None,
        }
    }
}

/// The ticks of the columns, in all and by what has them.
struct Counts {
    all: Vec<u32>,
    idle: Vec<u32>,
    /// Of each task.
    has: Vec<Vec<Has>>,
}

impl Panel<'_> {
    pub(super) fn shares(&self, svg: &mut Svg) {
        let counts = self.counts();
        let of_all =
            |ticks: Vec<u32>| -> Vec<f64> { ticks.iter().zip(&counts.all).map(|(&n, &all)| f64::from(n) / f64::from(all)).collect() };
        for layer in 0..4 {
            let fill = Has::default().tops()[layer].0;
            svg.group(&format!("fill=\"{fill}\""), |svg| {
                for (place, task) in self.order() {
                    let tops = counts.has[task].iter().map(|has| has.tops()[layer].1).collect();
                    svg.path(&steps(self.baseline(place), BOX, &of_all(tops)));
                }
            });
        }
        svg.group(&format!("fill=\"{IDLE}\""), |svg| {
            svg.path(&steps(self.idle_baseline(), BOX / 2.0, &of_all(counts.idle.clone())));
            svg.path(&line(self.idle_baseline(), 0.0, counts.idle.iter().map(|&idle| idle > 0)));
        });
        for (fill, wider) in [(WAITS, 0.0), (RUNS, 0.0), (LOCKED, WIDER)] {
            svg.group(&format!("fill=\"{fill}\""), |svg| {
                for (place, task) in self.order() {
                    svg.path(&line(self.baseline(place), wider, counts.has[task].iter().map(|has| has.strongest() == Some(fill))));
                }
            });
        }
    }

    fn counts(&self) -> Counts {
        let tasks = self.course.findings.set.tasks.len();
        let mut counts = Counts { all: vec![0; COLUMNS], idle: vec![0; COLUMNS], has: vec![vec![Has::default(); COLUMNS]; tasks] };
        let span = u64::from(self.to - self.from);
        let column = |moment: u32| (u64::from(moment - self.from) * COLUMNS as u64 / span) as usize;
        for moment in self.from..self.to {
            let at = column(moment);
            counts.all[at] += 1;
            match self.course.ticks[moment as usize] {
                Tick::Idle => counts.idle[at] += 1,
                Tick::Runs { task, lock: Lock::First } => counts.has[task][at].first += 1,
                Tick::Runs { task, lock: Lock::Later } => counts.has[task][at].later += 1,
                Tick::Runs { task, lock: Lock::Free } => counts.has[task][at].free += 1,
            }
        }
        for (_, task) in self.order() {
            for job in jobs_in(self.course, task, self.from, self.to) {
                let (from, to) = (job.released.max(self.from), self.course.pending_until(job).min(self.to));
                (from..to).for_each(|moment| counts.has[task][column(moment)].pending += 1);
            }
        }
        counts
    }
}

/// The outline of shares, a pixel wide each, over a baseline. Tenths of a pixel are finer than can be seen.
fn steps(baseline: f64, height: f64, shares: &[f64]) -> String {
    let (mut path, mut last) = (String::new(), 0.0);
    for (at, share) in shares.iter().enumerate() {
        let share = (10.0 * share * height).round() / 10.0;
        if share != last {
            let x = px(LEFT + at as f64);
            path += &match path.is_empty() {
                true => format!("M{x} {}V{}", px(baseline), px(baseline - share)),
                false => format!("H{x}V{}", px(baseline - share)),
            };
            last = share;
        }
    }
    if last > 0.0 {
        path += &format!("H{}V{}", px(LEFT + PLOT), px(baseline));
    }
    if path.is_empty() {
        path
    } else {
        path + "Z"
    }
}

/// The line under a lane, at the columns that have it.
fn line(baseline: f64, wider: f64, columns: impl Iterator<Item = bool>) -> String {
    let columns: Vec<bool> = columns.collect();
    let (mut path, mut at) = (String::new(), 0);
    for same in columns.chunk_by(|one, other| one == other) {
        if same[0] {
            let (x, y, width) = (LEFT + at as f64 - wider, baseline + LINE_GAP, px(same.len() as f64 + 2.0 * wider));
            path += &format!("M{} {}h{width}v{}h-{width}z", px(x), px(y), px(LINE));
        }
        at += same.len();
    }
    path
}
