//! A panel whose ticks are a pixel wide or more: boxes.
use super::{Panel, BOX};
use crate::course::{jobs_in, Lock, Tick};
use crate::svg::{px, Svg, IDLE, INK, LOCKED, RUNS, STARTS, WAITS};

/// Ticks this wide are parted by lines, so that those of a box can be counted.
const PARTED: f64 = 8.0;

/// Ticks in a row that are one box: those of one job, and of one locked stretch where they are locked.
struct Run {
    /// What the first of them has.
    tick: Tick,
    from: u32,
    to: u32,
}

impl Run {
    fn goes_on(&self, tick: Tick) -> bool {
        match (self.tick, tick) {
            (Tick::Idle, Tick::Idle) => true,
            (Tick::Runs { task: one, lock: before }, Tick::Runs { task: other, lock }) => {
                let stays = match lock {
                    Lock::Free => before == Lock::Free,
                    Lock::First => false,
                    Lock::Later => before != Lock::Free,
                };
                one == other && stays
            }
            _ => false,
        }
    }
}

impl Panel<'_> {
    pub(super) fn boxes(&self, svg: &mut Svg) {
        svg.group(&format!("fill=\"{WAITS}\""), |svg| {
            for (place, task) in self.order() {
                for job in jobs_in(self.course, task, self.from, self.to) {
                    self.bar(svg, self.baseline(place), BOX, job.released, self.course.pending_until(job));
                }
            }
        });
        let runs = self.runs();
        let edge = if self.scale >= 3.0 { format!(" stroke=\"{INK}\" stroke-width=\"0.5\"") } else { String::new() };
        for (is_locked, fill) in [(false, RUNS), (true, LOCKED)] {
            svg.group(&format!("fill=\"{fill}\"{edge}"), |svg| {
                self.running(&runs, |lock| (lock != Lock::Free) == is_locked, |y, run| self.bar(svg, y, BOX, run.from, run.to));
            });
        }
        svg.group(&format!("fill=\"{STARTS}\"{edge}"), |svg| {
            self.running(&runs, |lock| lock == Lock::First, |y, run| self.bar(svg, y, BOX, run.from, run.from + 1));
        });
        if self.is_parted() {
            svg.group("stroke=\"#fff\" stroke-width=\"0.75\" stroke-opacity=\"0.7\"", |svg| {
                let mut lines = String::new();
                self.running(&runs, |_| true, |y, run| lines.extend((run.from + 1..run.to).map(|at| self.part_line(y, at))));
                svg.path(&lines);
            });
        }
        svg.group(&format!("fill=\"{IDLE}\""), |svg| {
            let idle = runs.iter().filter(|run| run.tick == Tick::Idle);
            idle.for_each(|run| self.bar(svg, self.idle_baseline(), BOX / 2.0, run.from, run.to));
        });
    }

    /// Whether lines part the ticks of a box.
    pub fn is_parted(&self) -> bool {
        self.scale >= PARTED && !self.is_empty()
    }

    fn part_line(&self, y: f64, at: u32) -> String {
        format!("M{} {}v{}", px(self.x(at)), px(y - BOX), px(BOX))
    }

    /// Does something to the runs of each lane, with its baseline, whose first tick is so.
    fn running(&self, runs: &[Run], is_so: impl Fn(Lock) -> bool, mut act: impl FnMut(f64, &Run)) {
        for (place, task) in self.order() {
            let here = |run: &&Run| matches!(run.tick, Tick::Runs { task: running, lock } if running == task && is_so(lock));
            runs.iter().filter(here).for_each(|run| act(self.baseline(place), run));
        }
    }

    fn bar(&self, svg: &mut Svg, baseline: f64, height: f64, from: u32, to: u32) {
        let (left, right) = (self.x(from), self.x(to));
        svg.rect(left, baseline - height, right - left, height);
    }

    fn runs(&self) -> Vec<Run> {
        let mut runs: Vec<Run> = Vec::new();
        for moment in self.from..self.to {
            let tick = self.course.ticks[moment as usize];
            match runs.last_mut() {
                Some(run) if run.goes_on(tick) && !self.starts_job(tick, moment) => run.to = moment + 1,
                _ => runs.push(Run { tick, from: moment, to: moment + 1 }),
            }
        }
        runs
    }

    /// Whether the running task has a job from this moment on.
    fn starts_job(&self, tick: Tick, moment: u32) -> bool {
        let Tick::Runs { task, .. } = tick else { return false };
        let jobs = &self.course.jobs;
        let first = jobs.partition_point(|job| job.released < moment);
        jobs[first..].iter().take_while(|job| job.released == moment).any(|job| usize::from(job.task) == task)
    }
}
