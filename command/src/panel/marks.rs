//! Releases, deadlines and misses of a panel.
use super::{grouped, Panel, ARROW, BOX, LEAST_PLOT, RIGHT};
use crate::course::{due, Job};
use crate::svg::{arrow, cross, px, Anchor, Svg, INK, MISS, STROKE};

/// Arrows of a task that are closer than this are strokes.
const ARROWS: f64 = 9.0;

/// Ticks that are narrower than this would be hidden by a shaft.
const SHAFTS: f64 = 5.0;

impl Panel<'_> {
    /// The jobs of a task whose releases are shown.
    fn releases(&self, task: usize) -> Vec<&Job> {
        self.course.jobs.iter().filter(|job| usize::from(job.task) == task && self.shows(job.released)).collect()
    }

    /// Whether the releases of a task are too close for arrows.
    fn has_strokes(&self, task: usize) -> bool {
        self.scale * f64::from(self.course.findings.set.tasks[task].period) < ARROWS && self.releases(task).len() > 1
    }

    /// Whether those of any task are.
    pub fn uses_strokes(&self) -> bool {
        self.order().any(|(_, task)| self.has_strokes(task))
    }

    /// Releases point up, deadlines down; where they are too close for arrows they are strokes above and below the box.
    pub(super) fn arrows(&self, svg: &mut Svg, place: usize, task: usize) {
        let (set, baseline) = (&self.course.findings.set, self.baseline(place));
        let releases = self.releases(task);
        let jobs = self.course.jobs.iter().filter(|job| usize::from(job.task) == task);
        let deadlines: Vec<u32> = jobs.map(|job| due(set, job)).filter(|&due| self.shows(due)).collect();
        let top = baseline - BOX - ARROW;
        if self.has_strokes(task) {
            // below the line that stands under shares
            let under = if self.is_dense() { 7.0 } else { 2.0 };
            let up = self.strokes(releases.iter().map(|job| job.released), baseline - BOX - 7.0, 5.0);
            let down = self.strokes(deadlines.into_iter(), baseline + under, 4.0);
            svg.group(&format!("stroke=\"{STROKE}\" stroke-width=\"0.5\""), |svg| svg.path(&(up + &down)));
            return;
        }
        let foot = if self.scale < SHAFTS { baseline - BOX } else { baseline };
        // no further from its moment than a quarter of a tick, where ticks can be seen
        let aside = if self.is_dense() { 1.25 } else { (self.scale / 4.0).min(1.25) };
        svg.group(&format!("stroke=\"{INK}\" stroke-width=\"1.25\" fill=\"none\""), |svg| {
            // a release to the right and a deadline to the left of its moment, so that both are seen where they meet
            let up = |job: &&Job| arrow(self.x(job.released) + aside, foot, top);
            let down = |&due: &u32| arrow(self.x(due) - aside, top, foot);
            svg.path(&releases.iter().map(up).chain(deadlines.iter().map(down)).collect::<String>());
        });
        if set.tasks[task].frames.len() > 1 && self.scale * f64::from(set.tasks[task].period) >= 40.0 {
            self.frames(svg, &releases, top);
        }
    }

    /// The frame of each job beside its release, where there is room.
    fn frames(&self, svg: &mut Svg, releases: &[&Job], top: f64) {
        svg.group("font-size=\"9\" fill=\"#555\"", |svg| {
            let has_room = |job: &&&Job| self.x(job.released) + 45.0 < self.x(self.to);
            releases.iter().filter(has_room).for_each(|job| {
                svg.text(self.x(job.released) + 6.0, top + 7.0, Anchor::Start, &format!("frame {}", job.frame));
            });
        });
    }

    /// A stroke at each moment, one for those that fall on the same half pixel.
    fn strokes(&self, moments: impl Iterator<Item = u32>, y: f64, height: f64) -> String {
        let mut columns: Vec<i64> = moments.map(|moment| (2.0 * self.x(moment)).round() as i64).collect();
        columns.dedup();
        columns.into_iter().map(|column| format!("M{} {}v{}", px(column as f64 / 2.0), px(y), px(height))).collect()
    }

    /// A line through all lanes at the moment of the miss, a cross in the lane of the task that the play names, and a thin one in that of
    /// every other that misses then.
    pub(super) fn misses(&self, svg: &mut Svg) {
        let (Some(missed), tick) = (self.course.play.missed, self.course.play.tick) else { return };
        if !self.shows(tick) {
            return;
        }
        let x = self.x(tick);
        svg.group(&format!("stroke=\"{MISS}\" stroke-dasharray=\"4 3\""), |svg| {
            svg.path(&format!("M{} {}V{}", px(x), px(self.top - 6.0), px(self.axis() + 6.0)));
        });
        for (is_named, width) in [(true, "3"), (false, "1.25")] {
            svg.group(&format!("stroke=\"{MISS}\" stroke-width=\"{width}\" stroke-linecap=\"round\" fill=\"none\""), |svg| {
                let crossed = self.order().filter(|&(_, task)| self.course.misses(task) && (task == missed) == is_named);
                svg.path(&crossed.map(|(place, _)| cross(x + 6.0, self.baseline(place) - BOX / 2.0 - 6.0)).collect::<String>());
            });
        }
        svg.group(&format!("fill=\"{MISS}\" font-weight=\"bold\""), |svg| {
            // to the side that has room
            let (x, anchor) =
                if x > self.left + LEAST_PLOT / 2.0 || self.is_part() { (x + RIGHT / 2.0, Anchor::End) } else { (x, Anchor::Start) };
            let too = match self.course.also_missed.as_slice() {
                [] => String::new(),
                [other] => format!(", task {} too", other.task),
                others => format!(", {} other tasks too", others.len()),
            };
            svg.text(x, self.axis() + 32.0, anchor, &format!("task {missed} misses at {}{too}", grouped(tick)));
        });
    }
}
