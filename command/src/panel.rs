//! Some ticks of a play on one axis: a lane for each task in priority order, and one for idle ticks.
mod boxes;
mod marks;
mod shares;

use crate::course::Course;
use crate::set::Task;
use crate::svg::{px, Anchor, Svg, GRID, INK};

/// Where the ticks begin, and the room behind the last.
pub const LEFT: f64 = 190.0;
pub const RIGHT: f64 = 60.0;
/// The most pixels for the ticks, and the least for what stands around them.
pub const PLOT: f64 = 1120.0;
pub const LEAST_PLOT: f64 = 720.0;
/// The widest tick.
const WIDEST: f64 = 40.0;
/// A lane has room for arrows above its box, the box and a gap.
const LANE: f64 = 44.0;
const ARROW: f64 = 14.0;
const BOX: f64 = 18.0;
const IDLE_LANE: f64 = 24.0;
/// Labels of an axis stand no closer than this.
const LABELS: f64 = 70.0;

/// Some ticks on one axis.
pub struct Panel<'a> {
    course: &'a Course,
    from: u32,
    to: u32,
    /// Pixels for each tick.
    scale: f64,
    left: f64,
    top: f64,
}

impl<'a> Panel<'a> {
    pub fn new(course: &'a Course, from: u32, to: u32) -> Self {
        Panel { course, from, to, scale: (PLOT / f64::from(to - from)).min(WIDEST), left: LEFT, top: 0.0 }
    }

    pub fn below(self, top: f64) -> Self {
        Panel { top, ..self }
    }

    /// Some of the ticks enlarged, between other pixels.
    pub fn part(&self, from: u32, to: u32, left: f64, width: f64, top: f64) -> Self {
        Panel { course: self.course, from, to, scale: width / f64::from(to - from), left, top }
    }

    pub fn width(&self) -> f64 {
        self.right() - self.left
    }

    /// Where the lanes end; those of a play without a tick are drawn all the same.
    fn right(&self) -> f64 {
        if self.is_empty() {
            self.left + LEAST_PLOT
        } else {
            self.x(self.to)
        }
    }

    fn is_empty(&self) -> bool {
        self.from == self.to
    }

    /// Whether this stands right of another panel.
    fn is_part(&self) -> bool {
        self.left > LEFT
    }

    /// A tick is narrower than a pixel: shares are drawn.
    pub fn is_dense(&self) -> bool {
        self.scale < 1.0
    }

    fn x(&self, moment: u32) -> f64 {
        self.left + self.scale * f64::from(moment.clamp(self.from, self.to) - self.from)
    }

    fn shows(&self, moment: u32) -> bool {
        (self.from..=self.to).contains(&moment)
    }

    fn order(&self) -> impl Iterator<Item = (usize, usize)> + '_ {
        self.course.findings.ordered.iter().enumerate().map(|(place, finding)| (place, finding.task))
    }

    /// Where a lane's box ends.
    fn baseline(&self, place: usize) -> f64 {
        self.top + LANE * place as f64 + ARROW + BOX + 4.0
    }

    fn idle_baseline(&self) -> f64 {
        self.top + LANE * self.course.findings.ordered.len() as f64 + IDLE_LANE - 6.0
    }

    fn axis(&self) -> f64 {
        self.idle_baseline() + 8.0
    }

    pub fn bottom(&self) -> f64 {
        self.axis() + 38.0
    }

    pub fn draw(&self, svg: &mut Svg) {
        if !self.is_part() {
            self.labels(svg);
        }
        self.grid(svg);
        match self.is_dense() {
            true => self.shares(svg),
            false => self.boxes(svg),
        }
        svg.group(&format!("stroke=\"{INK}\" stroke-width=\"0.75\""), |svg| {
            // it hides nothing of a low share
            let under = if self.is_dense() { 0.5 } else { 0.0 };
            let lines = self.order().map(|(place, _)| self.baseline(place)).chain([self.idle_baseline()]);
            svg.path(&lines.map(|y| format!("M{} {}H{}", px(self.left), px(y + under), px(self.right()))).collect::<String>());
        });
        if self.is_empty() {
            svg.text(self.left + 20.0, self.idle_baseline() - 4.0, Anchor::Start, "no tick is played");
        }
        self.misses(svg);
        for (place, task) in self.order() {
            self.arrows(svg, place, task);
        }
    }

    /// The axis with its labels, and a line through all lanes at each.
    fn grid(&self, svg: &mut Svg) {
        let (axis, step) = (self.axis(), self.step());
        let labelled: Vec<u32> = (self.from.div_ceil(step) * step..=self.to).step_by(step as usize).collect();
        svg.group(&format!("stroke=\"{GRID}\""), |svg| {
            svg.path(&labelled.iter().map(|&at| format!("M{} {}V{}", px(self.x(at)), px(self.top), px(axis))).collect::<String>());
        });
        svg.group(&format!("stroke=\"{INK}\""), |svg| {
            let fine = if self.scale >= 5.0 { 1 } else { step };
            let marks = (self.from.div_ceil(fine) * fine..=self.to).step_by(fine as usize);
            let marks: String =
                marks.map(|at| format!("M{} {}v{}", px(self.x(at)), px(axis), if at % step == 0 { 6 } else { 3 })).collect();
            svg.path(&format!("M{} {}H{}{marks}", px(self.left), px(axis), px(self.right())));
        });
        svg.group("font-size=\"11\"", |svg| {
            for &at in &labelled {
                svg.text(self.x(at), axis + 18.0, Anchor::Middle, &grouped(at));
            }
        });
    }

    /// 1, 2 or 5 times a power of ten, so that labels have room.
    fn step(&self) -> u32 {
        let room = if self.scale >= 20.0 && self.to < 1_000 { 1.0 } else { LABELS };
        let steps = (0..7).flat_map(|power| [1, 2, 5].map(|digit| digit * 10u32.pow(power)));
        steps.into_iter().find(|&step| f64::from(step) * self.scale >= room).unwrap_or(10_000_000)
    }

    /// The names of the lanes, left of all panels.
    fn labels(&self, svg: &mut Svg) {
        for (place, task) in self.order() {
            let lines = numbers(&self.course.findings.set.tasks[task]);
            let y = self.baseline(place);
            svg.group("font-weight=\"bold\"", |svg| svg.text(20.0, y - 12.0, Anchor::Start, &format!("task {task}")));
            svg.group("font-size=\"9.5\" fill=\"#555\"", |svg| {
                lines.iter().zip([1.0, 12.0]).for_each(|(line, below)| svg.text(20.0, y + below, Anchor::Start, line));
            });
        }
        svg.text(20.0, self.idle_baseline(), Anchor::Start, "idle");
        svg.group("font-size=\"11\"", |svg| svg.text(20.0, self.axis() + 18.0, Anchor::Start, "tick"));
    }
}

/// Period, deadline and lock; deadlines that differ take a line of their own.
fn numbers(task: &Task) -> Vec<String> {
    let (period, lock) = (task.period, task.lock);
    let least_and_most = task.deadlines.iter().min().zip(task.deadlines.iter().max());
    match (task.one_deadline(), least_and_most) {
        (None, Some((least, most))) => vec![format!("T {period}  Q {lock}"), format!("D {least} to {most} by frame")],
        (deadline, _) => vec![format!("T {period}  D {}  Q {lock}", deadline.unwrap_or(0))],
    }
}

/// `200 000`: a number of ticks in threes.
fn grouped(number: u32) -> String {
    let digits = number.to_string();
    if digits.len() < 5 {
        return digits;
    }
    let spaced = |(i, digit): (usize, char)| {
        if i > 0 && (digits.len() - i).is_multiple_of(3) {
            format!("\u{2009}{digit}")
        } else {
            digit.to_string()
        }
    };
    digits.chars().enumerate().map(spaced).collect()
}
