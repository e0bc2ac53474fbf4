//! The picture of a play: words, a timeline, where that is dense its ends once more, and what the signs mean. What a tick has is the
//! trace's, releases are the script's, deadlines the sheet's.
use crate::course::Course;
use crate::legend::Legend;
use crate::lettering::{wrapped, BOLD};
use crate::panel::{Panel, LEAST_PLOT, LEFT, PLOT, RIGHT};
use crate::set::differ_by_frame;
use crate::svg::{Anchor, Svg};

/// The part of the play that is drawn, and what is said above it.
pub struct Picture<'a> {
    pub course: &'a Course,
    pub from: u32,
    pub to: u32,
    /// For readers of the screen, with the whole names.
    pub name: String,
    pub title: String,
    pub lines: Vec<String>,
}

const MARGIN: f64 = 20.0;
const LINE: f64 = 18.0;

/// The sizes of the title and of the lines under it.
const TITLE: f64 = 16.0;
const WORDS: f64 = 12.0;

/// How many of the first and of the last ticks are drawn once more where a tick of the whole is narrower than a pixel, and the gap
/// between the two.
const ENLARGED: u32 = 60;
const GAP: f64 = 60.0;

impl Picture<'_> {
    pub fn svg(&self) -> String {
        let mut svg = Svg::new();
        let whole = Panel::new(self.course, self.from, self.to);
        let width = LEFT + whole.width().max(LEAST_PLOT) + RIGHT;
        let top = self.head(&mut svg, width - 2.0 * MARGIN);
        let whole = whole.below(top);
        let ends = if whole.is_dense() { self.ends(&whole, &mut svg) } else { Vec::new() };
        let panels: Vec<Panel> = [whole].into_iter().chain(ends).collect();
        panels.iter().for_each(|panel| panel.draw(&mut svg));
        let bottom = panels.iter().map(Panel::bottom).fold(0.0, f64::max);
        let bottom = self.legend(&panels).draw(&mut svg, MARGIN, bottom + LINE, width - 2.0 * MARGIN);
        svg.close(width, bottom + 10.0, &self.name)
    }

    fn legend(&self, panels: &[Panel]) -> Legend {
        let missed = self.course.play.missed.is_some() && self.to == self.course.play.tick;
        let tasks = &self.course.findings.set.tasks;
        Legend {
            frames: tasks.iter().any(|task| task.frames.len() > 1),
            by_frame: differ_by_frame(tasks),
            shares: panels.iter().any(Panel::is_dense),
            strokes: panels.iter().any(Panel::uses_strokes),
            parted: panels.iter().any(Panel::is_parted),
            missed,
            also_missed: missed && !self.course.also_missed.is_empty(),
        }
    }

    /// The first ticks and the last once more, beside each other, with their titles. A dense panel has many more.
    fn ends<'a>(&self, whole: &Panel<'a>, svg: &mut Svg) -> Vec<Panel<'a>> {
        let (top, width) = (whole.bottom() + 1.5 * LINE, (PLOT - GAP) / 2.0);
        let ends = [(self.from, LEFT, "first"), (self.to - ENLARGED, LEFT + width + GAP, "last")];
        let mut end = |(from, left, which)| {
            let words = format!("The {which} {ENLARGED} ticks of it, enlarged");
            svg.group("font-weight=\"bold\"", |svg| svg.text(left, whole.bottom() + LINE, Anchor::Start, &words));
            whole.part(from, from + ENLARGED, left, width, top)
        };
        ends.map(&mut end).into()
    }

    /// The words above the lanes; answers where they end.
    fn head(&self, svg: &mut Svg, room: f64) -> f64 {
        let mut y = 28.0;
        svg.group(&format!("font-size=\"{TITLE}\" font-weight=\"bold\""), |svg| {
            for line in wrapped(&self.title, BOLD * TITLE, room) {
                svg.text(MARGIN, y, Anchor::Start, &line);
                y += 22.0;
            }
        });
        for line in self.lines.iter().flat_map(|line| wrapped(line, WORDS, room)) {
            svg.text(MARGIN, y, Anchor::Start, &line);
            y += LINE;
        }
        y + 14.0
    }
}
