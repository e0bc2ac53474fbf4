//! What the signs of a picture mean: every sign that it has stands here.
use crate::lettering::{width, wrapped};
use crate::svg::{arrow, cross, px, Anchor, Svg, IDLE, INK, LOCKED, MISS, RUNS, STARTS, STROKE, WAITS};

/// What a picture has beside what every picture can have.
pub struct Legend {
    pub frames: bool,
    pub by_frame: bool,
    pub shares: bool,
    pub strokes: bool,
    pub parted: bool,
    pub missed: bool,
    pub also_missed: bool,
}

const LINE: f64 = 18.0;
const WORDS: f64 = 12.0;
const NOTE: f64 = 11.0;

/// A shape at a point, its attributes and its words.
type Sign = (fn(f64, f64) -> String, String, &'static str);

impl Legend {
    /// Draws it between two margins from here on; answers where it ends.
    pub fn draw(&self, svg: &mut Svg, left: f64, top: f64, room: f64) -> f64 {
        let (mut x, mut y) = (left, top);
        for (shape, attributes, words) in self.signs() {
            let taken = 20.0 + width(words, WORDS);
            if x > left && x + taken > left + room {
                (x, y) = (left, y + LINE + 2.0);
            }
            svg.group(&attributes, |svg| svg.path(&shape(x, y)));
            svg.text(x + 20.0, y, Anchor::Start, words);
            x += taken + 18.0;
        }
        svg.group(&format!("fill=\"#555\" font-size=\"{NOTE}\""), |svg| {
            for line in self.notes().iter().flat_map(|note| wrapped(note, NOTE, room)) {
                y += LINE;
                svg.text(left, y, Anchor::Start, &line);
            }
        });
        y
    }

    fn signs(&self) -> Vec<Sign> {
        let mut signs: Vec<Sign> = vec![
            (square, filled(RUNS), "runs"),
            (square, filled(STARTS), "starts a locked stretch"),
            (square, filled(LOCKED), "goes on in it"),
            (square, filled(WAITS), "released and waits"),
            (square, filled(IDLE), "idle: no job is pending"),
            (|x, y| arrow(x + 7.0, y + 2.0, y - 12.0), drawn(INK, "1.25"), "release"),
            (|x, y| arrow(x + 7.0, y - 12.0, y + 2.0), drawn(INK, "1.25"), "deadline"),
        ];
        if self.strokes {
            signs.push((|x, y| strokes(x, y - 11.0), drawn(STROKE, "0.5"), "releases too close for arrows, above the lane"));
            signs.push((|x, y| strokes(x, y - 4.0), drawn(STROKE, "0.5"), "their deadlines, below it"));
        }
        if self.shares {
            signs.push((under_a_lane, format!("fill=\"{LOCKED}\""), "under a lane: at least one such tick"));
        }
        if self.missed {
            let dashed = format!("{} stroke-dasharray=\"4 3\"", drawn(MISS, "1"));
            signs.push((cross_in_row, drawn(MISS, "3"), "miss: the deadline is reached with work left"));
            signs.push((|x, y| format!("M{} {}v14", px(x + 7.0), px(y - 12.0)), dashed, "its moment"));
        }
        if self.also_missed {
            signs.push((cross_in_row, drawn(MISS, "1.25"), "misses at the same moment; the play names the lowest task number"));
        }
        signs
    }

    fn notes(&self) -> Vec<&'static str> {
        let mut notes = vec![
            "Highest priority on top. T period, D deadline, Q lock. Tick k is the space from k to k + 1. Pale lines stand at numbered moments.",
        ];
        if self.frames {
            notes.push("A release of a task that has several frames has its job's frame beside it, where there is room.");
        }
        if self.by_frame {
            notes.push("Where D is by frame, an arrow down stands at the deadline of the job's own frame.");
        }
        if self.parted {
            notes.push("White lines part the ticks of a box.");
        }
        if self.shares {
            notes.push(
                "Where a tick is narrower than a pixel, the height of a colour is its share of the pixel's ticks; a share of less than a line \
                 cannot be seen. The line under a lane has its full height from one tick on, in the colour of a locked tick if there is one, \
                 else of a running one, else of a waiting one, in that of an idle one under the idle lane.",
            );
        }
        notes
    }
}

fn filled(fill: &str) -> String {
    format!("fill=\"{fill}\" stroke=\"{INK}\" stroke-width=\"0.5\"")
}

fn drawn(stroke: &str, width: &str) -> String {
    format!("stroke=\"{stroke}\" stroke-width=\"{width}\" fill=\"none\"")
}

fn square(x: f64, y: f64) -> String {
    format!("M{} {}h14v11h-14z", px(x), px(y - 10.0))
}

fn under_a_lane(x: f64, y: f64) -> String {
    format!("M{} {}h14v3.5h-14z", px(x), px(y - 6.0))
}

fn cross_in_row(x: f64, y: f64) -> String {
    cross(x + 1.0, y - 11.0)
}

/// Some strokes beside each other.
fn strokes(x: f64, y: f64) -> String {
    [2.0, 5.0, 8.0, 11.0].map(|at| format!("M{} {}v5", px(x + at), px(y))).concat()
}
