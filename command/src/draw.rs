//! `draw`: the timeline of a run as an SVG picture.
use crate::course::{self, Course};
use crate::delivery::{say, Made};
use crate::input::{self, Pipes};
use crate::lettering::shortened;
use crate::names::Name;
use crate::output::Output;
use crate::picture::Picture;
use crate::play::{end_words, missed_words, refused_text, status_of};
use crate::status::{Status, Trouble};
use crate::worst::{self, capital};
use crate::{explain, words};

/// What is asked of `draw`.
#[derive(Clone, Debug, PartialEq, Eq)]
pub struct DrawOptions {
    pub sheet: Name,
    /// Without one it is the worst run.
    pub script: Option<Name>,
    pub to: Option<Name>,
    pub from_tick: Option<u32>,
    pub to_tick: Option<u32>,
}

pub fn run(options: &DrawOptions, output: &mut Output) -> Result<Status, Trouble> {
    let DrawOptions { sheet, script, to, .. } = options;
    in_order(options)?;
    let mut pipes = Pipes::default();
    let sheet_bytes = input::next_sheet(sheet, &mut pipes)?;
    let (course, run_name) = match script {
        Some(name) => {
            let bytes = input::next_script(name, &mut pipes)?;
            match course::of(&sheet_bytes, &bytes)? {
                Ok(course) => (course, format!("the run of {}", name.shown())),
                Err(refused) => {
                    say(&refused_text(false, sheet, name, refused, &sheet_bytes, &bytes)?, to.as_ref(), output)?;
                    return Ok(Status::Refused);
                }
            }
        }
        None => match worst::of(&sheet_bytes)? {
            Ok(Some(worst)) => {
                let name = worst.name();
                (worst.course, name)
            }
            Ok(None) => {
                say(&worst::holds(false, sheet, to.as_ref(), &sheet_bytes)?, to.as_ref(), output)?;
                return Ok(Status::Done);
            }
            Err(refusal) => {
                say(&explain::refused_sheet(false, sheet, refusal, &sheet_bytes)?, to.as_ref(), output)?;
                return Ok(Status::Refused);
            }
        },
    };
    deliver(options, &course, &run_name, output)?;
    Ok(status_of(&course))
}

fn deliver(options: &DrawOptions, course: &Course, run_name: &str, output: &mut Output) -> Result<(), Trouble> {
    let DrawOptions { sheet, script, to, .. } = options;
    let (from, to_tick) = range(options, course.play.tick)?;
    let end = end_words(course);
    let verdict = words::verdict(course.findings.verdict, course.findings.set.tasks.len());
    let shown = shown_words(from, to_tick, course.play.tick);
    let mut lines = vec![format!("The sheet, {}: {verdict}.", shortened(&sheet.shown())), words::policy(&course.findings.set)];
    lines.extend(missed_words(course));
    lines.extend(also_missed_words(course));
    lines.push(format!("Shown: {shown}."));
    let name = format!("{}: {end}. The sheet, {}: {verdict}", capital(run_name), sheet.shown());
    let title = format!("{}: {end}", capital(&shortened(run_name)));
    let picture = Picture { course, from, to: to_tick, name, title, lines };
    let inputs: Vec<(&Name, &str)> = [(sheet, "the sheet")].into_iter().chain(script.iter().map(|name| (name, "the script"))).collect();
    let made = Made { not_for_a_terminal: "a picture is nothing to read", of: &inputs };
    made.deliver(picture.svg().as_bytes(), to.as_ref(), output)?;
    let place = to.as_ref().unwrap_or(&Name::StandardOutput).shown();
    let also = also_missed_words(course).map_or(String::new(), |words| format!(". {words}"));
    say(&format!("{place}: {run_name}, {shown}: {end}{also}\n"), to.as_ref(), output)
}

/// The tasks that miss beside the one that the play names.
fn also_missed_words(course: &Course) -> Option<String> {
    let tasks: Vec<u32> = course.also_missed.iter().map(|job| job.task.into()).collect();
    let (last, others) = tasks.split_last()?;
    Some(match others {
        [] => format!("Task {last} misses at the same moment, by the script and the ticks."),
        _ => format!("Tasks {} and {last} miss at the same moment, by the script and the ticks.", words::joined(others, ", ")),
    })
}

fn shown_words(from: u32, to: u32, end: u32) -> String {
    match (from, to) {
        (0, 0) => "no tick is played".to_string(),
        (0, _) if to == end => format!("all of it, ticks 0 to {}", to - 1),
        _ => format!("ticks {from} to {} of 0 to {}", to - 1, end - 1),
    }
}

/// What the arguments alone say of the ticks is looked at before any file, so that it never hangs on the run.
fn in_order(options: &DrawOptions) -> Result<(), Trouble> {
    match (options.from_tick.unwrap_or(0), options.to_tick) {
        (from, Some(to)) if from >= to => Err(Trouble::Usage(format!("--from {from} is not before --to {to}"))),
        _ => Ok(()),
    }
}

/// The ticks that are drawn: those that were asked for, as far as there are any.
fn range(options: &DrawOptions, end: u32) -> Result<(u32, u32), Trouble> {
    let (from, to) = (options.from_tick.unwrap_or(0), options.to_tick.unwrap_or(end).min(end));
    let usage = |words: String| Err(Trouble::Usage(words));
    match options.from_tick {
        Some(from) if end == 0 && from > 0 => usage(format!("--from {from}: no tick is played in this run")),
        _ if end == 0 => Ok((0, 0)),
        _ if from >= end => usage(format!("--from {from} is not before the end of the run, {end}: its ticks are 0 to {}", end - 1)),
        _ => Ok((from, to)),
    }
}
