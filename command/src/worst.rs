//! `worst`: the worst run of a missed set as a script, which the library writes.
use crate::answers::{line, object, status_of_verdict, unread, verdict_object};
use crate::course::{self, due, Course};
use crate::delivery::{say, Made};
use crate::findings::{self, Findings};
use crate::library::{Refusal, Verdict};
use crate::names::{quoted_if_odd, Name};
use crate::output::Output;
use crate::script::Script;
use crate::status::{Status, Trouble};
use crate::words::{self, counted, entries};
use crate::{explain, input, library, plays};
use std::fs;

pub fn run(json: bool, sheet: &Name, to: Option<&Name>, output: &mut Output) -> Result<Status, Trouble> {
    let bytes = match input::sheet(sheet) {
        Ok(bytes) => bytes,
        Err(trouble) => return unread(json, sheet, trouble, output),
    };
    let worst = match of(&bytes)? {
        Err(refusal) => {
            say(&explain::refused_sheet(json, sheet, refusal, &bytes)?, to, output)?;
            return Ok(Status::Refused);
        }
        Ok(None) => {
            say(&holds(json, sheet, to, &bytes)?, to, output)?;
            return Ok(Status::Done);
        }
        Ok(Some(worst)) => worst,
    };
    let made = Made { not_for_a_terminal: "a script is no text", of: &[(sheet, "the sheet")] };
    made.deliver(&worst.script, to, output)?;
    let text = if json { worst.object(sheet, to) } else { worst.words(sheet, to) };
    say(&text, to, output)?;
    Ok(status_of_verdict(worst.course.findings.verdict))
}

/// A missed set's worst run and its course.
pub struct Worst {
    pub script: Vec<u8>,
    pub course: Course,
    /// The frame whose job misses.
    pub frame: usize,
}

/// The worst run of a sheet's set, if it misses. Its play must end with the miss that the verdict names, at the frame's deadline.
pub fn of(sheet: &[u8]) -> library::Answer<Option<Worst>> {
    let findings = match findings::of(sheet)? {
        Ok(findings) => findings,
        Err(refusal) => return same_refusal(sheet, refusal),
    };
    let other = || Trouble::disagreement("the worst run and the analysis");
    match (findings.verdict, plays::worst_run(sheet)?) {
        (Verdict::Holds, Ok(None)) => Ok(Ok(None)),
        (Verdict::Missed { task, .. }, Ok(Some(script))) => {
            let course = course::of(sheet, &script)?.map_err(|_| other())?;
            let frame = Script::of(&script, findings.set.tasks.len()).map(|fields| fields.first_frame(task) as usize);
            let frame = frame.filter(|&frame| ends_so(&course, &findings, task, frame)).ok_or_else(other)?;
            Ok(Ok(Some(Worst { script, course, frame })))
        }
        _ => Err(other()),
    }
}

fn same_refusal(sheet: &[u8], refusal: Refusal) -> library::Answer<Option<Worst>> {
    match plays::worst_run(sheet)? {
        Err(other) if other == refusal => Ok(Err(refusal)),
        _ => Err(Trouble::disagreement("the worst run and the analysis")),
    }
}

/// The named task's job is released at tick 1 with this frame, the first without a response time, and misses by its deadline.
fn ends_so(course: &Course, findings: &Findings, task: usize, frame: usize) -> bool {
    let is_first = findings.ordered.iter().any(|finding| finding.task == task && finding.missed_frame == Some(frame));
    let job = course.missed_job().filter(|job| usize::from(job.task) == task && usize::from(job.frame) == frame && job.released == 1);
    is_first && job.is_some_and(|job| course.play.tick == due(&findings.set, job))
}

/// That a set holds, with its line of `check`. A file that is there from before is not to be taken for a worst run of this set.
pub fn holds(json: bool, sheet: &Name, to: Option<&Name>, bytes: &[u8]) -> Result<String, Trouble> {
    let answer = library::analyse(bytes)?;
    let kept = match to {
        Some(Name::File(path)) if fs::metadata(path).is_ok_and(|known| known.is_file()) => {
            format!("; {} is as it was", quoted_if_odd(path))
        }
        _ => String::new(),
    };
    let words = format!("No job misses, in any run: there is no worst run to show, and nothing is written{kept}.");
    match &answer {
        Ok(_) if json => Ok(object(sheet, bytes, &answer)?.raw("script", "null").close() + "\n"),
        _ => Ok(format!("{}\n{words}\n", line(sheet, &answer))),
    }
}

impl Worst {
    /// `the worst run of task 0, frame 0`.
    pub fn name(&self) -> String {
        let task = self.course.play.missed.unwrap_or(plays::NO_TASK);
        format!("the worst run of task {task}, frame {}", self.frame)
    }

    fn words(&self, sheet: &Name, to: Option<&Name>) -> String {
        let findings = &self.course.findings;
        let to = to.unwrap_or(&Name::StandardOutput).shown();
        let verdict = words::verdict(findings.verdict, findings.set.tasks.len());
        let first = format!("{}: {verdict}\n", sheet.shown());
        let end = format!("it misses at {}", words::moment(self.course.play.tick));
        let which = format!("{}, the first without a response time: released at 1, {end}.\n", capital(&self.name()));
        let (count, length) = (entries(self.course.jobs.len()), counted(self.script.len() as u64, "byte"));
        format!("{first}{which}Written to {to}: {count}, {length}.\n")
    }

    fn object(&self, sheet: &Name, to: Option<&Name>) -> String {
        let findings = &self.course.findings;
        let object = verdict_object(sheet, findings.verdict, findings.set.tasks.len(), findings.set.version);
        let object = object.number("frame", self.frame as u64).number("released", 1u32).number("tick", self.course.play.tick);
        let object = object.number("entries", self.course.jobs.len() as u64).number("bytes", self.script.len() as u64);
        object.text("script", &to.unwrap_or(&Name::StandardOutput).plain()).close() + "\n"
    }
}

/// The words as the start of a sentence.
pub fn capital(words: &str) -> String {
    let mut letters = words.chars();
    letters.next().map_or(String::new(), |first| first.to_uppercase().chain(letters).collect())
}
