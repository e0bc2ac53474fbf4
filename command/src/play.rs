//! `play`: how the run of a script ends, in words, and its last ticks as lanes.
use crate::course::{self, deadline, due, Course, Job};
use crate::input::{self, Pipes};
use crate::names::Name;
use crate::output::Output;
use crate::plays::{Refused, ScriptRefusal};
use crate::script_faults::{self, ScriptFault};
use crate::status::{Status, Trouble};
use crate::words::{self, counted, UNITS};
use crate::{explain, lanes, library, play_json};

/// What is asked of `play`.
#[derive(Clone, Debug, PartialEq, Eq)]
pub struct PlayOptions {
    pub json: bool,
    /// How many of the last ticks are shown; without it, those of `TERMINAL_TICKS` on a terminal.
    pub last: Option<u32>,
    pub sheet: Name,
    pub script: Name,
}

/// The ticks that a line of a terminal takes.
const TERMINAL_TICKS: u32 = 60;

pub fn run(options: &PlayOptions, output: &mut Output) -> Result<Status, Trouble> {
    let PlayOptions { json, last, sheet, script } = options;
    let mut pipes = Pipes::default();
    let inputs = input::next_sheet(sheet, &mut pipes).and_then(|bytes| Ok((bytes, input::next_script(script, &mut pipes)?)));
    let (sheet_bytes, script_bytes) = match inputs {
        Ok(inputs) => inputs,
        Err(trouble) => return play_json::unread(*json, sheet, script, trouble, output),
    };
    let (text, status) = match course::of(&sheet_bytes, &script_bytes)? {
        Ok(course) => {
            let last = last.unwrap_or(if output.is_terminal() { TERMINAL_TICKS } else { 0 });
            let text = if *json { play_json::played(sheet, script, &course) } else { played(sheet, script, &course, last) };
            (text, status_of(&course))
        }
        Err(refused) => (refused_text(*json, sheet, script, refused, &sheet_bytes, &script_bytes)?, Status::Refused),
    };
    output.put(text.as_bytes())?;
    Ok(status)
}

/// A miss that is seen is an answer like that of a set that misses.
pub fn status_of(course: &Course) -> Status {
    match course.play.missed {
        Some(_) => Status::Missed,
        None => Status::Done,
    }
}

/// What is said of a refused sheet or script.
pub fn refused_text(
    json: bool,
    sheet: &Name,
    script: &Name,
    refused: Refused,
    sheet_bytes: &[u8],
    bytes: &[u8],
) -> Result<String, Trouble> {
    let refusal = match refused {
        Refused::Sheet(refusal) => return explain::refused_before(json, sheet, refusal, sheet_bytes, (script, bytes)),
        Refused::Script(refusal) => refusal,
    };
    let set = library::read(sheet_bytes)?.map_err(|_| Trouble::disagreement("reading and playing"))?;
    let fault = script_faults::of(refusal, bytes, &set)?;
    Ok(if json { play_json::refused(sheet, script, refusal, &fault) } else { refused_words(script, refusal, &fault, set.tasks.len()) })
}

fn refused_words(name: &Name, refusal: ScriptRefusal, fault: &ScriptFault, tasks: usize) -> String {
    let line = format!("{}: {}: {}\n", name.shown(), words::script_refused(refusal), words::short(refusal.number()));
    let place = refusal.item().map_or(String::new(), |item| entry_words(item, tasks));
    let advice = if fault.advice.is_empty() { String::new() } else { format!("{}\n", fault.advice) };
    format!("{line}{place}{}\n{advice}", fault.words())
}

/// Which entry an item is: first frames and entries are counted together. The fault of a first frame says itself which one it is.
fn entry_words(item: usize, tasks: usize) -> String {
    item.checked_sub(tasks).map_or(String::new(), |entry| format!("item {item}, which is entry {entry}: "))
}

/// How the play ends, in a line.
pub fn end_words(course: &Course) -> String {
    match course.play.missed {
        Some(task) => format!("task {task} misses at {}", words::moment(course.play.tick)),
        None if course.jobs.is_empty() => "no job is released, and so none misses".to_string(),
        None => format!("no job misses; {} done at {}", all_jobs(course.jobs.len()), words::moment(course.play.tick)),
    }
}

fn all_jobs(count: usize) -> String {
    match count {
        1 => "the one job is".to_string(),
        _ => format!("all {count} jobs are"),
    }
}

/// The job that misses.
pub fn missed_words(course: &Course) -> Option<String> {
    let job = course.missed_job()?;
    Some(format!("The job that misses: task {}, {}.", job.task, job_words(course, job)))
}

/// `released at 1, frame 0, due at 1 + 4 = 5; of its work, 2 ticks, 1 is left then`.
fn job_words(course: &Course, job: &Job) -> String {
    let Job { frame, released, work, left, .. } = *job;
    let set = &course.findings.set;
    let due = format!("due at {released} + {} = {}", deadline(set, job), due(set, job));
    let left = format!("of its work, {}, {left} {} left then", counted(work.into(), "tick"), if left == 1 { "is" } else { "are" });
    format!("released at {released}, frame {frame}, {due}; {left}")
}

/// A line for each job that misses at the same moment. The play's answer is the lowest task alone.
fn also_missed_words(course: &Course) -> String {
    let also = |job: &Job| {
        let words = job_words(course, job);
        format!("Task {} misses at the same moment, by the script and the ticks: {words}.\n", job.task)
    };
    course.also_missed.iter().map(also).collect()
}

fn played(sheet: &Name, script: &Name, course: &Course, last: u32) -> String {
    let set = &course.findings.set;
    let verdict = words::verdict(course.findings.verdict, set.tasks.len());
    let mut text = format!("{}: {}\n{UNITS}\n", script.shown(), end_words(course));
    text += &format!("The sheet, {}: {verdict}\n", sheet.shown());
    text.extend(missed_words(course).map(|words| words + "\n"));
    text += &also_missed_words(course);
    text += "\nThe tasks, highest priority first:\n";
    text.extend(tallies(course).iter().map(|tally| tally.words(course)));
    if last > 0 && course.play.tick > 0 {
        text += &format!("\n{}", lanes::text(course, last));
    }
    text
}

/// What became of the jobs of one task.
pub struct Tally {
    pub task: usize,
    pub jobs: usize,
    pub done: usize,
    /// The first of those that took longest.
    pub longest: Option<Job>,
}

/// In priority order.
pub fn tallies(course: &Course) -> Vec<Tally> {
    let mut tallies: Vec<Tally> =
        course.findings.ordered.iter().map(|finding| Tally { task: finding.task, jobs: 0, done: 0, longest: None }).collect();
    for job in &course.jobs {
        let Some(tally) = tallies.iter_mut().find(|tally| tally.task == usize::from(job.task)) else { continue };
        tally.jobs += 1;
        tally.done += usize::from(job.is_done());
        if job.took() > tally.longest.and_then(|longest| longest.took()) {
            tally.longest = Some(*job);
        }
    }
    tallies
}

impl Tally {
    fn words(&self, course: &Course) -> String {
        let Tally { task, jobs, done, longest } = self;
        let jobs_words = match (jobs, done) {
            (0, _) => "no job".to_string(),
            (1, 0) => "1 job, not done".to_string(),
            (1, _) => "1 job, done".to_string(),
            _ if jobs == done => format!("{jobs} jobs, all done"),
            _ => format!("{jobs} jobs, {done} done"),
        };
        let longest = longest.and_then(|job| Some((job, job.took()?))).map(|(job, took)| {
            let which = if *done == 1 { "it" } else { "the longest" };
            let took = format!("{which} took {} (released at {}, frame {}", counted(took.into(), "tick"), job.released, job.frame);
            format!("; {took}; {})", self.limit_words(course, &job))
        });
        format!("task {task}: {jobs_words}{}\n", longest.unwrap_or_default())
    }

    /// What no job of its frame exceeds.
    fn limit_words(&self, course: &Course, job: &Job) -> String {
        let finding = course.findings.ordered.iter().find(|finding| finding.task == self.task);
        match finding.and_then(|finding| finding.times.as_ref()?.get(usize::from(job.frame))) {
            Some(time) => format!("response time {time}"),
            None => format!("deadline {}, the task does not pass", deadline(&course.findings.set, job)),
        }
    }
}
