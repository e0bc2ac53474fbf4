//! `explain`: a sheet's answer in words.
use crate::answers::{refusal_line, status_of_verdict, unread};
use crate::demand::{self, Demand, Jobs};
use crate::faults::{self, Fault};
use crate::findings::{self, Findings};
use crate::library::{Refusal, Verdict};
use crate::names::Name;
use crate::output::Output;
use crate::set::Task;
use crate::status::{Status, Trouble};
use crate::words::{self, counted, joined, UNITS};
use crate::{explain_json, input, library};

pub fn run(json: bool, name: &Name, output: &mut Output) -> Result<Status, Trouble> {
    let bytes = match input::sheet(name) {
        Ok(bytes) => bytes,
        Err(trouble) => return unread(json, name, trouble, output),
    };
    let (text, status) = match findings::of(&bytes)? {
        Ok(findings) => {
            let text = if json { explain_json::judged(name, &findings)? } else { judged(name, &findings)? };
            (text, status_of_verdict(findings.verdict))
        }
        Err(refusal) => (refused_sheet(json, name, refusal, &bytes)?, Status::Refused),
    };
    output.put(text.as_bytes())?;
    Ok(status)
}

/// What is said of a refused sheet, in words or as an object.
pub fn refused_sheet(json: bool, name: &Name, refusal: Refusal, sheet: &[u8]) -> Result<String, Trouble> {
    let fault = faults::of_sheet(refusal, sheet)?;
    Ok(refused_text(json, name, refusal, &fault))
}

/// The same of a sheet that is given before a script, which may be the sheet that was meant.
pub fn refused_before(json: bool, name: &Name, refusal: Refusal, sheet: &[u8], script: (&Name, &[u8])) -> Result<String, Trouble> {
    let mut fault = faults::of_sheet(refusal, sheet)?;
    if let Some(hint) = swapped(script, "script")? {
        fault.advice = format!("{} {hint}", fault.advice).trim_start().to_string().into();
    }
    Ok(refused_text(json, name, refusal, &fault))
}

/// A hint where what is given behind a refused sheet reads as a sheet.
pub fn swapped((name, bytes): (&Name, &[u8]), what: &str) -> Result<Option<String>, Trouble> {
    let reads = library::read(bytes)?.is_ok();
    Ok(reads.then(|| format!("{} reads as a sheet: the sheet is given first, then the {what}.", name.shown())))
}

fn refused_text(json: bool, name: &Name, refusal: Refusal, fault: &Fault) -> String {
    if json {
        explain_json::refused(name, refusal, fault)
    } else {
        refused(name, refusal, fault)
    }
}

/// The line of a refused sheet, what is wrong with it, and what to do.
pub fn refused(name: &Name, refusal: Refusal, fault: &Fault) -> String {
    let task = refusal.task.map_or(String::new(), |task| format!("task {task}: "));
    let advice = if fault.advice.is_empty() { String::new() } else { format!("{}\n", fault.advice) };
    format!("{}\n{task}{}\n{advice}", refusal_line(name, refusal), fault.words)
}

fn judged(name: &Name, findings: &Findings) -> Result<String, Trouble> {
    let Findings { set, verdict, ordered } = findings;
    let first = format!("{}: {}\n", name.shown(), words::verdict(*verdict, set.tasks.len()));
    let policy = words::policy(set);
    let mut text = format!("{first}{UNITS}\n{policy}\nThe tasks, highest priority first:\n");
    for place in 0..ordered.len() {
        text += &task_text(findings, place)?;
    }
    Ok(text + &closing(findings))
}

/// The task's numbers, its blocking, and its times or why it does not pass.
fn task_text(findings: &Findings, place: usize) -> Result<String, Trouble> {
    let finding = &findings.ordered[place];
    let task = &findings.set.tasks[finding.task];
    let head = head_line(finding.task, task);
    let blocking = format!("  blocking {}: {}\n", finding.blocking, blocking_words(findings, place));
    let frames = frame_lines(task, finding.times.as_deref());
    match &finding.times {
        Some(_) => Ok(head + &blocking + &frames),
        None if is_named(findings, finding.task) => Ok(head + &frames + &named_text(findings, place)?),
        None => Ok(head + &blocking + &frames + &passed_over_text(&deadline_demand(findings, place)?)),
    }
}

/// The deadline stands here where it is that of all frames, else at each of them.
fn head_line(number: usize, task: &Task) -> String {
    let deadline = task.one_deadline().map_or(String::new(), |deadline| format!(", deadline {deadline}"));
    format!("\ntask {number}: period {}{deadline}, lock {}\n", task.period, task.lock)
}

/// Who causes the blocking, or why there is none.
fn blocking_words(findings: &Findings, place: usize) -> String {
    match findings.ordered[place].blocker {
        Some(blocker) => format!("task {blocker}, which is lower, has lock {}; less 1", findings.set.tasks[blocker].lock),
        None if place + 1 == findings.ordered.len() => "no task is lower".to_string(),
        None => "no lower task has a lock of 2 or more".to_string(),
    }
}

/// A line for each frame; none where there are no times and the one deadline stands above.
fn frame_lines(task: &Task, times: Option<&[u32]>) -> String {
    let is_one = task.one_deadline().is_some();
    let line = |frame: usize| {
        let deadline = if is_one { String::new() } else { format!(", deadline {}", task.deadlines[frame]) };
        let found = |times: &[u32]| format!(", response time {}, slack {}", times[frame], slack(task, frame, times[frame]));
        format!("  frame {frame}: work {}{deadline}{}\n", task.frames[frame], times.map_or(String::new(), found))
    };
    let shown = if is_one && times.is_none() { 0 } else { task.frames.len() };
    (0..shown).map(line).collect()
}

/// The findings have no response time above its frame's deadline.
pub fn slack(task: &Task, frame: usize, time: u32) -> u32 {
    task.deadlines[frame] - time
}

/// Whether the verdict names this task.
fn is_named(findings: &Findings, number: usize) -> bool {
    matches!(findings.verdict, Verdict::Missed { task, .. } if task == number)
}

pub fn deadline_demand(findings: &Findings, place: usize) -> Result<Demand, Trouble> {
    demand::at_deadline(findings, place).ok_or_else(|| Trouble::Disagreement("a task that does not pass has no demand".to_string()))
}

/// A task that does not pass and is not the one that the verdict names: its demand in one sum.
fn passed_over_text(demand: &Demand) -> String {
    let Demand { frame, total, .. } = demand;
    format!("{}  demand of frame {frame} at its deadline: {total}, which is {}\n", no_time_line(demand), excess_words(demand))
}

/// The task that the verdict names: its demand term by term.
fn named_text(findings: &Findings, place: usize) -> Result<String, Trouble> {
    let demand = deadline_demand(findings, place)?;
    let Demand { frame, own, at, .. } = demand;
    let width = demand.total.to_string().len();
    let line = |number: u64, words: String| format!("    {number:>width$}  {words}\n");
    let mut text = format!("{}  demand of frame {frame} at t = {at}, its deadline:\n", no_time_line(&demand));
    text += &line(demand.blocking.into(), format!("blocking: {}", blocking_words(findings, place)));
    text += &line(own.into(), format!("own frame {frame}"));
    text.extend(demand.higher.iter().map(|jobs| line(jobs.work, jobs_words(jobs, at))));
    Ok(text + &line(demand.total, format!("in all, {}", excess_words(&demand))))
}

fn no_time_line(demand: &Demand) -> String {
    let Demand { frame, own, at, .. } = demand;
    let which = format!("its first frame without a response time, frame {frame} with work {own}");
    format!("  does not pass: the demand of {which}, is above t for every t from 1 to its deadline {at}\n")
}

fn excess_words(demand: &Demand) -> String {
    let excess = demand.total - u64::from(demand.at);
    format!("{} above the deadline {}", counted(excess, "tick"), demand.at)
}

/// `task 0: 5 jobs in 18 ticks (period 4), from frame 2 on, going round: 1 round of 9, then 3`.
fn jobs_words(jobs: &Jobs, at: u32) -> String {
    let Jobs { task, period, start_frame, rounds, round, rest, .. } = jobs;
    let (count, rest) = (counted(jobs.count.into(), "job"), joined(rest, " + "));
    let work = match (rounds, rest.is_empty()) {
        _ if jobs.frames == 1 && jobs.count == 1 => format!("with work {round}"),
        _ if jobs.frames == 1 => format!("each with work {round}"),
        (0, _) => format!("from frame {start_frame} on, going round: {rest}"),
        (_, true) => format!("from frame {start_frame} on, going round: {} of {round}", counted(*rounds, "round")),
        (_, false) => format!("from frame {start_frame} on, going round: {} of {round}, then {rest}", counted(*rounds, "round")),
    };
    format!("higher task {task}: {count} in {} (period {period}), {work}", counted(at.into(), "tick"))
}

fn closing(findings: &Findings) -> String {
    match findings.verdict {
        Verdict::Holds => smallest_slack(findings),
        Verdict::Missed { task, blocker } => {
            let blocker = match blocker {
                Some(blocker) => format!("its blocker is task {blocker}"),
                None => "it has no blocker".to_string(),
            };
            format!("\nTask {task} is the first in priority order that does not pass; {blocker}.\n{}", also_missed(findings, task))
        }
    }
}

fn also_missed(findings: &Findings, named: usize) -> String {
    let others = findings.ordered.iter().filter(|finding| finding.times.is_none() && finding.task != named);
    let others: Vec<String> = others.map(|finding| format!("task {}", finding.task)).collect();
    match others.len() {
        0 => "Every other task passes.\n".to_string(),
        _ => format!("Also not passing: {}.\n", others.join(", ")),
    }
}

/// The first in priority order and frame by frame.
fn smallest_slack(findings: &Findings) -> String {
    let slacks = findings.ordered.iter().flat_map(|finding| {
        let task = &findings.set.tasks[finding.task];
        let frames = finding.times.iter().flatten().enumerate();
        frames.map(move |(frame, &time)| (slack(task, frame, time), finding.task, frame))
    });
    match slacks.min_by_key(|&(slack, ..)| slack) {
        Some((slack, task, frame)) => format!("\nThe smallest slack is {}: task {task}, frame {frame}.\n", counted(slack.into(), "tick")),
        None => String::new(),
    }
}
