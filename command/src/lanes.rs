//! The last ticks of a play as lines of text: a lane for each task in priority order, a character for each tick.
use crate::course::{jobs_in, Course, Lock, Tick};
use crate::words::counted;

/// A label stands at every so many ticks.
const STEP: u32 = 10;

/// The last ticks, so many at most, and the moment at which the play ends.
pub fn text(course: &Course, last: u32) -> String {
    let end = course.play.tick;
    let from = end.saturating_sub(last);
    let width = course.findings.ordered.iter().map(|finding| label(finding.task).len()).max().unwrap_or(0) + 2;
    let mut text = format!("{}, highest priority first", ticks_words(from, end));
    text += ": x runs, L starts a locked stretch, = goes on in it, . waits, ! misses\n\n";
    text += &ruler(from, end, width);
    for finding in &course.findings.ordered {
        text += format!("{:<width$}{}", label(finding.task), lane(course, finding.task, from)).trim_end();
        text.push('\n');
    }
    text
}

/// A sign for each tick; at the moment of the end only the miss is told.
fn lane(course: &Course, task: usize, from: u32) -> String {
    let end = course.play.tick;
    let mut signs = vec![' '; (end - from) as usize];
    for job in jobs_in(course, task, from, end) {
        let (first, behind) = (job.released.max(from), course.pending_until(job));
        signs[(first - from) as usize..(behind - from) as usize].fill('.');
    }
    for (sign, tick) in signs.iter_mut().zip(&course.ticks[from as usize..]) {
        match *tick {
            Tick::Runs { task: running, lock } if running == task => *sign = sign_of(lock),
            _ => {}
        }
    }
    signs.push(if course.misses(task) { '!' } else { ' ' });
    signs.into_iter().collect()
}

fn sign_of(lock: Lock) -> char {
    match lock {
        Lock::Free => 'x',
        Lock::First => 'L',
        Lock::Later => '=',
    }
}

fn ticks_words(from: u32, end: u32) -> String {
    match from {
        0 => format!("All {}", counted(end.into(), "tick")),
        _ => format!("The last {}", counted((end - from).into(), "tick")),
    }
}

fn label(task: usize) -> String {
    format!("task {task}")
}

/// Two lines: the number of every tenth tick and of the first, where they do not run into each other, and the last digit of each.
fn ruler(from: u32, end: u32, width: usize) -> String {
    let mut numbers = "tick".to_string();
    for tick in (from..=end).filter(|tick| tick % STEP == 0 || *tick == from) {
        let column = width + (tick - from) as usize;
        if numbers.len() < column {
            numbers.extend(std::iter::repeat_n(' ', column - numbers.len()));
            numbers += &tick.to_string();
        }
    }
    let digits: String = (from..=end).map(|tick| (tick % 10).to_string()).collect();
    format!("{numbers}\n{:width$}{digits}\n", "")
}
