//! The report's text.
use crate::analysis::{analyse, Analysis, Verdict};
use crate::refusal::Refusal;
use crate::sheet;
use crate::task::Set;

/// What the report program prints for these bytes of standard input; 733 of them are enough to know refusal 1.
pub fn report(bytes: &[u8]) -> String {
    match sheet::read(bytes) {
        Err(refusal) => format!("refused {}\n", refusal.number()),
        Ok(set) => report_of(&set, &analyse(&set)),
    }
}

/// The report into lent bytes, and its length; surplus room keeps its content, and too little of it nothing is written to.
pub fn report_into(bytes: &[u8], text: &mut [u8]) -> Result<usize, Refusal> {
    let report = report(bytes);
    let room = text.get_mut(..report.len()).ok_or(Refusal::Room)?;
    room.copy_from_slice(report.as_bytes());
    Ok(report.len())
}

fn report_of(set: &Set, analysis: &Analysis) -> String {
    let mut text = first_line(set.tasks.len(), analysis.verdict);
    for &task in &analysis.order {
        text += &task_line(set, analysis, task);
    }
    text
}

fn first_line(count: usize, verdict: Verdict) -> String {
    match verdict {
        Verdict::Holds => format!("holds {count}\n"),
        Verdict::Missed { task, blocker } => {
            let blocker = blocker.map_or("-".to_string(), |b| b.to_string());
            format!("missed {count} {task} {blocker}\n")
        }
    }
}

/// Number, T, the smallest D, blocking, then the times or the word `missed` once.
fn task_line(set: &Set, analysis: &Analysis, number: usize) -> String {
    let (task, answer) = (&set.tasks[number], &analysis.answers[number]);
    let times = match &answer.times {
        Some(times) => times.iter().map(|t| t.to_string()).collect::<Vec<_>>().join(" "),
        None => "missed".to_string(),
    };
    format!("{number} {} {} {} {times}\n", task.period, task.smallest_deadline(), answer.blocking)
}
