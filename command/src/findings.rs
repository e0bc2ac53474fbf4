//! What the library says of an admitted sheet: the set, the verdict, and each task's blocking and times in priority order. Order and
//! blocking are taken from the report; what two entries say must agree.
use crate::demand;
use crate::library::{self, Analysis, Answer, Refusal, Verdict};
use crate::set::Set;
use crate::status::Trouble;

/// Who does not agree, said in two cases.
const REPORT_AND_ANALYSIS: &str = "the report and the analysis";

/// What is found of one task.
#[derive(Clone, Debug)]
pub struct Finding {
    pub task: usize,
    pub blocking: u32,
    /// The lower task with the largest lock, the first in priority order, if there is blocking.
    pub blocker: Option<usize>,
    /// A response time for each frame, or none of them if the task does not pass.
    pub times: Option<Vec<u32>>,
    /// The first frame without a response time, if the task does not pass.
    pub missed_frame: Option<usize>,
}

#[derive(Clone, Debug)]
pub struct Findings {
    pub set: Set,
    pub verdict: Verdict,
    /// Highest priority first.
    pub ordered: Vec<Finding>,
}

/// The findings of a sheet, or its refusal.
pub fn of(sheet: &[u8]) -> Answer<Findings> {
    let (report, answer) = report_and_analysis(sheet)?;
    let (set, analysis) = match (library::read(sheet)?, answer) {
        (Ok(set), Ok(analysis)) => (set, analysis),
        (Err(one), Err(other)) if one == other => return Ok(Err(one)),
        _ => return Err(Trouble::disagreement("reading and analysing")),
    };
    // the fields that are put into words are the sheet's
    if library::write(&set)?.as_deref() != Ok(sheet) {
        return Err(Trouble::disagreement("reading and writing"));
    }
    let verdict = analysis.verdict;
    let ordered = parsed(&report, &set, &analysis).ok_or_else(|| Trouble::disagreement(REPORT_AND_ANALYSIS))?;
    let mut findings = Findings { set, verdict, ordered };
    name_blockers(&mut findings)?;
    name_missed_frames(&mut findings);
    demand::agrees(&findings)?;
    Ok(Ok(findings))
}

/// The report on a sheet and its analysis, of one verdict or refusal.
pub fn report_and_analysis(sheet: &[u8]) -> Result<(Vec<u8>, Result<Analysis, Refusal>), Trouble> {
    let (report, answer) = (library::report(sheet)?, library::analyse(sheet)?);
    says(&report, &answer).then_some((report, answer)).ok_or_else(|| Trouble::disagreement(REPORT_AND_ANALYSIS))
}

/// Whether the report starts with what the analysis answers; of a refused sheet it says nothing else.
fn says(report: &[u8], answer: &Result<Analysis, Refusal>) -> bool {
    match answer {
        Ok(analysis) => report.starts_with(first_line(analysis.verdict, analysis.task_count).as_bytes()),
        Err(refusal) => report == format!("refused {}\n", refusal.number).as_bytes(),
    }
}

/// The first line of the report for this verdict.
fn first_line(verdict: Verdict, task_count: usize) -> String {
    match verdict {
        Verdict::Holds => format!("holds {task_count}\n"),
        Verdict::Missed { task, blocker: Some(blocker) } => format!("missed {task_count} {task} {blocker}\n"),
        Verdict::Missed { task, blocker: None } => format!("missed {task_count} {task} -\n"),
    }
}

/// The report's lines after the first, where they agree with the set and the analysis.
fn parsed(report: &[u8], set: &Set, analysis: &Analysis) -> Option<Vec<Finding>> {
    let count = set.tasks.len();
    if count != analysis.task_count {
        return None;
    }
    let lines = std::str::from_utf8(report).ok()?.lines().skip(1);
    let ordered = lines.map(|line| finding(line, set, analysis)).collect::<Option<Vec<Finding>>>()?;
    let mut numbers: Vec<usize> = ordered.iter().map(|finding| finding.task).collect();
    numbers.sort_unstable();
    numbers.into_iter().eq(0..count).then_some(ordered)
}

/// Number, period, smallest deadline, blocking, then the times or the word `missed`.
fn finding(line: &str, set: &Set, analysis: &Analysis) -> Option<Finding> {
    let words: Vec<&str> = line.split(' ').collect();
    let [number, period, deadline, blocking, times @ ..] = words.as_slice() else { return None };
    let number: usize = number.parse().ok()?;
    let (task, slots) = (set.tasks.get(number)?, analysis.times.get(number)?);
    let times = match times {
        ["missed"] => None,
        times => Some(times.iter().map(|time| time.parse().ok()).collect::<Option<Vec<u32>>>()?),
    };
    let frames = times.as_ref().map_or(0, Vec::len);
    let same_times = times.iter().flatten().copied().chain(std::iter::repeat(0)).take(slots.len()).eq(slots.iter().copied());
    let same_task = period.parse() == Ok(task.period) && deadline.parse().ok() == task.smallest_deadline();
    let whole = times.is_none() || frames == task.frames.len();
    let in_time = times.iter().flatten().zip(&task.deadlines).all(|(time, deadline)| time <= deadline);
    let finding = Finding { task: number, blocking: blocking.parse().ok()?, blocker: None, times, missed_frame: None };
    (same_times && same_task && whole && in_time).then_some(finding)
}

/// Names who causes each blocking; it must be the library's number, and of the missed task the library's blocker.
fn name_blockers(findings: &mut Findings) -> Result<(), Trouble> {
    for place in 0..findings.ordered.len() {
        let lower: Vec<(usize, u32)> = findings.ordered[place + 1..].iter().map(|f| (f.task, findings.set.tasks[f.task].lock)).collect();
        let largest = lower.iter().map(|&(_, lock)| lock).max().unwrap_or(0);
        let blocker = lower.iter().find(|&&(_, lock)| lock == largest && lock >= 2).map(|&(task, _)| task);
        let finding = &mut findings.ordered[place];
        let named = match findings.verdict {
            Verdict::Missed { task, blocker } if task == finding.task => Some(blocker),
            _ => None,
        };
        if finding.blocking != largest.saturating_sub(1) || named.is_some_and(|named| named != blocker) {
            return Err(Trouble::Disagreement(format!("the blocking worked out for task {} is not the library's", finding.task)));
        }
        finding.blocker = blocker;
    }
    Ok(())
}

/// The library does not say which frame it is; where none is found the demand does not agree.
fn name_missed_frames(findings: &mut Findings) {
    for place in 0..findings.ordered.len() {
        if findings.ordered[place].times.is_none() {
            findings.ordered[place].missed_frame = demand::missed_frame(findings, place);
        }
    }
}

#[cfg(test)]
mod tests {
    use super::*;
    use crate::set::Task;

    /// Case F of the scope, with its report.
    fn case_f() -> (Set, Analysis, &'static str) {
        let task = |period, deadline, lock, frame| Task { period, lock, frames: vec![frame], deadlines: vec![deadline] };
        let set = Set { version: 1, policy: 0, tasks: vec![task(10, 4, 0, 2), task(20, 20, 3, 5)] };
        let slots = |time| [time, 0, 0, 0, 0, 0, 0, 0];
        let analysis = Analysis { task_count: 2, verdict: Verdict::Holds, times: vec![slots(4), slots(7)] };
        (set, analysis, "holds 2\n0 10 4 2 4\n1 20 20 0 7\n")
    }

    fn findings(report: &str) -> Option<Findings> {
        let (set, analysis, _) = case_f();
        let ordered = parsed(report.as_bytes(), &set, &analysis)?;
        let verdict = analysis.verdict;
        says(report.as_bytes(), &Ok(analysis)).then_some(Findings { set, verdict, ordered })
    }

    #[test]
    fn a_report_that_agrees_is_taken() {
        let mut findings = findings(case_f().2).expect("the report of case F");
        assert!(name_blockers(&mut findings).is_ok() && demand::agrees(&findings).is_ok());
        assert_eq!((findings.ordered[0].blocker, findings.ordered[1].blocker), (Some(1), None));
    }

    #[test]
    fn a_report_that_does_not_agree_is_not() {
        let changes = [
            ("holds 2", "holds 3"),
            ("holds 2", "holds 20"),
            ("holds 2", "missed 2 0 1"),
            ("0 10 4 2 4\n", ""),
            ("0 10 4 2 4\n", "0 10 4 2 4\n0 10 4 2 4\n"),
            ("0 10 4 2 4", "2 10 4 2 4"),
            ("0 10 4 2 4", "0 11 4 2 4"),
            ("0 10 4 2 4", "0 10 5 2 4"),
            ("0 10 4 2 4", "0 10 4 2 3"),
            ("0 10 4 2 4", "0 10 4 2 4 4"),
            ("0 10 4 2 4", "0 10 4 2 missed"),
            ("0 10 4 2 4", "0 10 4 x 4"),
            ("0 10 4 2 4", "0 10 4 2"),
        ];
        for (from, to) in changes {
            assert!(findings(&case_f().2.replace(from, to)).is_none(), "{to:?}");
        }
    }

    #[test]
    fn the_report_on_a_refused_sheet_is_its_refusal_alone() {
        let refused = Err(Refusal { number: 1, task: None, no_start: None });
        assert!(says(b"refused 1\n", &refused));
        for report in ["", "refused 1", "refused 2\n", "refused 11\n", "refused 1\n0 10 4 2 4\n", case_f().2] {
            assert!(!says(report.as_bytes(), &refused), "{report:?}");
        }
        assert!(!says(b"refused 1\n", &Ok(case_f().1)));
    }

    #[test]
    fn blocking_and_times_must_be_those_of_the_words() {
        for (from, to) in [("0 10 4 2 4", "0 10 4 1 4"), ("1 20 20 0 7", "1 20 20 1 7")] {
            let mut findings = findings(&case_f().2.replace(from, to)).expect("a report in form");
            assert!(name_blockers(&mut findings).is_err(), "{to}");
        }
        let swapped = findings("holds 2\n1 20 20 0 7\n0 10 4 2 4\n").expect("a report in form");
        assert!(demand::agrees(&swapped).is_err());
        let mut slow = findings(case_f().2).expect("the report of case F");
        slow.ordered[1].times = Some(vec![8]);
        assert!(demand::agrees(&slow).is_err());
        slow.ordered[1].times = None;
        name_missed_frames(&mut slow);
        assert!(slow.ordered[1].missed_frame.is_none() && demand::agrees(&slow).is_err());
    }

    /// Task 1 of case F with two frames, whose deadlines are these: 7 and 6 are their response times.
    fn two_frames(deadlines: [u32; 2], line: &str, times: [u32; 2]) -> Option<Findings> {
        let (mut set, mut analysis, _) = case_f();
        set.tasks[1] = Task { frames: vec![5, 4], deadlines: deadlines.to_vec(), ..set.tasks[1].clone() };
        analysis.times[1][..2].copy_from_slice(&times);
        let ordered = parsed(format!("any\n0 10 4 2 4\n{line}\n").as_bytes(), &set, &analysis)?;
        Some(Findings { set, verdict: analysis.verdict, ordered })
    }

    /// The report has the smallest deadline, and no time is above the deadline of its own frame.
    #[test]
    fn each_frame_has_its_own_deadline() {
        let findings = two_frames([7, 6], "1 20 6 0 7 6", [7, 6]).expect("a report in form");
        assert!(demand::agrees(&findings).is_ok());
        assert!(two_frames([20, 6], "1 20 20 0 7 6", [7, 6]).is_none() && two_frames([6, 20], "1 20 6 0 7 6", [7, 6]).is_none());
    }

    /// Of a task that does not pass, the first frame that its own deadline is too short for; none where all are long enough.
    #[test]
    fn the_missed_frame_goes_by_its_own_deadline() {
        for (deadlines, frame) in [([6, 6], Some(0)), ([7, 5], Some(1)), ([6, 5], Some(0)), ([20, 5], Some(1)), ([7, 6], None)] {
            let smallest = deadlines[0].min(deadlines[1]);
            let mut findings = two_frames(deadlines, &format!("1 20 {smallest} 0 missed"), [0, 0]).expect("a report in form");
            name_missed_frames(&mut findings);
            assert_eq!((findings.ordered[1].missed_frame, demand::agrees(&findings).is_ok()), (frame, frame.is_some()), "{deadlines:?}");
        }
    }
}
