//! The arithmetic of `explain` against the second reading.
use crate::json::{self, number_or_null, Value};
use crate::running::run_with;
use second::analysis::{analyse, demand, Analysis, Higher, Verdict};
use second::generate::{admitted_set, edge_set, sheet_of, tight, tiny_set};
use second::random::Random;
use second::scripts::first_frame_without;
use second::task::{start_frame, Set};

fn numbers(list: &[u32]) -> Vec<u64> {
    list.iter().map(|&number| u64::from(number)).collect()
}

/// Sets of every kind, each with its sheet, until so many have this kind of verdict.
fn sets(seed: u64, missed: bool, wanted: usize) -> Vec<(Set, Vec<u8>)> {
    let mut random = Random::new(seed);
    let mut sets = Vec::new();
    while sets.len() < wanted {
        let any = admitted_set(&mut random);
        let set = match sets.len() % 6 {
            0 => edge_set(&mut random),
            1 => tiny_set(&mut random),
            2 => tight(&mut random, &any),
            _ => any,
        };
        if (analyse(&set).verdict != Verdict::Holds) == missed {
            let bytes = sheet_of(&mut random, &set);
            sets.push((set, bytes));
        }
    }
    assert!(sets.iter().filter(|(set, _)| !set.has_one_deadline_each()).count() > wanted / 5);
    sets
}

#[test]
fn slack_of_sets_that_hold() {
    for (set, bytes) in sets(201, false, 250) {
        let ran = run_with(&["explain", "--json"], &bytes);
        let object = json::object(ran.done(0).trim_end());
        assert_eq!(object.get("version").number(), u64::from(bytes[0] >> 4));
        tasks_agree(&object, &set, &analyse(&set));
        assert_eq!(object.find("demand"), None);
        smallest_slack_agrees(run_with(&["explain"], &bytes).done(0), &object);
    }
}

#[test]
fn demand_of_sets_that_miss() {
    for (set, bytes) in sets(202, true, 350) {
        let ran = run_with(&["explain", "--json"], &bytes);
        let object = json::object(ran.done(1).trim_end());
        let analysis = analyse(&set);
        tasks_agree(&object, &set, &analysis);
        let total = demand_agrees(object.get("demand"), &set, &analysis);
        let text = run_with(&["explain"], &bytes);
        words_agree(text.done(1), &set, &analysis, total);
    }
}

/// Order, numbers, blocking, times and slack of each task.
fn tasks_agree(object: &Value, set: &Set, analysis: &Analysis) {
    assert_eq!(object.get("policy").number(), u64::from(set.policy));
    assert_eq!(object.get("order").numbers(), analysis.order.iter().map(|&task| task as u64).collect::<Vec<_>>());
    assert_eq!(object.get("list").items().len(), set.tasks.len());
    for (number, shown) in object.get("list").items().iter().enumerate() {
        let (task, answer) = (&set.tasks[number], &analysis.answers[number]);
        assert_eq!(shown.get("task").number(), number as u64);
        let fixed = numbers(&[task.period, task.smallest_deadline(), task.lock]);
        assert_eq!(fixed, ["period", "deadline", "lock"].map(|key| shown.get(key).number()));
        assert_eq!([&task.frames, &task.deadlines].map(|list| numbers(list)), ["frames", "deadlines"].map(|key| shown.get(key).numbers()));
        assert_eq!(shown.get("blocking").number(), u64::from(answer.blocking));
        assert_eq!(shown.get("blocker"), &number_or_null(answer.blocker));
        assert_eq!(shown.get("passes"), &Value::Truth(answer.times.is_some()));
        match &answer.times {
            Some(times) => {
                assert_eq!(shown.get("times").numbers(), numbers(times));
                let slack = times.iter().zip(&task.deadlines).map(|(time, deadline)| u64::from(deadline - time));
                assert_eq!(shown.get("slack").numbers(), slack.collect::<Vec<_>>());
            }
            None => assert_eq!((shown.get("times"), shown.get("slack")), (&Value::Null, &Value::Null)),
        }
    }
}

/// The last line has the first of the smallest slacks, in priority order and frame by frame.
fn smallest_slack_agrees(text: &str, object: &Value) {
    let tasks =
        object.get("order").numbers().into_iter().map(|task| (task, object.get("list").items()[task as usize].get("slack").numbers()));
    let all = tasks.flat_map(|(task, slacks)| slacks.into_iter().enumerate().map(move |(frame, slack)| (slack, task, frame)));
    let (slack, task, frame) = all.min_by_key(|all| all.0).expect("a frame");
    let ticks = if slack == 1 { "tick" } else { "ticks" };
    assert!(text.ends_with(&format!("\nThe smallest slack is {slack} {ticks}: task {task}, frame {frame}.\n")), "{text}");
}

/// The terms of the missed task's demand, and their sum, which is returned.
fn demand_agrees(shown: &Value, set: &Set, analysis: &Analysis) -> u64 {
    let Verdict::Missed { task, .. } = analysis.verdict else { panic!("no miss") };
    let answer = &analysis.answers[task];
    let frame = first_frame_without(set, task).expect("a frame without a response time");
    let (own, deadline) = (set.tasks[task].frames[frame], set.tasks[task].deadlines[frame]);
    assert_eq!((shown.get("task").number(), shown.get("frame").number()), (task as u64, frame as u64));
    assert_eq!((shown.get("blocking").number(), shown.get("own").number()), (answer.blocking.into(), own.into()));
    let place = analysis.order.iter().position(|&i| i == task).unwrap();
    let above = &analysis.order[..place];
    assert_eq!(shown.get("higher").items().len(), above.len());
    for (term, &number) in shown.get("higher").items().iter().zip(above) {
        let higher = &set.tasks[number];
        let jobs = deadline.div_ceil(higher.period);
        assert_eq!((term.get("task").number(), term.get("jobs").number()), (number as u64, jobs.into()));
        assert_eq!(term.get("start_frame").number(), start_frame(&higher.frames).unwrap() as u64);
        assert_eq!(term.get("work").number(), Higher::new(higher).work(jobs));
    }
    let above: Vec<Higher> = above.iter().map(|&i| Higher::new(&set.tasks[i])).collect();
    let total = demand(answer.blocking, own, &above, deadline);
    assert_eq!((shown.get("total").number(), shown.get("at").number()), (total, deadline.into()));
    assert_eq!(shown.get("excess").number(), total - u64::from(deadline));
    total
}

/// The same sum in the text, whose terms add up to it, and each task that does not pass is named.
fn words_agree(text: &str, set: &Set, analysis: &Analysis, total: u64) {
    let Verdict::Missed { task, .. } = analysis.verdict else { panic!("no miss") };
    let frame = first_frame_without(set, task).expect("a frame without a response time");
    let deadline = set.tasks[task].deadlines[frame];
    let after = text.split(&format!("  demand of frame {frame} at t = {deadline}, its deadline:\n")).nth(1).expect("the demand's terms");
    let terms: Vec<(u64, &str)> = after
        .lines()
        .take_while(|line| line.starts_with("    "))
        .map(|line| line.trim_start().split_once("  ").expect("a term"))
        .map(|(number, words)| (number.parse().expect("a number"), words))
        .collect();
    let (sum, terms) = terms.split_last().expect("a sum");
    assert_eq!(terms.iter().map(|term| term.0).sum::<u64>(), total);
    assert!(terms.iter().filter(|term| term.1.starts_with("higher task ")).all(|&(work, words)| work_in(words) == work), "{text}");
    let excess = total - u64::from(deadline);
    let ticks = if excess == 1 { "tick" } else { "ticks" };
    assert_eq!((sum.0, sum.1), (total, format!("in all, {excess} {ticks} above the deadline {deadline}").as_str()));
    (0..set.tasks.len()).for_each(|number| task_agrees(text, set, number));
}

/// Of a task that does not pass the first frame without a response time is named; where deadlines differ each is told, then too.
fn task_agrees(text: &str, set: &Set, number: usize) {
    let (task, rest) = (&set.tasks[number], text.split(&format!("\ntask {number}: period ")).nth(1).expect("a task"));
    let said = rest.split("\n\n").next().expect("its lines");
    let named = said.split_once("  does not pass: the demand of its first frame without a response time, ").map(|(_, rest)| rest);
    match first_frame_without(set, number) {
        None => assert_eq!(named, None),
        Some(frame) => {
            let (work, deadline) = (task.frames[frame], task.deadlines[frame]);
            let words = format!("frame {frame} with work {work}, is above t for every t from 1 to its deadline {deadline}\n");
            assert!(named.is_some_and(|rest| rest.starts_with(&words)), "{text}");
        }
    }
    let lines = said.lines().filter(|line| line.starts_with("  frame ") && line.contains(", deadline ")).count();
    assert_eq!(lines, if task.has_one_deadline() { 0 } else { task.frames.len() }, "{text}");
}

/// The work that the words of a higher task add up to.
fn work_in(words: &str) -> u64 {
    let number = |word: &str| word.parse::<u64>().expect("a number");
    if let Some((jobs, work)) = words.split_once("with work ") {
        let count = number(jobs.split(' ').nth(3).expect("jobs"));
        assert_eq!(jobs.ends_with(", each "), count > 1, "{words}");
        return count * number(work);
    }
    let (_, sum) = words.split_once(", going round: ").expect("frames");
    let (rounds, rest) = match sum.split_once(" of ") {
        Some((count, after)) => {
            let (round, rest) = after.split_once(", then ").unwrap_or((after, ""));
            (number(count.split(' ').next().expect("rounds")) * number(round), rest)
        }
        None => (0, sum),
    };
    rounds + rest.split(" + ").filter(|word| !word.is_empty()).map(number).sum::<u64>()
}
