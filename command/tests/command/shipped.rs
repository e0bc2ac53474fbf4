//! Every verb on every shipped sheet.
use crate::json::{self, Value};
use crate::running::{run, run_with, shell, shipped, shipped_one, ROOT};
use second::analysis::{analyse, Verdict};
use second::{report, sheet};
use std::path::Path;

/// The status that a sheet's answer has.
pub fn status_of(bytes: &[u8]) -> i32 {
    match sheet::read(bytes).map(|set| analyse(&set).verdict) {
        Ok(Verdict::Holds) => 0,
        Ok(Verdict::Missed { .. }) => 1,
        Err(_) => 2,
    }
}

const CHECKED: &str = "sheets/a.sheet: holds, 3 tasks
sheets/b.sheet: holds, 2 tasks
sheets/c.sheet: holds, 2 tasks
sheets/d.sheet: missed, 2 tasks: task 1 misses, no blocker
sheets/e.sheet: holds, 2 tasks
sheets/f.sheet: holds, 2 tasks
sheets/g.sheet: missed, 2 tasks: task 0 misses, blocker 1
sheets/h.sheet: holds, 2 tasks
sheets/i.sheet: refused 11 (task 0): not accumulatively monotonic
sheets/j.sheet: holds, 1 task
sheets/k.sheet: holds, 2 tasks
sheets/l1.sheet: holds, 2 tasks
sheets/l2.sheet: holds, 2 tasks
sheets/m.sheet: holds, 1 task
sheets/n.sheet: missed, 2 tasks: task 1 misses, no blocker
sheets/o.sheet: holds, 2 tasks
16 sheets: 12 hold, 3 missed, 1 refused
";

#[test]
fn all_are_checked_with_totals() {
    let root = Path::new(ROOT);
    let all = "sheets/[a-k].sheet sheets/l1.sheet sheets/l2.sheet sheets/[m-o].sheet";
    assert_eq!(shell(root, &format!("\"$0\" check {all}")).done(2), CHECKED);
    let quiet: String =
        CHECKED.lines().filter(|line| line.contains("missed, ") || line.contains(": refused ")).map(|l| format!("{l}\n")).collect();
    let quiet = quiet.replace(CHECKED.lines().last().unwrap(), "").trim_end().to_string() + "\n";
    assert_eq!(shell(root, &format!("\"$0\" check -q {all}")).done(2), quiet);
}

#[test]
fn the_worst_decides() {
    let [holds, missed, refused] = ["f", "g", "i"].map(shipped_one);
    let check = |names: &[&String]| {
        let words: Vec<&str> = ["check"].into_iter().chain(names.iter().map(|name| name.as_str())).collect();
        run(&words).status
    };
    assert_eq!(check(&[&holds]), 0);
    assert_eq!(check(&[&missed, &holds]), 1);
    assert_eq!(check(&[&missed, &refused, &holds]), 2);
    assert_eq!(check(&[&refused, &"no-such-file".to_string(), &holds]), 3);
}

#[test]
fn reports_are_the_scopes() {
    for path in shipped() {
        let bytes = std::fs::read(&path).unwrap();
        let expected = report::report(&bytes);
        assert_eq!(run(&["report".as_ref(), path.as_os_str()]).done(status_of(&bytes)), expected);
        assert_eq!(run_with(&["report"], &bytes).done(status_of(&bytes)), expected);
    }
    assert_eq!(run(&["report", &shipped_one("f")]).done(0), "holds 2\n0 10 4 2 4\n1 20 20 0 7\n");
}

#[test]
fn explanations_start_with_the_verdict() {
    for path in shipped() {
        let bytes = std::fs::read(&path).unwrap();
        let checked = run(&["check".as_ref(), path.as_os_str()]);
        let explained = run(&["explain".as_ref(), path.as_os_str()]);
        let text = explained.done(status_of(&bytes));
        assert_eq!(text.lines().next(), checked.text().lines().next());
        assert!(text.lines().count() > 1);
    }
}

const MISSED: &str = "-: missed, 2 tasks: task 0 misses, blocker 1
Times are ticks; tasks and frames count from 0.
Policy 0, listed: task 0 has the highest priority, then task 1 and so on.
The tasks, highest priority first:

task 0: period 10, deadline 4, lock 0
  does not pass: the demand of its first frame without a response time, frame 0 with work 2, is above t for every t from 1 to its deadline 4
  demand of frame 0 at t = 4, its deadline:
    3  blocking: task 1, which is lower, has lock 4; less 1
    2  own frame 0
    5  in all, 1 tick above the deadline 4

task 1: period 20, deadline 20, lock 4
  blocking 0: no task is lower
  frame 0: work 5, response time 7, slack 13

Task 0 is the first in priority order that does not pass; its blocker is task 1.
Every other task passes.
";

const HOLDS: &str = "-: holds, 2 tasks
Times are ticks; tasks and frames count from 0.
Policy 0, listed: task 0 has the highest priority, then task 1 and so on.
The tasks, highest priority first:

task 0: period 10, deadline 4, lock 0
  blocking 2: task 1, which is lower, has lock 3; less 1
  frame 0: work 2, response time 4, slack 0

task 1: period 20, deadline 20, lock 3
  blocking 0: no task is lower
  frame 0: work 5, response time 7, slack 13

The smallest slack is 0 ticks: task 0, frame 0.
";

#[test]
fn explanations_word_for_word() {
    assert_eq!(run_with(&["explain"], &std::fs::read(shipped_one("g")).unwrap()).done(1), MISSED);
    assert_eq!(run_with(&["explain", "-"], &std::fs::read(shipped_one("f")).unwrap()).done(0), HOLDS);
}

#[test]
fn tables_compose_to_the_same_bytes() {
    for path in shipped() {
        let bytes = std::fs::read(&path).unwrap();
        let shown = run(&["show".as_ref(), path.as_os_str()]);
        match status_of(&bytes) {
            2 => assert!(shown.done(2).starts_with("refused ")),
            _ => assert_eq!(run_with(&["compose"], shown.done(0).as_bytes()).out, bytes),
        }
    }
}

const TABLE: &str = "# burrbeech task table. Times are ticks; tasks and frames count from 0.
policy listed   # or: rate-monotonic, deadline-monotonic; compose also takes 0, 1, 2
task  period  deadline  lock  frames
0         10         4     0  2
1         20        20     3  5
";

#[test]
fn the_table_word_for_word() {
    assert_eq!(run(&["show", &shipped_one("f")]).done(0), TABLE);
}

const REFUSED: &str = "refused 11 (task 0): not accumulatively monotonic
# What can be read of the refused sheet; an arrow marks the fault. Times are ticks; tasks and frames count from 0.
# length 20 bytes
# check word B05E
# version 1
policy listed
# task count 1
# spare bits 00000
task  period  deadline  lock  frames
0         10        10     0  1 2 3   # <== frames 1 2 3 have no start frame: the largest is frame 2 (3 ticks); two frames from it on, going round, make 3 + 1 = 4, two from frame 1 on make 2 + 3 = 5
# after 1 record: fill bits 0000
";

/// It is no table until its first line and the mark are deleted, and then the writer judges it.
#[test]
fn a_refused_sheet_is_shown_and_not_composed() {
    assert_eq!(run(&["show", &shipped_one("i")]).done(2), REFUSED);
    assert!(run_with(&["compose"], REFUSED.as_bytes()).failed(3).starts_with("-:1: "));
    let (_, rest) = REFUSED.split_once('\n').unwrap();
    assert!(run_with(&["compose"], rest.as_bytes()).failed(3).starts_with("-:9: this line has the mark "));
    let (start, end) = (rest.split(" # <== ").next().unwrap(), "\n# after 1 record: fill bits 0000\n");
    let unmended = format!("{start}{end}");
    assert!(run_with(&["compose"], unmended.as_bytes()).failed(2).starts_with("-:9: refused 11 (task 0): frames 1 2 3 "));
    assert_eq!(run_with(&["compose"], unmended.replace("1 2 3 ", "3 2 1 ").as_bytes()).status, 0);
}

#[test]
fn json_of_every_verb() {
    for path in shipped() {
        let bytes = std::fs::read(&path).unwrap();
        let status = status_of(&bytes);
        for verb in ["check", "explain", "show"] {
            let ran = run(&[verb.as_ref(), "--json".as_ref(), path.as_os_str()]);
            let objects = json::lines(ran.done(if (verb, status) == ("show", 1) { 0 } else { status }));
            assert_eq!(objects.len(), 1);
            assert_eq!(objects[0].get("file").text(), path.to_str().unwrap());
        }
    }
}

/// The fields that are documented, in their order.
#[test]
fn json_word_for_word() {
    let json = |verb: &str, case: &str| run_with(&[verb, "--json"], &std::fs::read(shipped_one(case)).unwrap()).text().to_string();
    assert_eq!(json("check", "f"), "{\"file\":\"-\",\"verdict\":\"holds\",\"tasks\":2,\"version\":1}\n");
    assert_eq!(json("check", "o"), "{\"file\":\"-\",\"verdict\":\"holds\",\"tasks\":2,\"version\":2}\n");
    assert_eq!(json("check", "g"), "{\"file\":\"-\",\"verdict\":\"missed\",\"tasks\":2,\"task\":0,\"blocker\":1,\"version\":1}\n");
    assert_eq!(json("check", "n"), "{\"file\":\"-\",\"verdict\":\"missed\",\"tasks\":2,\"task\":1,\"blocker\":null,\"version\":2}\n");
    let refused = json::object(json("check", "i").trim_end());
    assert_eq!(refused.keys(), ["file", "verdict", "refusal", "task", "reason", "words"]);
    assert_eq!((refused.get("refusal"), refused.get("task")), (&Value::Number(11), &Value::Number(0)));
    let missed = json::object(json("explain", "g").trim_end());
    assert_eq!(
        missed.keys(),
        ["file", "verdict", "tasks", "task", "blocker", "version", "policy", "policy_name", "order", "list", "demand"]
    );
    let shown = json::object(json("show", "f").trim_end());
    assert_eq!(shown.keys(), ["file", "admitted", "tasks", "version", "policy", "policy_name", "list"]);
    assert_eq!(
        json("show", "o"),
        "{\"file\":\"-\",\"admitted\":true,\"tasks\":2,\"version\":2,\"policy\":2,\"policy_name\":\"deadline-monotonic\",\"list\":[{\"task\":0,\
         \"period\":20,\"deadline\":5,\"lock\":0,\"frames\":[4,2],\"deadlines\":[10,5]},{\"task\":1,\"period\":12,\"deadline\":7,\"lock\":3,\
         \"frames\":[3],\"deadlines\":[7]}]}\n"
    );
}
