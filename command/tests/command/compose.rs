//! Tables: round trips, and the lines that errors name.
use crate::running::{run, run_with, shipped_one, Folder};
use second::generate::{admitted_set, damaged_lists, edge_set, version_for};
use second::random::Random;
use second::sheet;
use second::task::{Record, MOST_FRAMES};

/// A table in a form of its own: more spaces, comments and blank lines than `show` writes, and the deadline of frame 0 in the column.
fn table(version: Option<u32>, policy: u32, list: &[Record]) -> String {
    let version = version.map_or(String::new(), |version| format!(" version {version}"));
    let mut text = format!("\n{version}# any comment\n policy\t{policy} # by number\r\n\ntask period deadline lock frames\n");
    for (number, record) in list.iter().enumerate() {
        let column = record.deadlines[0];
        let frame = |slot: usize| match (record.frames[slot], record.deadlines[slot]) {
            (time, deadline) if deadline == column => time.to_string(),
            (time, deadline) => format!("{time}/{deadline}"),
        };
        // a count beyond the record's room, as far as a table can say it
        let frames: Vec<String> = (0..record.frame_count as usize).map(|number| frame(number % MOST_FRAMES)).collect();
        text += &format!("  {number} {} {column}\t{} {} # row\r\n\n", record.period, record.lock, frames.join("  "));
    }
    text
}

/// The line of a task in such a table.
fn line_of(task: usize) -> usize {
    6 + 2 * task
}

#[test]
fn a_thousand_sets_there_and_back() {
    let mut random = Random::new(301);
    let mut met = [0; 3];
    for round in 0..1_000 {
        let set = if round % 4 == 0 { edge_set(&mut random) } else { admitted_set(&mut random) };
        let version = version_for(&mut random, &set);
        let expected = sheet::write(version, &set);
        let shown = run_with(&["show"], &expected);
        let composed = run_with(&["compose"], shown.done(0).as_bytes());
        assert_eq!((composed.status, &composed.out), (0, &expected), "{}", shown.text());
        // where version 1 can hold the set, version 2 must be told
        let told = (version == 2 && set.has_one_deadline_each()).then_some(2);
        if round % 5 == 0 {
            let composed = run_with(&["compose", "-"], table(told, set.policy, &set.list()).as_bytes());
            assert_eq!((composed.status, &composed.out), (0, &expected));
            let asked = run_with(&["compose", "--to", &version.to_string()], table(None, set.policy, &set.list()).as_bytes());
            assert_eq!((asked.status, &asked.out), (0, &expected));
        }
        met[if version == 1 { 0 } else { 1 + usize::from(told.is_some()) }] += 1;
    }
    assert!(met.iter().all(|&sets| sets > 50), "{met:?}");
}

/// The other version of each set, asked for in both ways: made where it can hold the set, and else refused at the first task's line.
#[test]
fn the_other_version() {
    let mut random = Random::new(303);
    let (mut made, mut refused) = (0, 0);
    for _ in 0..150 {
        let set = admitted_set(&mut random);
        let text = table(None, set.policy, &set.list());
        for version in [1, 2] {
            let told = run_with(&["compose"], table(Some(version), set.policy, &set.list()).as_bytes());
            let asked = run_with(&["compose", "--to", &version.to_string()], text.as_bytes());
            assert_eq!((told.status, &told.out, &told.err), (asked.status, &asked.out, &asked.err));
            match set.tasks.iter().position(|task| !task.has_one_deadline()) {
                Some(task) if version == 1 => {
                    let [first, other] = unequal(&set.tasks[task].deadlines);
                    let words = format!("-:{}: refused 17: task {task}: {first}, {other}: version 1 has one deadline", line_of(task));
                    assert!(told.failed(2).starts_with(&words), "{words}\n{}", told.err);
                    refused += 1;
                }
                _ => {
                    assert_eq!((told.status, told.out), (0, sheet::write(version, &set)));
                    made += 1;
                }
            }
        }
    }
    assert!(made > 100 && refused > 20, "{made} {refused}");
}

/// Frame 0 and the first frame with another deadline, in words.
fn unequal(deadlines: &[u32]) -> [String; 2] {
    let other = deadlines.iter().position(|&deadline| deadline != deadlines[0]).expect("another deadline");
    [0, other].map(|frame| format!("frame {frame} has deadline {}", deadlines[frame]))
}

#[test]
fn refused_sets_are_named_by_line() {
    let mut random = Random::new(302);
    let mut met = [0u32; 12];
    for round in 0..12 {
        let set = admitted_set(&mut random);
        let lists = damaged_lists(&mut random, &set).into_iter().filter(|d| d.list.iter().all(|record| record.frame_count < 300));
        for (i, damaged) in lists.skip(round % 5).step_by(5).enumerate() {
            // in whichever version: 17 comes behind them all
            let version = [None, Some(1), Some(2)][i % 3];
            let text = table(version, damaged.policy, &damaged.list);
            let (number, task) = (damaged.refusal.number(), damaged.refusal.task());
            let line = match number {
                4 => 3,
                6 if damaged.list.is_empty() => 5,
                6 => line_of(16),
                _ => line_of(task),
            };
            let named = if matches!(number, 7 | 9 | 10 | 11) { format!(" (task {task})") } else { String::new() };
            let ran = run_with(&["compose"], text.as_bytes());
            assert!(ran.failed(2).starts_with(&format!("-:{line}: refused {number}{named}: ")), "{}", ran.err);
            met[number as usize] += 1;
        }
    }
    assert!([4, 6, 7, 9, 10, 11].iter().all(|&number| met[number] > 0), "{met:?}");
}

/// 3 comes before all else, at the line that tells the version; two that differ are no table, whatever stands below.
#[test]
fn versions_that_cannot_be() {
    let text = |head: &str, row: &str| format!("{head}\ntask period deadline lock frames\n{row}\n");
    for (head, line) in [("version 3\npolicy 9", 1), ("policy 9\n\nversion 0", 3), ("version 255\npolicy 0", 1)] {
        let version = head.split("version ").nth(1).unwrap().split('\n').next().unwrap();
        let words = format!("-:{line}: refused 3: version {version}: only versions 1 and 2 are known");
        assert!(run_with(&["compose"], text(head, "0 5 6 7 9").as_bytes()).failed(2).starts_with(&words), "{head}");
    }
    for (told, asked, row) in [(1, 2, "0 5 5 0 1"), (2, 1, "0 5 - 0 1/5 1/4"), (2, 1, "0 5 6 7 9")] {
        let ran = run_with(&["compose", "--to", &asked.to_string()], text(&format!("policy 0\nversion {told}"), row).as_bytes());
        let words = format!("-:2: the table tells version {told}, and --to {asked} was given: take one of them away\n");
        assert_eq!(ran.failed(3), words);
        let same = run_with(&["compose", "--to", &told.to_string()], text(&format!("policy 0\nversion {told}"), row).as_bytes());
        assert_eq!(same.status, if row.contains('6') { 2 } else { 0 }, "{}", same.err);
    }
}

#[test]
fn bad_lines_name_file_line_and_field() {
    let folder = Folder::new("bad-lines");
    let start = "policy listed\ntask period deadline lock frames\n";
    let cases = [
        (String::new(), 1, "no line `policy"),
        ("policy\n".to_string(), 1, "a table starts with `policy`"),
        ("policy fast\n".to_string(), 1, "no policy `fast`"),
        ("policy listed\n\n0 5 5 0 1\n".to_string(), 3, "the column names"),
        ("policy listed\ntask deadline period lock frames\n".to_string(), 2, "the column names"),
        (format!("{start}1 5 5 0 1\n"), 3, "task 0 must stand here, not task 1"),
        (format!("{start}0 5 5 0 1\n0 5 5 0 1\n"), 4, "task 1 must stand here, not task 0"),
        (format!("{start}0 5 5\n"), 3, "a row has the task's number, period, deadline, lock and 1 to 8 frames"),
        (format!("{start}0 -5 5 0 1\n"), 3, "period `-5` is no number"),
        (format!("{start}0 5 5e3 0 1\n"), 3, "deadline `5e3` is no number"),
        (format!("{start}0 5 5 0x1 1\n"), 3, "lock `0x1` is no number"),
        (format!("{start}0 5 5 0 1 1,000\n"), 3, "frame 1 `1,000` is no number"),
        (format!("{start}0 5 5 0 4294967296\n"), 3, "frame 0 `4294967296` is far too large: no number of a set is above 1048575"),
        (format!("{start}0 5 5 0 010\n"), 3, "frame 0 `010` starts with 0"),
        (format!("{start}0 5 5 0 \u{1b}[2J\n"), 3, "frame 0 `\\u{1b}[2J` is no number"),
        ("version 2\n".to_string(), 2, "the table has no line `policy ...`"),
        ("Version 2\npolicy 0\n".to_string(), 1, "a line `version` and its number may stand before it or behind it"),
        ("version 99999999999\npolicy 0\n".to_string(), 1, "version `99999999999`: 1 or 2 must follow `version`"),
        ("version 2 1\npolicy 0\n".to_string(), 1, "`version` and its number must stand here: 1 or 2"),
        ("version 2\npolicy 0\nversion 2\n".to_string(), 3, "the version stands there twice"),
        (format!("{start}0 5 - 0 1/5 1\n"), 3, "frame 1 has no deadline: write it as time/deadline, or write a deadline in the column"),
        (format!("{start}0 5 5 0 1/5 1/4\n"), 3, "deadline 5 is that of no frame, since each has its own: write `-` in its column"),
        (format!("{start}0 5 - 0 1/\n"), 3, "frame 0 `1/` lacks a number beside its slash: time/deadline is allowed, or the time alone"),
        (format!("{start}0 5 - 0 1/5/5\n"), 3, "deadline of frame 0 `5/5` is no number"),
    ];
    for (text, line, words) in cases {
        let path = folder.file("t.table", text.as_bytes());
        let ran = run(&["compose".as_ref(), path.as_os_str()]);
        let message = ran.failed(3);
        assert!(message.starts_with(&format!("{}:{line}: ", path.display())) && message.contains(words), "{text:?}: {message}");
    }
}

/// The help's two examples compose as they are printed: they are case F and the set of `o.sheet`, whose version may be left out.
#[test]
fn the_examples_of_the_help() {
    let help = run(&["help", "compose"]);
    let lines: Vec<&str> = help.done(0).lines().filter(|line| line.starts_with("  ")).collect();
    assert_eq!(lines.len(), 10, "{lines:?}");
    for (lines, case) in [(&lines[..5], "f"), (&lines[5..], "o"), (&lines[6..], "o")] {
        let composed = run_with(&["compose"], lines.join("\n").as_bytes());
        assert_eq!((composed.status, composed.out), (0, std::fs::read(shipped_one(case)).unwrap()), "{}", composed.err);
    }
}

#[test]
fn sheets_and_endless_files_are_no_tables() {
    assert!(run(&["compose", &shipped_one("f")]).failed(3).contains(":1: "));
    assert!(run(&["compose", "/dev/zero"]).failed(3).contains("/dev/zero: more than 1048576 bytes"));
    assert!(run(&["compose", "no-such-table"]).failed(3).contains("no-such-table: No such file"));
}
