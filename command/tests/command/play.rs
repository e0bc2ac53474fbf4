//! `play`: every end of a run, in words, as lanes and as an object.
use crate::json::{self, number_or_null, Value};
use crate::running::{run, run_with, shell, shipped_one, shipped_script, Folder, ROOT};
use crate::runs::{broken, busy_set, kept, made, seen, two_misses, Seen};
use second::check_word;
use second::generate::sheet_of;
use second::random::Random;
use second::runs::{Complete, Job};
use second::scripts::{self, Script};
use second::task::Set;
use std::path::Path;

const MISSED: &str = "scripts/g-worst.script: task 0 misses at 5, the end of tick 4
Times are ticks; tasks and frames count from 0.
The sheet, sheets/g.sheet: missed, 2 tasks: task 0 misses, blocker 1
The job that misses: task 0, released at 1, frame 0, due at 1 + 4 = 5; of its work, 2 ticks, 1 is left then.

The tasks, highest priority first:
task 0: 1 job, not done
task 1: 1 job, done; it took 4 ticks (released at 0, frame 0; response time 7)
";

const DONE: &str = "scripts/two-locks.script: no job misses; all 3 jobs are done at 12, the end of tick 11
Times are ticks; tasks and frames count from 0.
The sheet, scripts/two-locks.sheet: holds, 2 tasks

The tasks, highest priority first:
task 0: 2 jobs, all done; the longest took 4 ticks (released at 2, frame 0; response time 5)
task 1: 1 job, done; it took 10 ticks (released at 0, frame 0; response time 12)

The last 11 ticks, highest priority first: x runs, L starts a locked stretch, = goes on in it, . waits, ! misses

tick    1        10
        123456789012
task 0   .L=L    L=
task 1  ==...L==L
";

const LANES: &str = "
All 5 ticks, highest priority first: x runs, L starts a locked stretch, = goes on in it, . waits, ! misses

tick    0
        012345
task 0   ...x!
task 1  L===
";

#[test]
fn the_shipped_scripts_word_for_word() {
    let played = |line: &str| shell(Path::new(ROOT), &format!("\"$0\" play {line}"));
    assert_eq!(played("sheets/g.sheet scripts/g-worst.script").done(1), MISSED);
    assert_eq!(played("sheets/g.sheet scripts/g-worst.script --last 5").done(1), format!("{MISSED}{LANES}"));
    assert_eq!(played("--last 1000 sheets/g.sheet scripts/g-worst.script").done(1), format!("{MISSED}{LANES}"));
    assert_eq!(played("sheets/g.sheet scripts/g-worst.script --last 0").done(1), MISSED);
    assert_eq!(played("--last 11 scripts/two-locks.sheet scripts/two-locks.script").done(0), DONE);
    assert!(played("sheets/f.sheet - < scripts/f-exactly-4.script").done(0).contains("task 0: 1 job, done; it took 4 ticks ("));
    assert!(played("- scripts/g-worst.script < sheets/g.sheet").done(1).contains("The sheet, -: missed"));
}

/// Every tick of a long run is shown where it is asked for.
#[test]
fn lanes_of_a_long_run() {
    let folder = made("play-long", "0 70000 70000 0 1\n", "0", "0 66000 1 0\n");
    for last in ["66001", "4294967295"] {
        let ran = shell(&folder.0, &format!("\"$0\" play s r --last {last}"));
        let lane = ran.done(0).lines().last().unwrap();
        assert_eq!((lane.len(), lane.ends_with('x')), ("task 0  ".len() + 66_001, true));
    }
    assert!(shell(&folder.0, "\"$0\" play s r --last 4294967296").failed(3).contains("--last 4294967296 is more than any run has ticks"));
}

#[test]
fn a_script_without_a_job_and_one_without_work() {
    let folder = Folder::new("no-job");
    for (entries, line) in [
        ("", "empty.script: no job is released, and so none misses"),
        ("0 0 0 0\n", "empty.script: no job misses; the one job is done at 0, before any tick"),
        ("0 7 0 0\n", "empty.script: no job misses; the one job is done at 7, the end of tick 6"),
    ] {
        folder.file("t", format!("first-frames 0 0\ntask tick work lock\n{entries}").as_bytes());
        let sheet = shipped_one("f");
        assert_eq!(shell(&folder.0, &format!("\"$0\" script compose '{sheet}' t -o empty.script")).done(0), "");
        let ran = shell(&folder.0, &format!("\"$0\" play '{sheet}' empty.script --last 60"));
        assert_eq!(ran.done(0).lines().next(), Some(line));
    }
}

#[test]
fn the_object_word_for_word() {
    let json = |line: &str, status| shell(Path::new(ROOT), &format!("\"$0\" play --json {line}")).done(status).to_string();
    assert_eq!(
        json("sheets/g.sheet scripts/g-worst.script", 1),
        "{\"file\":\"scripts/g-worst.script\",\"sheet\":\"sheets/g.sheet\",\"verdict\":\"missed\",\"tasks\":2,\"tick\":5,\"task\":0,\"released\":1,\
         \"frame\":0,\"due\":5,\"work\":2,\"left\":1,\"also\":[],\"jobs\":2,\"order\":[0,1],\"list\":[{\"task\":0,\"jobs\":1,\"done\":0,\"longest\":null},\
         {\"task\":1,\"jobs\":1,\"done\":1,\"longest\":{\"ticks\":4,\"released\":0,\"frame\":0}}]}\n"
    );
    let done = json::object(json("sheets/f.sheet scripts/f-exactly-4.script", 0).trim_end());
    assert_eq!(done.keys(), ["file", "sheet", "verdict", "tasks", "tick", "task", "jobs", "order", "list"]);
    assert_eq!((done.get("verdict").text(), done.get("tick").number(), done.get("task")), ("done", 7, &Value::Null));
    let refused = json::object(json("sheets/f.sheet scripts/g-worst.script", 2).trim_end());
    assert_eq!(refused.keys(), ["file", "sheet", "verdict", "refusal", "item", "words", "fault", "advice"]);
    assert_eq!((refused.get("refusal").number(), refused.get("item").number()), (14, 2));
    let whole = json::object(json("sheets/j.sheet scripts/g-worst.script", 2).trim_end());
    assert_eq!((whole.get("refusal").number(), whole.get("item")), (13, &Value::Null));
    assert!(whole.get("advice").text().starts_with("It would be one for a sheet of 2 tasks"));
    let sheet = json::object(json("sheets/i.sheet scripts/g-worst.script", 2).trim_end());
    assert_eq!((sheet.get("file").text(), sheet.get("refusal").number()), ("sheets/i.sheet", 11));
}

#[test]
fn what_cannot_be_read() {
    let root = Path::new(ROOT);
    for (line, message) in [
        ("sheets/g.sheet no-such-script", "no-such-script: No such file"),
        ("no-such-sheet scripts/g-worst.script", "no-such-sheet: No such file"),
        ("sheets/g.sheet scripts", "scripts: Is a directory"),
        ("sheets/g.sheet - <&-", "standard input: it is closed"),
    ] {
        for verb in ["play", "script show"] {
            let ran = shell(root, &format!("\"$0\" {verb} {line}"));
            assert!(ran.failed(3).contains(message), "{verb} {line}: {}", ran.err);
            let ran = shell(root, &format!("\"$0\" {verb} --json {line}"));
            let object = json::object(ran.text().trim_end());
            assert_eq!((ran.status, object.keys()), (3, vec!["file", "sheet", "verdict", "error"]));
            assert!(object.get("error").text().contains(message));
        }
    }
    let ran = shell(root, "cat sheets/g.sheet | \"$0\" play /dev/stdin -");
    assert!(ran.failed(3).contains("this pipe was read already"));
}

/// The jobs that took longest, the first of each task.
fn longest(complete: &[Complete], task: usize) -> Value {
    let mut jobs: Vec<&Complete> = complete.iter().filter(|job| job.task == task).collect();
    jobs.sort_by_key(|job| job.release);
    match jobs.iter().map(|job| job.took).max() {
        None => Value::Null,
        Some(most) => {
            let job = jobs.iter().find(|job| job.took == most).expect("the longest");
            let field = |name: &str, number: u64| (name.to_string(), Value::Number(number));
            Value::Object(vec![field("ticks", most), field("released", job.release), field("frame", job.frame as u64)])
        }
    }
}

/// A job that misses beside the one that the play names.
fn also(set: &Set, script: &Script, job: &Job) -> Value {
    let entry = script.entries.iter().find(|entry| (u64::from(entry.tick), entry.task as usize) == (job.release, job.task));
    let fields = [
        ("task", job.task as u64),
        ("released", job.release),
        ("frame", job.frame as u64),
        ("due", job.release + u64::from(set.tasks[job.task].deadlines[job.frame])),
        ("work", entry.expect("its entry").work.into()),
        ("left", job.left.into()),
    ];
    Value::Object(fields.map(|(name, number)| (name.to_string(), Value::Number(number))).into())
}

/// The lane of a task, of the last 70 ticks at most, shows what each of them had, and whether it misses.
fn lane_shows(text: &str, set: &Set, seen: &Seen, task: usize) {
    let (end, from) = (seen.ticks.len(), seen.ticks.len().saturating_sub(70));
    let is_lane = |line: &&str| line.strip_prefix("task ").is_some_and(|rest| rest.split(' ').next() == Some(&task.to_string()));
    let lane = text.lines().rev().find(is_lane).expect("a lane").as_bytes();
    let width = if set.tasks.len() > 10 { 9 } else { 8 };
    let sign = |tick: usize| lane.get(width + tick - from).copied().unwrap_or(b' ');
    for (tick, &(running, runs)) in seen.ticks.iter().enumerate().skip(from) {
        match running == Some(task) {
            true => assert_eq!(sign(tick), runs, "{text}"),
            false => assert!(matches!(sign(tick), b' ' | b'.'), "{text}"),
        }
    }
    assert_eq!(sign(end) == b'!', seen.missed.iter().any(|job| job.task == task), "{text}");
}

/// Compared with the second reading: how each run ends, when, whose miss it is, and what became of the jobs.
#[test]
fn random_runs() {
    let mut random = Random::new(501);
    let folder = Folder::new("random-runs");
    let (mut missed, mut done) = (0, 0);
    for _ in 0..400 {
        let set = busy_set(&mut random);
        let entries = random.below(40) as usize;
        let script = kept(&mut random, &set, entries);
        let (sheet_bytes, bytes) = (sheet_of(&mut random, &set), scripts::write(&script));
        let expected = scripts::play_sheet(&sheet_bytes, &bytes).expect("a script that keeps the rules");
        folder.file("s", &sheet_bytes);
        folder.file("r", &bytes);
        let ran = shell(&folder.0, "\"$0\" play --json s r");
        let object = json::object(ran.done(expected.missed.is_some().into()).trim_end());
        assert_eq!(object.get("tick").number(), expected.tick);
        assert_eq!(object.get("task"), &number_or_null(expected.missed));
        for (task, tally) in object.get("list").items().iter().enumerate() {
            assert_eq!(tally.get("longest"), &longest(&expected.complete, task));
        }
        let seen = seen(&set, &script);
        if let Some((_, others)) = seen.missed.split_first() {
            let also: Vec<Value> = others.iter().map(|job| also(&set, &script, job)).collect();
            assert_eq!(object.get("also"), &Value::Array(also));
        }
        let ran = shell(&folder.0, "\"$0\" play s r --last 70");
        (0..set.tasks.len()).filter(|_| !seen.ticks.is_empty()).for_each(|task| lane_shows(ran.text(), &set, &seen, task));
        *(if expected.missed.is_some() { &mut missed } else { &mut done }) += 1;
    }
    println!("400 random runs: {missed} miss, {done} are done");
    assert!(missed >= 40 && done >= 40);
}

const TWO_MISS: &str = "r: task 1 misses at 8, the end of tick 7
Times are ticks; tasks and frames count from 0.
The sheet, s: missed, 4 tasks: task 0 misses, blocker 3
The job that misses: task 1, released at 2, frame 0, due at 2 + 6 = 8; of its work, 5 ticks, 2 are left then.
Task 2 misses at the same moment, by the script and the ticks: released at 2, frame 0, due at 2 + 6 = 8; of its work, 4 ticks, 4 are left then.

The tasks, highest priority first:
task 0: 1 job, done; it took 5 ticks (released at 3, frame 0; deadline 5, the task does not pass)
task 1: 1 job, not done
task 2: 1 job, not done
task 3: 1 job, not done

All 8 ticks, highest priority first: x runs, L starts a locked stretch, = goes on in it, . waits, ! misses

tick    0
        012345678
task 0     ..xxx
task 1    L==...!
task 2    ......!
task 3  L=......
";

/// The play names the lower task; the other is told behind it.
#[test]
fn a_second_miss_at_the_same_moment() {
    let folder = two_misses("two-misses");
    assert_eq!(shell(&folder.0, "\"$0\" play s r --last 60").done(1), TWO_MISS);
    let object = shell(&folder.0, "\"$0\" play s r --json");
    let object = json::object(object.done(1).trim_end());
    assert_eq!((object.get("task").number(), object.get("also").items().len()), (1, 1));
    assert_eq!(object.get("also").items()[0].get("task").number(), 2);
}

/// 14 of every item in every way: the number, the item and the rule.
#[test]
fn refused_items() {
    let mut random = Random::new(502);
    let folder = Folder::new("refused-items");
    let mut met = std::collections::BTreeMap::new();
    for _ in 0..25 {
        let set = busy_set(&mut random);
        let script = kept(&mut random, &set, 6);
        let sheet_bytes = sheet_of(&mut random, &set);
        folder.file("s", &sheet_bytes);
        for broken in broken(&set, &script) {
            let bytes = scripts::write(&broken.script);
            let expected = scripts::play_sheet(&sheet_bytes, &bytes).expect_err("a broken rule");
            assert_eq!(expected, second::refusal::Refusal::Item(broken.item));
            folder.file("r", &bytes);
            let ran = shell(&folder.0, "\"$0\" play s r");
            let first = format!("r: refused 14 (item {}): a first frame or an entry of the script out of range", broken.item);
            assert!(ran.done(2).starts_with(&first), "{}", ran.text());
            assert!(ran.text().contains(broken.words), "{}: {}", broken.words, ran.text());
            *met.entry(broken.words).or_insert(0) += 1;
        }
    }
    println!("{met:?}");
    assert!(met.len() == 7 && met.values().all(|&count| count >= 20), "{met:?}");
}

/// A first frame says itself which one it is, an entry is told by its number too.
#[test]
fn refused_items_word_for_word() {
    let folder = Folder::new("refused-words");
    let first = "a first frame or an entry of the script out of range, out of order or against a run rule";
    for (item, first_frame, lock, words) in [
        (0, 1, 0, "first frame 1 of task 0: it has 1 frame, 0 is allowed"),
        (2, 0, 4, "item 2, which is entry 0: lock 4 is 1 tick above the lock 3 of task 1"),
    ] {
        let entries = vec![scripts::Entry { task: 1, tick: 0, work: 4, lock }];
        folder.file("r", &scripts::write(&Script { first_frames: vec![first_frame, 0], entries }));
        let ran = shell(&folder.0, &format!("\"$0\" play '{}' r", shipped_one("f")));
        assert_eq!(ran.done(2), format!("r: refused 14 (item {item}): {first}\n{words}\n"));
    }
}

/// Of what is longer than every script no more is read than shows it.
#[test]
fn a_script_without_end() {
    let words = "length 134217734 bytes or more: a script for 2 tasks whose count says 0 entries has 6";
    let ran = run(&["play", &shipped_one("g"), "/dev/zero"]);
    assert!(ran.done(2).contains(words), "{}", ran.text());
    let ran = run(&["script", "show", &shipped_one("g"), "/dev/zero"]);
    assert!(ran.done(2).contains(&format!("# length 134217734 bytes or more   # <== {words}\n")), "{}", ran.text());
    assert!(ran.text().contains("# check word not read\n"), "{}", ran.text());
}

/// 13: each way, beside every sheet that it can be about; a script with a wrong check word is never played.
#[test]
fn refused_as_a_whole() {
    let folder = Folder::new("refused-whole");
    let good = std::fs::read(shipped_script("g-worst")).unwrap();
    folder.file("s", &std::fs::read(shipped_one("g")).unwrap());
    let play = |bytes: &[u8]| {
        folder.file("r", bytes);
        shell(&folder.0, "\"$0\" play s r")
    };
    for bit in 0..8 * good.len() {
        let mut bytes = good.clone();
        bytes[bit / 8] ^= 0x80 >> (bit % 8);
        let ran = play(&bytes);
        assert!(ran.done(2).starts_with("r: refused 13: ") && ran.text().contains("the check word is "), "{}", ran.text());
    }
    for length in 0..good.len() {
        let ran = play(&good[..length]);
        assert!(ran.done(2).starts_with("r: refused 13: "), "{length}: {}", ran.text());
        let words = match length {
            0 => "the input is empty, 0 bytes: a script for 2 tasks has at least 6",
            1..6 => ": a script for 2 tasks has at least 6",
            _ => "the check word is ",
        };
        assert!(ran.text().contains(words), "{length}: {}", ran.text());
    }
    // a right check word over a wrong length, and over a fill that is not 0
    let sealed = |body: &[u8]| check_word::sealed(body);
    let ran = play(&sealed(&[&good[..20], &[0]].concat()));
    assert!(ran.done(2).contains("\nlength 23 bytes: a script for 2 tasks whose count says 2 entries has 22\n"), "{}", ran.text());
    let one = Script { first_frames: vec![0], entries: Vec::new() };
    let mut body = scripts::write(&one);
    body.truncate(body.len() - 2);
    *body.last_mut().unwrap() |= 1;
    folder.file("one", &std::fs::read(shipped_one("m")).unwrap());
    folder.file("r", &sealed(&body));
    let ran = shell(&folder.0, "\"$0\" play one r");
    assert!(ran.done(2).contains("\nfill bits 0001 after the last entry: they must be 0\n"), "{}", ran.text());
    assert!(play(b"first-frames 0 0\n").done(2).contains("This is text, not a script"));
}

/// Sheet and script in the wrong order: what was meant for the script reads as a sheet, and that is said.
#[test]
fn swapped_files_are_told() {
    let root = Path::new(ROOT);
    let hint = "sheets/g.sheet reads as a sheet: the sheet is given first, then the script.";
    let swapped = "scripts/g-worst.script sheets/g.sheet";
    let text = "scripts/g-worst.script: refused 3: version neither 1 nor 2, or not the converter's\n";
    for line in [format!("play {swapped}"), format!("script show {swapped}"), format!("draw {swapped} -o /dev/null")] {
        let ran = shell(root, &format!("\"$0\" {line}"));
        assert!(ran.done(2).starts_with(text) && ran.text().ends_with(&format!(" {hint}\n")), "{}", ran.text());
    }
    for verb in ["play", "script show"] {
        let object = shell(root, &format!("\"$0\" {verb} --json {swapped}"));
        assert!(json::object(object.done(2).trim_end()).get("advice").text().ends_with(hint));
    }
    let ran = shell(root, "\"$0\" script compose scripts/g-worst.text sheets/g.sheet");
    assert!(ran.failed(2).ends_with("\nsheets/g.sheet reads as a sheet: the sheet is given first, then the text.\n"), "{}", ran.err);
    let ran = shell(root, "\"$0\" play sheets/g.sheet sheets/f.sheet");
    assert!(ran.done(2).ends_with("\nIt reads as a sheet, and a script is asked for.\n"), "{}", ran.text());
    // nothing is read that could keep the user waiting, and no hint is made up
    let ran = shell(root, "sleep 5 | timeout 4 \"$0\" script compose sheets/i.sheet -");
    let why = "sheets/i.sheet: refused 11 (task 0): not accumulatively monotonic\ntask 0: frames 1 2 3 have no start frame: ";
    assert!(ran.failed(2).starts_with(why) && !ran.err.contains("reads as a sheet"), "{}", ran.err);
    assert!(!shell(root, "\"$0\" play scripts/g-worst.script sheets/i.sheet").done(2).contains("reads as a sheet"));
}

/// The sheet's own refusal comes first, whatever the script is.
#[test]
fn a_refused_sheet_comes_first() {
    for script in [shipped_script("g-worst"), shipped_one("i"), "/dev/null".to_string()] {
        let ran = run(&["play", &shipped_one("i"), &script]);
        assert!(ran.done(2).contains("i.sheet: refused 11 (task 0): not accumulatively monotonic\ntask 0: frames 1 2 3 have no start"));
        let ran = run_with(&["play", "-", &script], b"no sheet");
        assert!(ran.done(2).starts_with("-: refused 1: "));
    }
}
