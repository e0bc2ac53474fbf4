//! A deadline for each frame: in tables, words, plays and pictures.
use crate::json;
use crate::running::{run, run_with, shell, shipped_one, Folder, ROOT};
use crate::runs::made;
use second::generate::Draft;
use second::task::{Set, Task};
use std::path::Path;

const N: &str = "-: missed, 2 tasks: task 1 misses, no blocker
Times are ticks; tasks and frames count from 0.
Policy 0, listed: task 0 has the highest priority, then task 1 and so on.
The tasks, highest priority first:

task 0: period 5, deadline 5, lock 0
  blocking 0: no lower task has a lock of 2 or more
  frame 0: work 2, response time 2, slack 3

task 1: period 10, lock 0
  frame 0: work 3, deadline 6
  frame 1: work 3, deadline 4
  does not pass: the demand of its first frame without a response time, frame 1 with work 3, is above t for every t from 1 to its deadline 4
  demand of frame 1 at t = 4, its deadline:
    0  blocking: no task is lower
    3  own frame 1
    2  higher task 0: 1 job in 4 ticks (period 5), with work 2
    5  in all, 1 tick above the deadline 4

Task 1 is the first in priority order that does not pass; it has no blocker.
Every other task passes.
";

const O: &str = "-: holds, 2 tasks
Times are ticks; tasks and frames count from 0.
Policy 2, deadline-monotonic: the shorter deadline has the higher priority, of a task's deadlines the smallest; of equal ones the lower task number.
The tasks, highest priority first:

task 0: period 20, lock 0
  blocking 2: task 1, which is lower, has lock 3; less 1
  frame 0: work 4, deadline 10, response time 6, slack 4
  frame 1: work 2, deadline 5, response time 4, slack 1

task 1: period 12, deadline 7, lock 3
  blocking 0: no task is lower
  frame 0: work 3, response time 7, slack 0

The smallest slack is 0 ticks: task 1, frame 0.
";

fn shipped_bytes(case: &str) -> Vec<u8> {
    std::fs::read(shipped_one(case)).unwrap()
}

#[test]
fn explanations_word_for_word() {
    assert_eq!(run_with(&["explain"], &shipped_bytes("n")).done(1), N);
    assert_eq!(run_with(&["explain"], &shipped_bytes("o")).done(0), O);
    assert_eq!(run_with(&["report"], &shipped_bytes("n")).done(1), "missed 2 1 -\n0 5 5 0 2\n1 10 4 0 missed\n");
    assert_eq!(run_with(&["report"], &shipped_bytes("o")).done(0), "holds 2\n0 20 5 2 6 4\n1 12 7 0 7\n");
    // of a task that is not the one named the demand is told in one sum, at its own frame's deadline
    let passed_over = "policy 0\ntask period deadline lock frames\n0 4 4 0 3\n1 8 4 0 2\n2 20 - 0 4/20 4/12\n";
    let text = run_with(&["explain"], &run_with(&["compose"], passed_over.as_bytes()).out);
    let lines = "\ntask 2: period 20, lock 0\n  blocking 0: no task is lower\n  frame 0: work 4, deadline 20\n  frame 1: work 4, deadline 12\n  does \
                 not pass: the demand of its first frame without a response time, frame 0 with work 4, is above t for every t from 1 to its \
                 deadline 20\n  demand of frame 0 at its deadline: 25, which is 5 ticks above the deadline 20\n";
    assert!(text.done(1).contains(lines), "{}", text.text());
}

/// The set of N holds with a tick more for the short frame; that of O misses with its smallest deadline for every frame.
#[test]
fn one_tick_decides() {
    let changed = |case: &str, from: &str, to: &str| {
        let shown = run_with(&["show"], &shipped_bytes(case)).text().to_string();
        assert!(shown.contains(from), "{shown}");
        run_with(&["report"], &run_with(&["compose"], shown.replace(from, to).as_bytes()).out)
    };
    assert_eq!(changed("n", "3/6 3/4", "3/6 3/5").done(0), "holds 2\n0 5 5 0 2\n1 10 5 0 5 5\n");
    assert_eq!(changed("n", "3/6 3/4", "3/4 3/6").done(1), "missed 2 1 -\n0 5 5 0 2\n1 10 4 0 missed\n");
    assert_eq!(changed("o", "4/10 2/5", "4/5 2/5").done(1), "missed 2 0 1\n0 20 5 2 missed\n1 12 7 0 7\n");
    assert_eq!(changed("o", "4/10 2/5", "4/6 2/5").done(0), "holds 2\n0 20 5 2 6 4\n1 12 7 0 7\n");
    // by its largest deadline task 0 of O would be the lower one; here it is
    assert_eq!(changed("o", "4/10 2/5", "4/10 2/8").done(0), "holds 2\n1 12 7 0 3\n0 20 8 0 7 5\n");
}

const TABLE: &str = "# burrbeech task table. Times are ticks; tasks and frames count from 0.
version 2   # a frame may have a deadline of its own, as time/deadline
policy deadline-monotonic   # or: listed, rate-monotonic; compose also takes 0, 1, 2
task  period  deadline  lock  frames
0         20         -     0  4/10 2/5
1         12         7     3     3
";

#[test]
fn the_table_word_for_word() {
    assert_eq!(run(&["show", &shipped_one("o")]).done(0), TABLE);
    assert_eq!(run_with(&["compose"], TABLE.as_bytes()).out, shipped_bytes("o"));
    // without the line this set is made in version 2 all the same
    assert_eq!(run_with(&["compose"], TABLE.replace("version 2", "# ").as_bytes()).out, shipped_bytes("o"));
}

/// A draft of version 2 with a task of one deadline, and one of three.
fn draft(change: impl FnOnce(&mut Draft)) -> Vec<u8> {
    let own = Task { period: 30, lock: 2, frames: vec![6, 5, 4], deadlines: vec![20, 10, 15] };
    let mut draft = Draft::of(2, &Set { policy: 0, tasks: vec![Task::with_one_deadline(10, 4, 0, &[2]), own] });
    change(&mut draft);
    draft.bytes()
}

const REFUSED: &str = "refused 9 (task 1): a task out of range or not well formed
# What can be read of the refused sheet; an arrow marks the fault. Times are ticks; tasks and frames count from 0.
# length 35 bytes
# check word CHECK
version 2
policy listed
# task count 2
# spare bits 00000
task  period  deadline  lock  frames
0         10         4     0     2
1         30         -     2  6/20 5/10 4/31   # <== deadline 31 of frame 2 is above the period 30
# after 2 records: no bit
";

/// A refused sheet is shown with its version as a line, so that it stays in it when it is mended.
#[test]
fn a_refused_sheet_is_shown_and_mended() {
    let bytes = draft(|draft| draft.tasks[1].deadlines[2] = 31);
    let word = format!("{:02X}{:02X}", bytes[bytes.len() - 2], bytes[bytes.len() - 1]);
    let shown = run_with(&["show"], &bytes);
    assert_eq!(shown.done(2), REFUSED.replace("CHECK", &word));
    let mended = |change: fn(String) -> String| {
        let (_, rest) = shown.text().split_once('\n').unwrap();
        let marked = rest.lines().map(|line| line.split("   # <== ").next().unwrap().to_string() + "\n").collect::<String>();
        run_with(&["compose"], change(marked).as_bytes())
    };
    assert!(mended(|text| text).failed(2).starts_with("-:10: refused 9 (task 1): deadline 31 of frame 2 is above the period 30"));
    assert_eq!(mended(|text| text.replace("4/31", "4/15")).out, draft(|_| {}));
    let one = mended(|text| text.replace("6/20 5/10 4/31", "6/20 5/20 4/20"));
    assert_eq!((one.status, one.out[0] >> 4), (0, 2), "{}", one.err);
}

/// What is cut off or cannot be read is told by the layout of version 2.
#[test]
fn refused_sheets_as_far_as_they_can_be_read() {
    let shown = |change: fn(&mut Draft)| run_with(&["show"], &draft(change)).done(2).to_string();
    let text = shown(|draft| draft.tasks[1].frame_count = 4);
    let fault = "task 1: the record runs past the check word: 160 bits for 4 frames, 120 are there";
    assert!(
        text.ends_with(&format!("\n1         30         -     2  6/20 5/10 4/15   # <== {fault}\n# the last record is cut off\n")),
        "{text}"
    );
    let text = shown(|draft| draft.tasks[0].frame_count = 0);
    assert!(text.contains("\n0         10         -     0   # <== frame count 0: 1 to 8 are allowed\n"), "{text}");
    let text = shown(|draft| draft.count = 3);
    let fault = "task 2: the record runs past the check word: 44 bits for its fixed part, 0 are there";
    assert!(text.ends_with(&format!("\n# after 2 records: 0 bits, too few for the next record   # <== {fault}\n")), "{text}");
    let text = shown(|draft| draft.version = 3);
    assert!(text.contains("\n# version 3   # <== version 3: only versions 1 and 2 are known\npolicy listed\n"), "{text}");
    // half of a frame is none: the last time stands there without its deadline
    let cut = draft(|draft| draft.tasks[1].frame_count = 3);
    let cut = second::check_word::sealed(&cut[..cut.len() - 2 - 3]);
    let object = json::object(run_with(&["show", "--json"], &cut).done(2).trim_end());
    assert_eq!((object.get("refusal").number(), object.get("version").number()), (8, 2));
    let last = &object.get("list").items()[1];
    assert_eq!((last.get("frames").numbers(), last.get("deadlines").numbers()), (vec![6, 5], vec![20, 10]));
    assert_eq!((last.get("deadline").number(), last.get("frame_count").number()), (10, 3));
}

/// In JSON a record without a frame has the deadline of its field in version 1, and none in version 2.
#[test]
fn a_record_without_a_frame() {
    let set = Set { policy: 0, tasks: vec![Task::with_one_deadline(10, 4, 0, &[2])] };
    for (version, deadline, row) in [(1, json::Value::Number(4), "4"), (2, json::Value::Null, "-")] {
        let mut draft = Draft::of(version, &set);
        (draft.tasks[0].frame_count, draft.surplus) = (0, vec![0; 2]);
        let object = json::object(run_with(&["show", "--json"], &draft.bytes()).done(2).trim_end());
        assert_eq!((object.get("refusal").number(), object.get("list").items()[0].get("deadline")), (7, &deadline));
        let shown = run_with(&["show"], &draft.bytes());
        assert!(shown.done(2).contains(&format!("\n0         10         {row}     0   # <== frame count 0")), "{}", shown.text());
    }
}

const PLAYED: &str = "scripts/o-both-frames.script: no job misses; all 4 jobs are done at 25, the end of tick 24
Times are ticks; tasks and frames count from 0.
The sheet, sheets/o.sheet: holds, 2 tasks

The tasks, highest priority first:
task 0: 2 jobs, all done; the longest took 6 ticks (released at 1, frame 0; response time 6)
task 1: 2 jobs, all done; the longest took 3 ticks (released at 0, frame 0; response time 7)

All 25 ticks, highest priority first: x runs, L starts a locked stretch, = goes on in it, . waits, ! misses

tick    0         10        20
        01234567890123456789012345
task 0   ..xxxx              ..xx
task 1  L==                 L==
";

const MISSED: &str = "scripts/n-worst.script: task 1 misses at 5, the end of tick 4
Times are ticks; tasks and frames count from 0.
The sheet, sheets/n.sheet: missed, 2 tasks: task 1 misses, no blocker
The job that misses: task 1, released at 1, frame 1, due at 1 + 4 = 5; of its work, 3 ticks, 1 is left then.

The tasks, highest priority first:
task 0: 1 job, done; it took 2 ticks (released at 1, frame 0; response time 2)
task 1: 1 job, not done
";

#[test]
fn plays_word_for_word() {
    let played = |line: &str| shell(Path::new(ROOT), &format!("\"$0\" play {line}"));
    assert_eq!(played("sheets/o.sheet scripts/o-both-frames.script --last 60").done(0), PLAYED);
    assert_eq!(played("sheets/n.sheet scripts/n-worst.script").done(1), MISSED);
    // with frame 0 first, whose deadline is longer, the same releases end well; the next job, of frame 1, misses
    let folder = made("frames-in-turn", "0 5 5 0 2\n1 10 - 0 3/6 3/4\n", "0 0", "0 1 2 0\n1 1 3 0\n0 11 2 0\n1 11 3 0\n");
    let ran = shell(&folder.0, "\"$0\" play s r --last 60");
    assert!(ran.done(1).starts_with("r: task 1 misses at 15, the end of tick 14\n"), "{}", ran.text());
    assert!(ran
        .text()
        .contains("The job that misses: task 1, released at 11, frame 1, due at 11 + 4 = 15; of its work, 3 ticks, 1 is left then."));
    let longest = "task 1: 2 jobs, 1 done; it took 5 ticks (released at 1, frame 0; deadline 6, the task does not pass)\n";
    assert!(ran.text().contains(longest), "{}", ran.text());
    let object = json::object(shell(&folder.0, "\"$0\" play s r --json").done(1).trim_end());
    assert_eq!(["released", "frame", "due", "left"].map(|key| object.get(key).number()), [11, 1, 15, 1]);
}

/// Two tasks that miss at one moment by deadlines that are not their tasks' smallest.
#[test]
fn a_second_miss_by_its_own_frame() {
    let tasks = "0 10 9 0 6\n1 30 - 0 4/8 5/6\n2 30 - 0 3/7 3/8\n";
    let folder = made("two-own-deadlines", tasks, "0 0 1", "0 1 6 0\n1 1 4 0\n2 1 3 0\n");
    let ran = shell(&folder.0, "\"$0\" play s r");
    let text = ran.done(1);
    assert!(
        text.contains("The job that misses: task 1, released at 1, frame 0, due at 1 + 8 = 9; of its work, 4 ticks, 2 are left then.\n"),
        "{text}"
    );
    assert!(text.contains("Task 2 misses at the same moment, by the script and the ticks: released at 1, frame 1, due at 1 + 8 = 9; of its work, 3 ticks, 3 are left then.\n"), "{text}");
    let object = json::object(shell(&folder.0, "\"$0\" play s r --json").done(1).trim_end());
    assert_eq!((object.get("due").number(), object.get("also").items()[0].get("due").number()), (9, 9));
}

/// The worst run of a frame ends at its own deadline, be an earlier frame's longer or its own the longest.
#[test]
fn worst_runs_of_a_frame() {
    let folder = Folder::new("worst-frames");
    for (frames, frame, end) in [("3/6 3/4", 1, 5), ("3/4 3/6", 0, 5), ("3/6 3/5 3/4 3/4", 2, 5), ("5/8 3/9", 0, 9)] {
        folder.file("t", format!("policy 0\ntask period deadline lock frames\n0 5 5 0 2\n1 10 - 0 {frames}\n").as_bytes());
        let ran = shell(&folder.0, "\"$0\" compose t -o s && \"$0\" worst s -o r");
        let words =
            format!("The worst run of task 1, frame {frame}, the first without a response time: released at 1, it misses at {end}, ");
        assert!(ran.done(1).contains(&words), "{frames}: {}", ran.text());
        assert!(shell(&folder.0, "\"$0\" play s r").done(1).starts_with(&format!("r: task 1 misses at {end}, ")));
    }
}

/// The label has the range, the arrows down stand at each job's own deadline.
#[test]
fn pictures() {
    let ran = shell(Path::new(ROOT), "\"$0\" draw sheets/o.sheet scripts/o-both-frames.script");
    assert_eq!(ran.status, 0, "{}", ran.err);
    let picture = ran.text();
    for words in [">T 20  Q 0<", ">D 5 to 10 by frame<", ">T 12  D 7  Q 3<", ">Where D is by frame, an arrow down", ">frame 1<"] {
        assert!(picture.contains(words), "{words}");
    }
    // 40 pixels a tick from 190 on, an arrow 1.25 to the left of its moment: due at 11, and at 26, which is not shown any more
    assert_eq!(picture.matches("M628.75 122V154").count(), 1, "{picture}");
    let n = shell(Path::new(ROOT), "\"$0\" draw sheets/n.sheet");
    assert!(
        n.text().contains("frame 1, due at 1 + 4 = 5")
            && n.text().contains(">D 4 to 6 by frame<")
            && n.text().contains(">task 1 misses at 5<")
    );
    let g = shell(Path::new(ROOT), "\"$0\" draw sheets/g.sheet");
    assert!(!g.text().contains("by frame"));
}

fn paper(name: &str) -> String {
    std::fs::read_to_string(format!("{ROOT}/{name}")).unwrap()
}

fn indented(lines: &str) -> String {
    lines.lines().map(|line| format!("    {line}\n")).collect()
}

/// What the papers print of N and O is what the command prints.
#[test]
fn the_words_of_the_papers() {
    let readme = paper("README.md");
    assert!(readme.contains(&indented(TABLE)));
    let task = O.split("\n\n").nth(1).expect("task 0");
    assert!(task.starts_with("task 0: ") && readme.contains(&indented(task)), "{task}");
    let refused = shell(Path::new(ROOT), "\"$0\" convert --to 1 sheets/o.sheet");
    assert!(readme.contains(&indented(refused.failed(2))), "{}", refused.err);
    let lanes = |ran: &crate::running::Ran| {
        let lines: Vec<&str> = ran.text().lines().collect();
        indented(&lines[lines.len() - 4..].join("\n"))
    };
    let played = |line: &str| shell(Path::new(ROOT), &format!("\"$0\" play {line} --last 60"));
    for line in ["sheets/o.sheet scripts/o-both-frames.script", "sheets/n.sheet scripts/n-worst.script"] {
        assert!(paper("docs/SHEET.md").contains(&lanes(&played(line))), "{}", played(line).text());
    }
    let folder = made("frames-of-the-paper", "0 5 5 0 2\n1 10 - 0 3/6 3/4\n", "0 0", "0 1 2 0\n1 1 3 0\n0 11 2 0\n1 11 3 0\n");
    let text = shell(&folder.0, "\"$0\" script show s r").text().split_once('\n').unwrap().1.to_string();
    let ran = shell(&folder.0, "\"$0\" play s r --last 60");
    assert!(paper("docs/SCRIPT.md").contains(&format!("{}\n{}", indented(&text), lanes(&ran))), "{text}{}", ran.text());
}

/// The bytes that docs/SHEET.md shows of both shipped sheets, and those of its examples that are refused, are what it says.
#[test]
fn the_bytes_of_the_paper() {
    let paper = paper("docs/SHEET.md");
    let converted = run_with(&["convert", "--to", "2"], &shipped_bytes("m")).out;
    for bytes in ["f", "m", "n", "o"].map(shipped_bytes).iter().chain([&converted]) {
        let hex: Vec<String> = bytes.iter().map(|byte| format!("{byte:02X}")).collect();
        assert!(paper.contains(&hex.join(" ")), "{}", hex.join(" "));
    }
    let rows: Vec<Vec<&str>> = paper.lines().map(|line| line.split('|').map(str::trim).collect()).collect();
    let is_hex = |cell: &str| cell.len() > 20 && cell.split(' ').all(|byte| byte.len() == 2 && u8::from_str_radix(byte, 16).is_ok());
    let mut number = "";
    let mut tried = 0;
    for row in rows.iter().filter(|row| row.len() == 6 && is_hex(row[4])) {
        number = if row[1].is_empty() { number } else { row[1] };
        let example: Vec<u8> = row[4].split(' ').map(|byte| u8::from_str_radix(byte, 16).unwrap()).collect();
        let ran = match row[3].ends_with(", to version 1") {
            true => run_with(&["convert", "--to", "1"], &example),
            false => run_with(&["check"], &example),
        };
        let said = format!("{}{}", ran.text(), ran.err);
        assert!([": ", " ("].iter().any(|next| said.starts_with(&format!("-: refused {number}{next}"))), "{row:?}: {said}");
        tried += 1;
    }
    assert_eq!(tried, 21);
}
