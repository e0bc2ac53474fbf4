//! `script compose` and `script show`: round trips, and the lines that errors name.
use crate::json;
use crate::running::{run, run_with, shell, shipped_one, shipped_script, Folder, ROOT};
use crate::runs::{broken, busy_set, kept, text};
use second::generate::sheet_of;
use second::random::Random;
use second::scripts::{self, Script};
use second::{check_word, sheet};
use std::path::Path;

/// Each shipped script with the sheet that it is for.
const SHIPPED: [(&str, &str); 5] = [
    ("g-worst", "sheets/g.sheet"),
    ("f-exactly-4", "sheets/f.sheet"),
    ("two-locks", "scripts/two-locks.sheet"),
    ("n-worst", "sheets/n.sheet"),
    ("o-both-frames", "sheets/o.sheet"),
];

/// No shipped script or sheet is made by hand: each is composed from the text beside it.
#[test]
fn the_shipped_scripts_are_composed() {
    let root = Path::new(ROOT);
    for (name, sheet) in SHIPPED {
        let bytes = std::fs::read(shipped_script(name)).unwrap();
        assert_eq!(shell(root, &format!("\"$0\" script compose {sheet} scripts/{name}.text")).out, bytes, "{name}");
        let shown = shell(root, &format!("\"$0\" script show {sheet} scripts/{name}.script"));
        assert_eq!(shell(root, &format!("\"$0\" script show {sheet} scripts/{name}.script | \"$0\" script compose {sheet} -")).out, bytes);
        assert!(shown.done(0).starts_with("# burrbeech run script for 2 tasks."));
    }
    assert_eq!(shell(root, "\"$0\" compose scripts/two-locks.table").out, std::fs::read(root.join("scripts/two-locks.sheet")).unwrap());
    for case in ["g", "n"] {
        let worst = shell(root, &format!("\"$0\" worst sheets/{case}.sheet 2>/dev/null")).out;
        assert_eq!(worst, std::fs::read(shipped_script(&format!("{case}-worst"))).unwrap(), "{case}");
    }
    let mut names: Vec<String> = SHIPPED.iter().flat_map(|(name, _)| [format!("{name}.script"), format!("{name}.text")]).collect();
    names.extend(["two-locks.sheet".to_string(), "two-locks.table".to_string()]);
    names.sort();
    let there = std::fs::read_dir(root.join("scripts")).unwrap().map(|entry| entry.unwrap().file_name().into_string().unwrap());
    let mut there: Vec<String> = there.collect();
    there.sort();
    assert_eq!(there, names);
}

const SHOWN: &str = "# burrbeech run script for 2 tasks. Times are ticks; tasks and frames count from 0.
first-frames 0 0
task  tick  work  lock
1        0     4     4
0        1     2     0
";

#[test]
fn a_script_word_for_word() {
    let (sheet, script) = (shipped_one("g"), shipped_script("g-worst"));
    assert_eq!(run(&["script", "show", &sheet, &script]).done(0), SHOWN);
    let object = run(&["script", "show", "--json", &sheet, &script]);
    let object = json::object(object.done(0).trim_end());
    assert_eq!(object.keys(), ["file", "sheet", "admitted", "tasks", "first_frames", "entries", "list"]);
    assert_eq!(object.get("list").items()[0].keys(), ["task", "tick", "work", "lock"]);
}

const REFUSED: &str = "refused 14 (item 2): a first frame or an entry of the script out of range, out of order or against a run rule
# What can be read of the refused script; an arrow marks the fault. Times are ticks; tasks and frames count from 0.
# length 22 bytes
# check word EF2A
# count: 2 entries
first-frames 0 0
task  tick  work  lock
1        0     4     4   # <== lock 4 is 1 tick above the lock 3 of task 1
0        1     2     0
";

/// It is no text until its first line and the mark are deleted, and then the library judges it.
#[test]
fn a_refused_script_is_shown_and_not_composed() {
    let sheet = shipped_one("f");
    assert_eq!(run(&["script", "show", &sheet, &shipped_script("g-worst")]).done(2), REFUSED);
    let compose = |text: &str| run_with(&["script", "compose", &sheet, "-"], text.as_bytes());
    assert!(compose(REFUSED).failed(3).starts_with("-:1: this is what `script show` says of a refused script"));
    let (_, rest) = REFUSED.split_once('\n').unwrap();
    assert!(compose(rest).failed(3).starts_with("-:7: this line has the mark "));
    let unmended = rest.replace("   # <== lock 4 is 1 tick above the lock 3 of task 1", "");
    assert_eq!(compose(&unmended).failed(2), "-:7: refused 14 (item 2): lock 4 is 1 tick above the lock 3 of task 1\n");
    assert_eq!(compose(&unmended.replace("4     4", "4     3")).status, 0);
    let whole = run(&["script", "show", &shipped_one("j"), &shipped_script("g-worst")]);
    assert!(whole.done(2).starts_with("refused 13: ") && whole.text().contains("<== length 22 bytes: a script for 1 task"));
    assert!(run(&["script", "show", &sheet, "/dev/null"]).done(2).contains("# length 0 bytes   # <== the input is empty"));
    assert!(run(&["script", "show", &shipped_one("i"), "/dev/null"]).done(2).contains("i.sheet: refused 11 (task 0)"));
}

/// Each way to be refused by 13 is marked where it is: the length, the check word, or the fill behind the last entry.
#[test]
fn what_is_wrong_with_the_whole_is_marked() {
    let folder = Folder::new("scripts-whole");
    let shown = |sheet: &str, bytes: &[u8]| {
        folder.file("r", bytes);
        let ran = shell(&folder.0, &format!("\"$0\" script show '{}' r", shipped_one(sheet)));
        let marked: Vec<String> = ran.done(2).lines().filter(|line| line.contains("<==")).map(str::to_string).collect();
        assert!(ran.text().starts_with("refused 13: "), "{}", ran.text());
        marked
    };
    let good = std::fs::read(shipped_script("g-worst")).unwrap();
    let changed = [&good[..9], &[good[9] ^ 0x10], &good[10..]].concat();
    let sealed = check_word::sealed(&changed[..20]);
    let word = format!("the check word is EF2A, the bytes before it give {:02X}{:02X}", sealed[20], sealed[21]);
    assert_eq!(shown("g", &changed), [format!("# check word EF2A   # <== {word}")]);
    let length = "# length 23 bytes   # <== length 23 bytes: a script for 2 tasks whose count says 2 entries has 22";
    let surplus = "surplus 1 byte   # <== the count says 2 entries, the bytes go on behind";
    assert_eq!(shown("g", &check_word::sealed(&[&good[..20], &[0]].concat())), [length, surplus]);
    let one = scripts::write(&Script { first_frames: vec![0], entries: Vec::new() });
    let filled = [&one[..3], &[one[3] | 1]].concat();
    let fill = "# fill bits 0001   # <== fill bits 0001 after the last entry: they must be 0";
    assert_eq!(shown("m", &check_word::sealed(&filled)), [fill]);
    let both = shown("g", &good[..20]);
    assert!(both.len() == 3 && both[0].starts_with("# length 20 bytes   # <== ") && both[1].starts_with("# check word "), "{both:?}");
    assert_eq!(both[2], "missing 1 entry   # <== the count says 2 entries, the bytes have 1");
}

/// Entries that were cut off, or that the count leaves out, are not dropped unawares, even where first line and marks are deleted.
#[test]
fn a_script_of_another_length_is_not_composed() {
    let folder = Folder::new("scripts-cut");
    let good = std::fs::read(shipped_script("g-worst")).unwrap();
    let counting = |count: u8| check_word::sealed(&[&[0, 0, 0, count], &good[4..20]].concat());
    for (bytes, line, words) in [
        (good[..20].to_vec(), 9, "entries that a refused script has not: write them, "),
        (counting(1), 9, "bytes that a refused script has behind the entries of its count: write the entries that they are, if any, "),
        (counting(0), 8, "bytes that a refused script has behind"),
    ] {
        folder.file("r", &bytes);
        let run = format!(
            "\"$0\" script show '{0}' r | sed -e 1d -e 's/ *# <==.*//' > t && \"$0\" script compose '{0}' t -o out",
            shipped_one("g")
        );
        let said = shell(&folder.0, &run).failed(3).to_string();
        assert!(said.contains(&format!("t:{line}: this is what `script show` says of {words}")), "{said}");
        assert!(!folder.0.join("out").exists());
    }
}

#[test]
fn hundreds_of_scripts_there_and_back() {
    let mut random = Random::new(504);
    let folder = Folder::new("scripts-round");
    for round in 0..300 {
        let set = busy_set(&mut random);
        let entries = random.below(30) as usize;
        let script = kept(&mut random, &set, entries);
        let bytes = scripts::write(&script);
        folder.file("s", &sheet_of(&mut random, &set));
        folder.file("r", &bytes);
        let ran = shell(&folder.0, "\"$0\" script show s r > t && \"$0\" script compose s t");
        assert_eq!((ran.status, &ran.out, ran.err.as_str()), (0, &bytes, ""));
        if round % 4 == 0 {
            folder.file("t", text(&script).0.as_bytes());
            assert_eq!(shell(&folder.0, "\"$0\" script compose s t").out, bytes);
        }
    }
}

/// A script of a hundred thousand entries goes through in no time.
#[test]
fn a_long_script() {
    let mut random = Random::new(505);
    let folder = Folder::new("scripts-long");
    let table = "policy 0\ntask period deadline lock frames\n0 10 10 2 3\n1 21 20 0 4 2\n2 33 30 3 6\n";
    folder.file("table", table.as_bytes());
    assert_eq!(shell(&folder.0, "\"$0\" compose table -o s").done(0), "");
    let set = sheet::read(&std::fs::read(folder.0.join("s")).unwrap()).unwrap();
    let script: Script = kept(&mut random, &set, 100_000);
    let bytes = scripts::write(&script);
    folder.file("r", &bytes);
    let started = std::time::Instant::now();
    let ran = shell(
        &folder.0,
        "\"$0\" script show s r > t && \"$0\" script compose s t -o u && cmp r u && \"$0\" play s r && \"$0\" draw s r -o p",
    );
    println!("{} entries shown, composed, played and drawn in {:?}", script.entries.len(), started.elapsed());
    assert_eq!((ran.status, ran.err.as_str()), (0, ""));
}

#[test]
fn refused_texts_are_named_by_line() {
    let mut random = Random::new(506);
    let folder = Folder::new("scripts-lines");
    for _ in 0..12 {
        let set = busy_set(&mut random);
        let script = kept(&mut random, &set, 5);
        folder.file("s", &sheet_of(&mut random, &set));
        for broken in broken(&set, &script) {
            let (text, line_of) = text(&broken.script);
            folder.file("t", text.as_bytes());
            let ran = shell(&folder.0, "\"$0\" script compose s t -o r");
            let start = format!("t:{}: refused 14 (item {}): ", line_of(broken.item), broken.item);
            assert!(ran.failed(2).starts_with(&start) && ran.err.contains(broken.words), "{}: {}", broken.words, ran.err);
            assert_eq!(folder.names(), ["s", "t"]);
        }
    }
}

/// The rule with its numbers.
#[test]
fn rules_word_for_word() {
    let compose = |case: &str, text: &str| run_with(&["script", "compose", &shipped_one(case), "-"], text.as_bytes()).failed(2).to_string();
    let of_f = |first_frames: &str, entries: &str| compose("f", &format!("first-frames {first_frames}\ntask tick work lock\n{entries}"));
    assert_eq!(of_f("0 1", ""), "-:1: refused 14 (item 1): first frame 1 of task 1: it has 1 frame, 0 is allowed\n");
    assert_eq!(of_f("0 0", "2 0 0 0\n"), "-:3: refused 14 (item 2): task 2: the sheet has 2 tasks, 0 to 1 are allowed\n");
    assert_eq!(
        of_f("0 0", "0 1 2 0\n0 8 2 0\n"),
        "-:4: refused 14 (item 3): tick 8 is 3 ticks too early for task 0: it was released at 1 (item 2), its period is 10, and it may be \
         released again at 11\n"
    );
    // the tick at which it may be released again is none that a script can say
    assert_eq!(
        of_f("0 0", "0 1048570 2 0\n0 1048575 2 0\n"),
        "-:4: refused 14 (item 3): tick 1048575 is 5 ticks too early for task 0: it was released at 1048570 (item 2), its period is 10, and \
         it can be released no more: no tick after 1048575 can be written in a script\n"
    );
    assert!(of_f("0 0", "0 1048565 2 0\n0 1048570 2 0\n").ends_with("and it may be released again at 1048575\n"));
    assert_eq!(
        of_f("0 0", "0 1 2 0\n0 11 3 0\n"),
        "-:4: refused 14 (item 3): work 3 is 1 tick above the frame of task 0: its job 1 takes frame 0, with 2 ticks\n"
    );
    assert_eq!(
        of_f("0 0", "0 1 2 1\n"),
        "-:3: refused 14 (item 2): lock 1 is 1 tick above the lock 0 of task 0. A lock of 1 locks nothing, and above a lock of 0 it is out of \
         range all the same: write 0.\n"
    );
    assert_eq!(
        of_f("0 0", "1 5 0 0\n0 3 0 0\n"),
        "-:4: refused 14 (item 3): tick 3, task 0 stands behind tick 5, task 1: entries go by tick, then by task number\n"
    );
    assert_eq!(
        of_f("0 0", "1 5 0 0\n1 5 0 0\n"),
        "-:4: refused 14 (item 3): tick 5, task 1 stands there twice: a task is released once in a tick at most\n"
    );
    // the second job of case K's task 0, from frame 3 on, takes frame 0
    assert_eq!(
        compose("k", "first-frames 3 0\ntask tick work lock\n0 0 2 0\n0 4 4 0\n"),
        "-:4: refused 14 (item 3): work 4 is 1 tick above the frame of task 0: its job 1 takes frame 0, with 3 ticks\n"
    );
}

#[test]
fn bad_lines_name_file_line_and_field() {
    let folder = Folder::new("scripts-bad");
    let sheet = shipped_one("f");
    let start = "first-frames 0 0\ntask tick work lock\n";
    let cases = [
        (String::new(), 1, "there is no line `first-frames ...`"),
        (
            "policy listed\n".to_string(),
            1,
            "a script starts with `first-frames` and a number for each task of the sheet, which has 2 tasks",
        ),
        ("first-frames 0\n".to_string(), 1, "1 number here: `first-frames` and a number for each task"),
        ("first-frames 0 16\n".to_string(), 1, "task 1: first frame 16 has no room in a script: 15 is the largest"),
        ("first-frames 0 99999999999\n".to_string(), 1, "task 1: first frame `99999999999` has no room in a script: 15 is the largest"),
        ("first-frames 0 0\n".to_string(), 2, "there is no line `task tick work lock`"),
        ("first-frames 0 0\n0 1 2 0\n".to_string(), 2, "the column names `task tick work lock` must stand here"),
        (format!("{start}0 1 2\n"), 3, "3 words here: an entry has four, task, tick, work, lock"),
        (format!("{start}0 1 2 0 0\n"), 3, "5 words here"),
        (format!("{start}16 1 2 0\n"), 3, "task 16 has no room in a script: 15 is the largest"),
        (format!("{start}0 1048576 2 0\n"), 3, "tick 1048576 has no room in a script: 1048575 is the largest"),
        (format!("{start}0 4294967296 2 0\n"), 3, "tick `4294967296` has no room in a script: 1048575 is the largest"),
        (format!("{start}0 1 1048576 0\n"), 3, "work 1048576 has no room"),
        (format!("{start}0 1 2 1048576\n"), 3, "lock 1048576 has no room"),
        (format!("{start}0 -1 2 0\n"), 3, "tick `-1` is no number"),
        (format!("{start}0 1 2 0x1\n"), 3, "lock `0x1` is no number"),
    ];
    for (text, line, words) in cases {
        let path = folder.file("t", text.as_bytes());
        let ran = run(&["script".as_ref(), "compose".as_ref(), sheet.as_ref(), path.as_os_str()]);
        let message = ran.failed(3);
        assert!(message.starts_with(&format!("{}:{line}: ", path.display())) && message.contains(words), "{text:?}: {message}");
    }
    assert!(run(&["script", "compose", &shipped_one("i"), "/dev/null"]).failed(2).contains("i.sheet: refused 11 (task 0)"));
    assert!(run(&["script", "compose", &sheet, "no-such-text"]).failed(3).contains("no-such-text: No such file"));
}

/// The help's example composes as it is printed: it is the worst run of case G.
#[test]
fn the_example_of_the_help() {
    let help = run(&["help", "script", "compose"]);
    let lines: Vec<&str> = help.done(0).lines().filter(|line| line.starts_with("  ")).collect();
    assert_eq!(lines.len(), 5, "{lines:?}");
    let composed = run_with(&["script", "compose", &shipped_one("g"), "-"], lines.join("\n").as_bytes());
    assert_eq!((composed.status, composed.out), (0, std::fs::read(shipped_script("g-worst")).unwrap()), "{}", composed.err);
}

/// The bytes that docs/SCRIPT.md shows are the shipped script; each of its examples is refused as it says.
#[test]
fn the_bytes_of_the_paper() {
    let paper = std::fs::read_to_string(format!("{ROOT}/docs/SCRIPT.md")).unwrap();
    let bytes = std::fs::read(shipped_script("g-worst")).unwrap();
    let hex: Vec<String> = bytes.iter().map(|byte| format!("{byte:02X}")).collect();
    assert!(paper.contains(&hex.join(" ")), "{}", hex.join(" "));
    let rows: Vec<Vec<&str>> = paper.lines().map(|line| line.split('|').map(str::trim).collect()).collect();
    let examples: Vec<&Vec<&str>> = rows.iter().filter(|row| row.len() == 7 && matches!(row[1], "13" | "14")).collect();
    assert_eq!(examples.len(), 8);
    for row in examples {
        let example: Vec<u8> = row[5].split(' ').map(|byte| u8::from_str_radix(byte, 16).unwrap()).collect();
        let ran = run_with(&["play", &shipped_one("g"), "-"], &example);
        let item = if row[2].is_empty() { String::new() } else { format!(" (item {})", row[2]) };
        assert!(ran.done(2).starts_with(&format!("-: refused {}{item}: ", row[1])), "{row:?}: {}", ran.text());
    }
}

/// The lanes of case F and case G in docs/SHEET.md, and of G in docs/SCRIPT.md, are those of the shipped scripts.
#[test]
fn the_lanes_of_the_papers() {
    let lanes = |sheet: &str, script: &str, status| {
        let played = shell(Path::new(ROOT), &format!("\"$0\" play {sheet} {script} --last 60"));
        let lines: Vec<String> = played.done(status).lines().rev().take(4).map(|line| format!("    {line}\n")).collect();
        lines.into_iter().rev().collect::<String>()
    };
    let (f, g) = (lanes("sheets/f.sheet", "scripts/f-exactly-4.script", 0), lanes("sheets/g.sheet", "scripts/g-worst.script", 1));
    let paper = |name: &str| std::fs::read_to_string(format!("{ROOT}/docs/{name}")).unwrap();
    assert!(paper("SHEET.md").contains(&f) && paper("SHEET.md").contains(&g), "{f}\n{g}");
    assert!(paper("SCRIPT.md").contains(&g), "{g}");
}

/// What the papers print of the worst run of case G is what the command prints.
#[test]
fn the_words_of_the_papers() {
    let folder = Folder::new("papers");
    std::fs::create_dir(folder.0.join("sheets")).unwrap();
    std::fs::copy(shipped_one("g"), folder.0.join("sheets/g.sheet")).unwrap();
    let indented =
        |text: &str| text.lines().map(|line| if line.is_empty() { "\n".to_string() } else { format!("    {line}\n") }).collect::<String>();
    let readme = std::fs::read_to_string(format!("{ROOT}/README.md")).unwrap();
    let worst = shell(&folder.0, "\"$0\" worst sheets/g.sheet -o g.script");
    assert!(readme.contains(&indented(worst.done(1))), "{}", worst.text());
    let played = shell(&folder.0, "\"$0\" play sheets/g.sheet g.script --last 60");
    assert!(readme.contains(&indented(played.done(1))), "{}", played.text());
    let paper = std::fs::read_to_string(format!("{ROOT}/docs/SCRIPT.md")).unwrap();
    let lanes: Vec<&str> = played.text().lines().rev().take(4).collect();
    assert!(lanes.iter().all(|line| paper.contains(&format!("    {line}\n"))), "{lanes:?}");
}
