//! `worst`: the worst run of every set that misses, and nothing of one that holds.
use crate::json;
use crate::running::{run, shell, shipped_one, shipped_script, Folder, ROOT};
use crate::runs::busy_set;
use second::generate::sheet_of;
use second::random::Random;
use second::scripts;
use std::path::Path;

#[test]
fn the_worst_run_of_case_g() {
    let folder = Folder::new("worst-g");
    let line = |to: &str| format!("\"$0\" worst sheets/g.sheet -o '{}'", folder.0.join(to).display());
    let ran = shell(Path::new(ROOT), &line("g.script"));
    let expected = format!(
        "sheets/g.sheet: missed, 2 tasks: task 0 misses, blocker 1
The worst run of task 0, frame 0, the first without a response time: released at 1, it misses at 5, the end of tick 4.
Written to {}: 2 entries, 22 bytes.
",
        folder.0.join("g.script").display()
    );
    assert_eq!(ran.done(1), expected);
    let shipped = std::fs::read(shipped_script("g-worst")).unwrap();
    assert_eq!(std::fs::read(folder.0.join("g.script")).unwrap(), shipped);
    assert_eq!(folder.names(), ["g.script"]);
    // to standard output, with the words on standard error
    for words in ["", "-o -", "-o /dev/stdout"] {
        let ran = shell(Path::new(ROOT), &format!("\"$0\" worst sheets/g.sheet {words} | cat"));
        assert_eq!(ran.out, shipped);
        assert!(ran.err.ends_with("standard output: 2 entries, 22 bytes.\n") || words.contains("/dev"), "{}", ran.err);
    }
    let ran = shell(Path::new(ROOT), &line("g.json").replace("worst ", "worst --json "));
    let object = json::object(ran.done(1).trim_end());
    let keys = ["file", "verdict", "tasks", "task", "blocker", "version", "frame", "released", "tick", "entries", "bytes", "script"];
    assert_eq!(object.keys(), keys);
    assert_eq!((object.get("tick").number(), object.get("entries").number(), object.get("bytes").number()), (5, 2, 22));
}

#[test]
fn nothing_is_written_of_a_set_that_holds_or_is_refused() {
    let folder = Folder::new("worst-none");
    for (case, status, first) in [("f", 0, "holds, 2 tasks\nNo job misses, in any run"), ("i", 2, "refused 11 (task 0): ")] {
        let sheet = shipped_one(case);
        let ran = shell(&folder.0, &format!("\"$0\" worst '{sheet}' -o new"));
        assert!(ran.done(status).contains(first), "{}", ran.text());
        let ran = run(&["worst", &sheet]);
        assert!(ran.failed(status).contains(first), "{}", ran.err);
        let ran = shell(&folder.0, &format!("\"$0\" worst --json '{sheet}' -o new"));
        assert_eq!(json::object(ran.done(status).trim_end()).get("verdict").text(), if status == 0 { "holds" } else { "refused" });
        assert!(folder.names().is_empty());
    }
}

/// A file from before is not to be taken for a worst run of a set that holds.
#[test]
fn an_old_file_is_told_to_be_as_it_was() {
    let folder = Folder::new("worst-old");
    folder.file("an old one", b"old");
    let sheet = shipped_one("f");
    for verb in ["worst", "draw"] {
        let ran = shell(&folder.0, &format!("\"$0\" {verb} '{sheet}' -o 'an old one'"));
        assert!(ran.done(0).ends_with(
            "\nNo job misses, in any run: there is no worst run to show, and nothing is written; \"an old one\" is as it was.\n"
        ));
        let ran = shell(&folder.0, &format!("\"$0\" {verb} '{sheet}' -o new"));
        assert!(ran.done(0).ends_with("and nothing is written.\n"));
    }
    let object = shell(&folder.0, &format!("\"$0\" worst --json '{sheet}' -o 'an old one'"));
    assert_eq!(json::object(object.done(0).trim_end()).get("script"), &json::Value::Null);
    assert_eq!((std::fs::read(folder.0.join("an old one")).unwrap(), folder.names()), (b"old".to_vec(), vec!["an old one".to_string()]));
}

#[test]
fn a_failure_leaves_everything_as_it_was() {
    let folder = Folder::new("worst-failures");
    folder.file("g.sheet", &std::fs::read(shipped_one("g")).unwrap());
    let before = std::fs::read(folder.0.join("g.sheet")).unwrap();
    assert!(shell(&folder.0, "\"$0\" worst g.sheet -o g.sheet").failed(3).contains("this is the sheet itself: it would be lost"));
    assert!(shell(&folder.0, "\"$0\" worst g.sheet -o no/x").failed(3).contains("no/x: No such file"));
    assert!(shell(&folder.0, "\"$0\" worst g.sheet >/dev/full").failed(3).contains("No space left"));
    assert!(shell(&folder.0, "\"$0\" worst no-such-sheet").failed(3).contains("no-such-sheet: No such file"));
    assert_eq!((std::fs::read(folder.0.join("g.sheet")).unwrap(), folder.names()), (before, vec!["g.sheet".to_string()]));
}

/// Compared with the second reading, byte for byte; and the play of each ends with that miss.
#[test]
fn random_sets() {
    let mut random = Random::new(503);
    let folder = Folder::new("worst-random");
    let (mut missed, mut holds) = (0, 0);
    for _ in 0..400 {
        let set = busy_set(&mut random);
        folder.file("s", &sheet_of(&mut random, &set));
        let _ = std::fs::remove_file(folder.0.join("r"));
        let ran = shell(&folder.0, "\"$0\" worst s -o r");
        match scripts::worst(&set) {
            None => {
                ran.done(0);
                assert_eq!(folder.names(), ["s"]);
                holds += 1;
            }
            Some(script) => {
                ran.done(1);
                assert_eq!(std::fs::read(folder.0.join("r")).unwrap(), scripts::write(&script));
                let said = ran.text().lines().nth(1).unwrap();
                let (task, frame) = said.strip_prefix("The worst run of task ").unwrap().split_once(", frame ").unwrap();
                let (task, frame): (usize, usize) = (task.parse().unwrap(), frame.split(',').next().unwrap().parse().unwrap());
                assert_eq!(scripts::first_frame_without(&set, task), Some(frame));
                let end = format!("r: task {task} misses at {}, ", 1 + set.tasks[task].deadlines[frame]);
                assert!(shell(&folder.0, "\"$0\" play s r").done(1).starts_with(&end));
                missed += 1;
            }
        }
    }
    println!("400 sets: {missed} worst runs, {holds} hold");
    assert!(missed >= 40 && holds >= 40);
}
