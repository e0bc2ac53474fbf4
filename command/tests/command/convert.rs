//! `convert`: both ways, and every reason not to.
use crate::running::{run, run_with, shell, shipped, shipped_one, Folder};
use second::generate::{admitted_set, damaged_sheets, edge_set, version_for, with_one_deadline_each, Draft};
use second::random::Random;
use second::{check_word, sheet};

fn convert(version: u32, sheet: &[u8]) -> crate::running::Ran {
    run_with(&["convert", "--to", &version.to_string()], sheet)
}

/// Compared with the second reading; the report, and so each verdict and time, stays.
#[test]
fn hundreds_of_sets_there_and_back() {
    let mut random = Random::new(601);
    for round in 0..300 {
        let set = if round % 4 == 0 { edge_set(&mut random) } else { admitted_set(&mut random) };
        let set = with_one_deadline_each(&set);
        let [one, two] = [1, 2].map(|version| sheet::write(version, &set));
        for (from, version, to) in [(&one, 2, &two), (&two, 1, &one)] {
            let ran = convert(version, from);
            assert_eq!((ran.status, &ran.out, ran.err.as_str()), (0, to, ""));
        }
        if round % 10 == 0 {
            assert_eq!(run_with(&["report"], &one).out, run_with(&["report"], &two).out);
        }
    }
}

/// 17 of every set whose deadlines differ, with the first task and two of its frames.
#[test]
fn sets_that_version_1_cannot_hold() {
    let mut random = Random::new(602);
    let mut refused = 0;
    while refused < 100 {
        let set = admitted_set(&mut random);
        let Some(number) = set.tasks.iter().position(|task| !task.has_one_deadline()) else { continue };
        let deadlines = &set.tasks[number].deadlines;
        let frame = deadlines.iter().position(|&deadline| deadline != deadlines[0]).expect("another deadline");
        let ran = convert(1, &sheet::write(2, &set));
        let first = "-: refused 17: a set that version 1 cannot hold: the deadlines of a task differ";
        let which = format!(
            "task {number}: frame 0 has deadline {}, frame {frame} has deadline {}: version 1 has one deadline for all frames of a task",
            deadlines[0], deadlines[frame]
        );
        let advice = "Version 2 can hold it; or give all frames of each task one deadline.";
        assert_eq!(ran.failed(2), format!("{first}\n{which}\n{advice}\n"));
        refused += 1;
    }
}

#[test]
fn versions_word_for_word() {
    let first = "refused 3: version neither 1 nor 2, or not the converter's";
    let [f, o] = ["f", "o"].map(shipped_one);
    assert_eq!(
        run(&["convert", "--to", "1", &f]).failed(2),
        format!(
            "{f}: {first}\nthe sheet has version 1, and version 1 was asked for: a sheet of version 2 is converted to it\nThere is nothing \
             to convert; `burrbeech check` says whether it is admitted.\n"
        )
    );
    assert_eq!(
        run(&["convert", "--to", "2", &o]).failed(2),
        format!(
            "{o}: {first}\nthe sheet has version 2, and version 2 was asked for: a sheet of version 1 is converted to it\nThere is nothing \
             to convert; `burrbeech check` says whether it is admitted.\n"
        )
    );
    let mut seven = std::fs::read(&f).unwrap();
    seven[0] = 0x70;
    let seven = check_word::sealed(&seven[..seven.len() - 2]);
    for version in [1, 2] {
        let words = format!("-: {first}\nversion 7: only versions 1 and 2 are known\nLook whether this is a task sheet.\n");
        assert_eq!(convert(version, &seven).failed(2), words);
    }
}

/// 3 stands at its place: behind 1 and 2, before the rest; all else is told as `explain` tells it.
#[test]
fn refused_sheets() {
    let mut random = Random::new(603);
    let mut met = std::collections::BTreeMap::new();
    for round in 0..40 {
        let set = if round % 4 == 0 { edge_set(&mut random) } else { admitted_set(&mut random) };
        let version = version_for(&mut random, &set);
        let sheets = damaged_sheets(&mut random, version, &set);
        let step = sheets.len() / 12 + 1;
        for damaged in sheets.into_iter().skip(round % step).step_by(step) {
            let (explained, other) = (run_with(&["explain"], &damaged.bytes), convert(3 - version, &damaged.bytes));
            assert_eq!(other.failed(2), explained.done(2), "{}", damaged.way);
            let same = convert(version, &damaged.bytes);
            let expected = sheet::convert(version, &damaged.bytes).expect_err("a refused sheet").number();
            assert!(same.failed(2).starts_with(&format!("-: refused {expected}")), "{}: {}", damaged.way, same.err);
            assert_eq!(same.err == explained.text(), expected < 3 || damaged.refusal.number() == 3, "{}: {}", damaged.way, same.err);
            *met.entry((damaged.refusal.number(), expected)).or_insert(0) += 1;
        }
    }
    assert!((1..=11).all(|number| met.contains_key(&(number, number.min(3)))), "{met:?}");
}

/// 9, 10 and 11 come before 17, which is said of an admitted set alone.
#[test]
fn a_refused_set_whose_deadlines_differ() {
    let set = sheet::read(&std::fs::read(shipped_one("o")).unwrap()).unwrap();
    let refused = |change: fn(&mut Draft)| {
        let mut draft = Draft::of(2, &set);
        change(&mut draft);
        convert(1, &draft.bytes()).failed(2).lines().next().unwrap().to_string()
    };
    assert!(refused(|_| {}).starts_with("-: refused 17: "));
    assert!(refused(|draft| draft.tasks[1].deadlines[0] = 13).starts_with("-: refused 9 (task 1): "));
    assert!(refused(|draft| draft.tasks[1].lock = 4).starts_with("-: refused 10 (task 1): "));
    assert!(refused(|draft| draft.spare = 1).starts_with("-: refused 5: "));
}

/// Like `compose`: the whole file or none, and never the sheet itself.
#[test]
fn files() {
    let folder = Folder::new("convert-files");
    folder.file("f", &std::fs::read(shipped_one("f")).unwrap());
    folder.file("o", &std::fs::read(shipped_one("o")).unwrap());
    folder.file("old", b"old");
    assert_eq!(shell(&folder.0, "\"$0\" convert --to 2 f -o two && \"$0\" convert -o one --to 1 < two && cmp f one").done(0), "");
    assert_eq!(shell(&folder.0, "\"$0\" convert --to 2 f -o - | cmp - two").done(0), "");
    assert_eq!(shell(&folder.0, "\"$0\" convert --to 2 f -o old && cmp old two").done(0), "");
    let before = folder.names();
    for (line, status, words) in [
        ("convert --to 1 o -o new", 2, "o: refused 17: "),
        ("convert --to 2 f -o f", 3, "f: this is the sheet itself: it would be lost"),
        ("convert --to 2 -o f < f", 3, "f: this is the sheet itself: it would be lost"),
        ("convert --to 2 f -o no/x", 3, "no/x: No such file"),
        ("convert --to 2 no-such-sheet", 3, "no-such-sheet: No such file"),
        ("convert f", 3, "convert needs --to and a version, 1 or 2: burrbeech convert --to 1|2 [FILE] [-o FILE]"),
        ("convert --to 3 f", 3, "--to needs the version of the sheet, 1 or 2, which 3 is not"),
        ("convert f --to", 3, "--to needs the version of the sheet, 1 or 2"),
    ] {
        let ran = shell(&folder.0, &format!("\"$0\" {line}"));
        assert!(ran.failed(status).contains(words), "{line}: {}", ran.err);
        assert_eq!(folder.names(), before, "{line}");
    }
    assert_eq!(std::fs::read(folder.0.join("f")).unwrap(), std::fs::read(shipped_one("f")).unwrap());
}

/// Every shipped sheet of version 1 that is admitted, shown from version 2, differs in the line that tells the version alone.
#[test]
fn the_shipped_sheets() {
    let mut converted = 0;
    for path in shipped() {
        let bytes = std::fs::read(&path).unwrap();
        if bytes[0] >> 4 != 1 || sheet::read(&bytes).is_err() {
            continue;
        }
        let two = convert(2, &bytes).out;
        let shown = run_with(&["show"], &two);
        let told = shown.done(0).lines().filter(|line| !line.starts_with("version 2 ")).map(|line| format!("{line}\n"));
        assert_eq!(told.collect::<String>(), run_with(&["show"], &bytes).done(0));
        assert_eq!(shown.text().matches("\nversion 2 ").count(), 1);
        assert_eq!(run_with(&["compose"], shown.text().as_bytes()).out, two);
        converted += 1;
    }
    assert_eq!(converted, 13);
}
