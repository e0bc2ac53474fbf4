//! Sheets damaged in every way of the refusal table, and muddled ones: the command's answers against the second reading's.
use crate::json::{self, number_or_null, Value};
use crate::running::{run, run_with, shipped_script, Folder};
use crate::shipped::status_of;
use second::generate::{admitted_set, damaged_sheets, edge_set, muddled_sheet, random_sheet, version_for};
use second::random::Random;
use second::refusal::Refusal;
use second::sheet;
use std::collections::{BTreeMap, BTreeSet};

/// The task that the refusal names, if its number is one that names a task.
fn named_task(refusal: Refusal) -> Option<usize> {
    matches!(refusal.number(), 7 | 9 | 10 | 11).then(|| refusal.task())
}

/// Of each number at most this many sheets, so that none crowds out the rare ones.
const OF_A_NUMBER: usize = 120;

/// At least 1,000 damaged sheets of both versions, with every number: of each set an even choice that takes every way of damage in turn.
fn damaged(random: &mut Random) -> Vec<(Vec<u8>, Refusal)> {
    let mut all = Vec::new();
    let mut taken: BTreeMap<u32, usize> = BTreeMap::new();
    for round in 0.. {
        if all.len() >= 1_000 && taken.len() == 11 {
            break;
        }
        let set = if round % 4 == 0 { edge_set(random) } else { admitted_set(random) };
        let version = version_for(random, &set);
        let sheets = damaged_sheets(random, version, &set);
        let step = sheets.len() / 60 + 1;
        for sheet in sheets.into_iter().skip(round % step).step_by(step) {
            let of_the_number = taken.entry(sheet.refusal.number()).or_default();
            if *of_the_number < OF_A_NUMBER {
                *of_the_number += 1;
                all.push((sheet.bytes, sheet.refusal));
            }
        }
    }
    all
}

#[test]
fn each_verb_gives_the_refusal() {
    let mut random = Random::new(101);
    let folder = Folder::new("damaged");
    let damaged = damaged(&mut random);
    let mut words = vec!["check".to_string(), "--json".to_string()];
    let mut numbers = BTreeSet::new();
    for (i, (bytes, refusal)) in damaged.iter().enumerate() {
        words.push(folder.file(format!("{i}.sheet"), bytes).display().to_string());
        numbers.insert(refusal.number());
    }
    assert_eq!(numbers, (1..=11).collect());
    let of_version = |version: u8| damaged.iter().filter(|(bytes, refusal)| refusal.number() > 3 && bytes[0] >> 4 == version).count();
    assert!([1, 2].map(of_version).iter().all(|&sheets| sheets > 200));
    let objects = json::lines(run(&words).done(2));
    assert_eq!(objects.len(), damaged.len());
    for (i, object) in objects.iter().enumerate() {
        let (bytes, refusal) = &damaged[i];
        assert_eq!(object.get("refusal").number(), u64::from(refusal.number()), "{bytes:02x?}");
        assert_eq!(object.get("task"), &number_or_null(named_task(*refusal)));
        assert_eq!(object.find("reason").is_some(), refusal.number() == 11, "{bytes:02x?}");
        one_is_refused(&words[i + 2], *refusal);
        if i % 8 == 0 {
            no_run_is_played(&words[i + 2]);
        }
    }
}

/// Whatever the script is, what is said is what `explain` says of the sheet.
fn no_run_is_played(path: &str) {
    let (explained, script) = (run(&["explain", path]), shipped_script("g-worst"));
    for words in [["play", path, &script].as_slice(), &["script", "show", path, &script]] {
        assert_eq!(run(words).done(2), explained.text());
    }
    for words in [["worst", path].as_slice(), &["draw", path], &["draw", path, &script], &["script", "compose", path, "/dev/null"]] {
        assert_eq!(run(words).failed(2), explained.text());
    }
}

fn one_is_refused(path: &str, refusal: Refusal) {
    let number = refusal.number();
    assert_eq!(run(&["report", path]).done(2), format!("refused {number}\n"));
    let named = named_task(refusal).map_or(String::new(), |task| format!(" (task {task})"));
    let start = format!("refused {number}{named}: ");
    let explained = run(&["explain", path]);
    assert!(explained.done(2).starts_with(&format!("{path}: {start}")), "{}", explained.text());
    let shown = run(&["show", path]);
    assert!(shown.done(2).starts_with(&start), "{}", shown.text());
    assert_eq!(shown.text().matches("<==").count(), 1, "{}", shown.text());
    without_its_first_line(shown.text());
    for verb in ["explain", "show"] {
        let object = json::object(run(&[verb, "--json", path]).done(2).trim_end());
        assert_eq!(object.get("refusal").number(), u64::from(number));
        assert_ne!(object.get("fault").text(), "");
    }
}

/// Of a refused sheet no text composes while the mark stands in it.
fn without_its_first_line(shown: &str) {
    let (_, rest) = shown.split_once('\n').expect("lines");
    let marked = 1 + rest.lines().position(|line| line.contains("<==")).expect("a mark");
    // of a wrong length nothing is shown, and there is no table at all
    let words =
        if rest.contains("\npolicy ") { format!("-:{marked}: this line has the mark ") } else { "-:3: the table has no line ".to_string() };
    let ran = run_with(&["compose"], rest.as_bytes());
    assert!(ran.failed(3).starts_with(&words), "{rest}{}", ran.err);
}

/// Several faults contend, or the bytes are anything: the first refusal in the scope's order, and no disagreement.
#[test]
fn muddled_and_random_sheets() {
    let mut random = Random::new(102);
    let mut refused = 0;
    for round in 0..600 {
        let set = admitted_set(&mut random);
        let bytes = if round % 2 == 0 { muddled_sheet(&mut random, &set) } else { random_sheet(&mut random) };
        let object = json::object(run_with(&["explain", "--json"], &bytes).done(status_of(&bytes)).trim_end());
        if let Err(refusal) = sheet::read(&bytes) {
            assert_eq!(object.get("refusal").number(), u64::from(refusal.number()), "{bytes:02x?}");
            assert_eq!(object.get("task"), &number_or_null(named_task(refusal)), "{bytes:02x?}");
            refused += 1;
        } else {
            assert_eq!(object.find("refusal"), None);
        }
        let shown = json::object(run_with(&["show", "--json"], &bytes).text().trim_end());
        assert_eq!(shown.get("admitted"), &Value::Truth(sheet::read(&bytes).is_ok()));
    }
    assert!(refused > 300, "{refused} refused");
}

/// A wrong check word hides no field.
#[test]
fn a_changed_sheet_is_shown_as_it_stands() {
    let mut random = Random::new(103);
    for _ in 0..50 {
        let set = admitted_set(&mut random);
        let version = version_for(&mut random, &set);
        let mut bytes = sheet::write(version, &set);
        *bytes.last_mut().unwrap() ^= 1;
        let object = json::object(run_with(&["show", "--json"], &bytes).done(2).trim_end());
        assert_eq!(object.get("refusal").number(), 2);
        assert_eq!((object.get("version").number(), object.get("policy").number()), (version.into(), set.policy.into()));
        for (shown, task) in object.get("list").items().iter().zip(&set.tasks) {
            assert_eq!(shown.get("period").number(), u64::from(task.period));
            let numbers = |list: &[u32]| list.iter().map(|&n| u64::from(n)).collect::<Vec<_>>();
            assert_eq!(
                (shown.get("frames").numbers(), shown.get("deadlines").numbers()),
                (numbers(&task.frames), numbers(&task.deadlines))
            );
        }
        assert_eq!(object.get("list").items().len(), set.tasks.len());
    }
}
