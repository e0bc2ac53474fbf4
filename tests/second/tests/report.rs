//! The proved report program against the second reading, through standard input and output.
use second::compared::version_of;
use second::generate::{admitted_set, damaged_sheets, muddled_sheet, random_sheet, version_for, with_different_deadlines};
use second::random::Random;
use second::task::{Set, Task, MOST_FRAMES, MOST_TASKS, MOST_TICKS};
use second::{report, sheet};
use std::collections::BTreeMap;
use std::fs::File;
use std::io::Write;
use std::process::{Command, Stdio};

const PROGRAM: &str = concat!(env!("CARGO_MANIFEST_DIR"), "/../../crates/report/out/report");
const SHEETS: &str = concat!(env!("CARGO_MANIFEST_DIR"), "/../../sheets");

fn proved_report(input: &[u8]) -> String {
    let mut child = Command::new(PROGRAM).stdin(Stdio::piped()).stdout(Stdio::piped()).spawn().expect("the report program");
    // it may stop reading after 733 bytes
    let _ = child.stdin.take().unwrap().write_all(input);
    let out = child.wait_with_output().unwrap();
    assert!(out.status.success());
    String::from_utf8(out.stdout).unwrap()
}

#[test]
fn shipped_cases_are_reported_alike() {
    let mut compared = 0;
    for entry in std::fs::read_dir(SHEETS).unwrap() {
        let bytes = std::fs::read(entry.unwrap().path()).unwrap();
        assert_eq!(proved_report(&bytes), report::report(&bytes));
        compared += 1;
    }
    assert_eq!(compared, 16);
    assert_eq!(proved_report(&std::fs::read(format!("{SHEETS}/f.sheet")).unwrap()), "holds 2\n0 10 4 2 4\n1 20 20 0 7\n");
    println!("shipped sheets: {compared} reports compared");
}

#[test]
fn inputs_of_every_size_are_answered() {
    for n in [0, 1, 14, 15, 451, 452, 453, 454, 731, 732, 733, 734, 4096, 1 << 20] {
        let input = vec![0xA5; n];
        assert_eq!(proved_report(&input), report::report(&input), "{n} bytes");
    }
}

/// The longest sheet there is has a report; with one byte behind it, or a thousand, it is refused.
#[test]
fn a_byte_behind_the_longest_sheet() {
    let task = with_different_deadlines(&Task::with_one_deadline(MOST_TICKS, MOST_TICKS, 0, &[1; MOST_FRAMES]));
    let longest = sheet::write(2, &Set { policy: 0, tasks: vec![task; MOST_TASKS] });
    assert_eq!(longest.len(), 732);
    assert!(proved_report(&longest).starts_with("holds 16\n"));
    for more in [1, 1_000] {
        assert_eq!(proved_report(&[&longest[..], &vec![0; more]].concat()), "refused 1\n");
    }
}

/// What a call prints on standard error; nothing may stand on standard output.
fn complaint(command: &mut Command) -> String {
    let out = command.stderr(Stdio::piped()).output().unwrap();
    assert_eq!(String::from_utf8(out.stdout).unwrap(), "", "{command:?}");
    String::from_utf8(out.stderr).unwrap()
}

#[test]
fn no_verdict_on_what_cannot_be_read() {
    let a_folder = complaint(Command::new(PROGRAM).stdin(File::open(SHEETS).unwrap()));
    let closed = complaint(Command::new("sh").args(["-c", "\"$0\" <&-", PROGRAM]));
    let named = complaint(Command::new(PROGRAM).arg(format!("{SHEETS}/f.sheet")).stdin(Stdio::null()));
    for complaint in [&a_folder, &closed] {
        assert!(complaint.starts_with("report: standard input cannot be read"), "{complaint}");
    }
    assert!(named.starts_with("report: takes no arguments"), "{named}");
}

#[test]
fn a_full_output_is_told() {
    let sheet = File::open(format!("{SHEETS}/f.sheet")).unwrap();
    let full = File::options().write(true).open("/dev/full").unwrap();
    let said = complaint(Command::new(PROGRAM).stdin(sheet).stdout(full));
    assert!(said.starts_with("report: standard output cannot be written"), "{said}");
}

#[test]
fn reports_agree() {
    let mut random = Random::new(11);
    let mut words = BTreeMap::new();
    let mut compare = |bytes: &[u8]| {
        let text = proved_report(bytes);
        assert_eq!(text, report::report(bytes), "{bytes:02x?}");
        let word = text.split(' ').next().unwrap().to_string();
        *words.entry((version_of(bytes), word)).or_insert(0u32) += 1;
    };
    for round in 0..600 {
        let set = admitted_set(&mut random);
        let version = version_for(&mut random, &set);
        compare(&sheet::write(version, &set));
        compare(&muddled_sheet(&mut random, &set));
        compare(&random_sheet(&mut random));
        if round % 100 == 0 {
            for damaged in damaged_sheets(&mut random, version, &set) {
                compare(&damaged.bytes);
            }
        }
    }
    println!("reports by version, 0 for any other: {} compared, {words:?}", words.values().sum::<u32>());
    for version in sheet::VERSIONS {
        assert!(["holds", "missed", "refused"].iter().all(|&word| words[&(version, word.to_string())] > 20));
    }
}
