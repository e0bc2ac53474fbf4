//! What is said of each refusal: field, value and limit.
use crate::json;
use crate::running::run_with;
use second::generate::Draft;
use second::task::{Set, Task};

/// Case F of the scope.
fn draft() -> Draft {
    Draft::of(1, &Set { policy: 0, tasks: vec![Task::with_one_deadline(10, 4, 0, &[2]), Task::with_one_deadline(20, 20, 3, &[5])] })
}

fn fault_of(bytes: &[u8]) -> String {
    json::object(run_with(&["explain", "--json"], bytes).done(2).trim_end()).get("fault").text().to_string()
}

fn fault(change: impl FnOnce(&mut Draft)) -> String {
    let mut draft = draft();
    change(&mut draft);
    fault_of(&draft.bytes())
}

#[test]
fn lengths() {
    assert_eq!(fault_of(&[]), "the input is empty, 0 bytes: a sheet has 15 to 732");
    assert_eq!(fault_of(&[0]), "length 1 byte: a sheet has 15 to 732");
    assert_eq!(fault_of(&[0; 14]), "length 14 bytes: a sheet has 15 to 732");
    assert_eq!(fault_of(&[0; 733]), "length 733 bytes or more: a sheet has 15 to 732");
    assert_eq!(fault_of(&[0; 9_000]), "length 733 bytes or more: a sheet has 15 to 732");
}

#[test]
fn check_words() {
    let mut bytes = draft().bytes();
    let end = bytes.len() - 2;
    let right = u16::from_be_bytes([bytes[end], bytes[end + 1]]);
    bytes[end] ^= 0x80;
    let found = format!("the check word is {:04X}, the bytes before it give {right:04X}", right ^ 0x8000);
    assert_eq!(fault_of(&bytes), found);
    let causes =
        "The bytes were changed after they were sealed, or whoever made them computed the word otherwise (docs/SHEET.md has values to \
                  try), or this is no sheet.\n";
    assert_eq!(run_with(&["explain"], &bytes).done(2), format!("-: refused 2: check word wrong\n{found}\n{causes}"));
}

#[test]
fn headers() {
    for version in [0, 3, 15] {
        assert_eq!(fault(|d| d.version = version), format!("version {version}: only versions 1 and 2 are known"));
    }
    assert_eq!(fault(|d| d.policy = 3), "policy 3: 0 (listed), 1 (rate-monotonic) and 2 (deadline-monotonic) are allowed");
    assert_eq!(fault(|d| d.spare = 5), "spare bits 00101, bits 11 to 15 of the header: they must be 0");
    assert_eq!(fault(|d| d.count = 0), "task count 0: 1 to 16 are allowed");
    assert_eq!(fault(|d| d.count = 17), "task count 17: 1 to 16 are allowed");
}

#[test]
fn records() {
    assert_eq!(fault(|d| d.tasks[1].frame_count = 9), "frame count 9: 1 to 8 are allowed");
    assert_eq!(fault(|d| d.tasks[0].frame_count = 0), "frame count 0: 1 to 8 are allowed");
    assert_eq!(fault(|d| d.count = 3), "task 2: the record runs past the check word: 64 bits for its fixed part, 0 are there");
    assert_eq!(fault(|d| d.tasks[1].frame_count = 2), "task 1: the record runs past the check word: 40 bits for 2 frames, 20 are there");
    assert_eq!(fault(|d| d.count = 1), "84 bits are left after the last record: fewer than 8 are allowed");
    assert_eq!(fault(|d| d.surplus = vec![0]), "8 bits are left after the last record: fewer than 8 are allowed");
    let one = |fill| {
        let mut draft = draft();
        draft.count = 1;
        draft.tasks.truncate(1);
        draft.fill = fill;
        draft.bytes()
    };
    assert_eq!(fault_of(&one(4)), "fill bits 0100 after the last record: they must be 0");
}

#[test]
fn tasks() {
    assert_eq!(fault(|d| d.tasks[1].deadlines[0] = 21), "deadline 21 is above the period 20");
    assert_eq!(fault(|d| d.tasks[1].frames[0] = 21), "frame 0 with work 21 is above its deadline 20");
    assert_eq!(fault(|d| d.tasks[1].frames[0] = 0), "frame 0 with work 0: 1 to 1048575 are allowed");
    assert_eq!(fault(|d| d.tasks[0].period = 0), "period 0: 1 to 1048575 are allowed; deadline 4 is above the period 0");
    assert_eq!(fault(|d| d.tasks[1].lock = 6), "lock 6 is above the largest frame, frame 0 with work 5");
}

/// The same set as a draft of version 2, and a task whose frames have different deadlines.
fn by_frame() -> Draft {
    let own = Task { period: 30, lock: 2, frames: vec![6, 5, 4], deadlines: vec![20, 10, 15] };
    let tasks = vec![Task::with_one_deadline(10, 4, 0, &[2]), own];
    Draft::of(2, &Set { policy: 0, tasks })
}

fn fault_by_frame(change: fn(&mut Draft)) -> String {
    let mut draft = by_frame();
    change(&mut draft);
    fault_of(&draft.bytes())
}

/// A sheet of version 2 has 44 fixed bits and 40 for each frame.
#[test]
fn records_of_version_2() {
    let fault = fault_by_frame;
    assert_eq!(fault(|d| d.tasks[1].frame_count = 9), "frame count 9: 1 to 8 are allowed");
    assert_eq!(fault(|d| d.count = 3), "task 2: the record runs past the check word: 44 bits for its fixed part, 0 are there");
    assert_eq!(fault(|d| d.tasks[1].frame_count = 4), "task 1: the record runs past the check word: 160 bits for 4 frames, 120 are there");
    assert_eq!(fault(|d| d.count = 1), "164 bits are left after the last record: fewer than 8 are allowed");
    assert_eq!(fault(|d| d.surplus = vec![0]), "8 bits are left after the last record: fewer than 8 are allowed");
    assert_eq!(fault(|d| d.spare = 1), "spare bits 00001, bits 11 to 15 of the header: they must be 0");
    let mut one = by_frame();
    (one.count, one.fill) = (1, 2);
    one.tasks.truncate(1);
    assert_eq!(fault_of(&one.bytes()), "fill bits 0010 after the last record: they must be 0");
}

/// 9 names the frame and both numbers, be its deadline that of all frames or not; in version 1 it is the task's.
#[test]
fn tasks_of_version_2() {
    let fault = fault_by_frame;
    assert_eq!(fault(|d| d.tasks[1].deadlines[2] = 31), "deadline 31 of frame 2 is above the period 30");
    assert_eq!(fault(|d| d.tasks[1].deadlines[1] = 3), "frame 1 with work 5 is above its deadline 3");
    assert_eq!(fault(|d| d.tasks[1].frames[1] = 11), "frame 1 with work 11 is above its deadline 10");
    assert_eq!(fault(|d| d.tasks[1].frames[2] = 0), "frame 2 with work 0: 1 to 1048575 are allowed");
    assert_eq!(
        fault(|d| d.tasks[1].deadlines[0] = 0),
        "deadline 0 of frame 0: 1 to 1048575 are allowed; frame 0 with work 6 is above its deadline 0"
    );
    assert_eq!(
        fault(|d| d.tasks[1].deadlines = vec![31, 3, 40]),
        "deadline 31 of frame 0 is above the period 30; deadline 40 of frame 2 is above the period 30; frame 1 with work 5 is above its \
         deadline 3"
    );
    assert_eq!(fault(|d| d.tasks[0].deadlines[0] = 11), "deadline 11 of frame 0 is above the period 10");
    assert_eq!(fault(|d| d.tasks[1].lock = 7), "lock 7 is above the largest frame, frame 0 with work 6");
    assert!(fault(|d| d.tasks[1].frames = vec![4, 5, 6]).starts_with("frames 4 5 6 have no start frame: the largest is frame 2 (6 ticks)"));
}

/// The fault is told and marked at the task that the refusal names.
#[test]
fn the_task_is_said_in_words() {
    let mut draft = draft();
    draft.tasks[1].deadlines[0] = 21;
    let ran = run_with(&["explain"], &draft.bytes());
    let expected = "-: refused 9 (task 1): a task out of range or not well formed\ntask 1: deadline 21 is above the period 20\n";
    assert_eq!(ran.done(2), expected);
    let shown = run_with(&["show"], &draft.bytes());
    assert!(shown.done(2).contains("\n1         20        21     3  5   # <== deadline 21 is above the period 20\n"), "{}", shown.text());
}

#[test]
fn text_is_told_from_a_sheet() {
    let table = b"policy listed\ntask period deadline lock frames\n0 5 5 0 1\n";
    assert!(run_with(&["explain"], table).done(2).contains("burrbeech compose"));
}
