//! The second program on the sets worked by hand, cases A to M in both versions of the sheet and others with a deadline for each frame, and on what an inspector has seen.
use second::analysis::{self, analyse, Verdict};
use second::cases::{cases, cases_in_versions, Case, Expected};
use second::refusal::{NoStart, Refusal};
use second::report::report;
use second::sheet::VERSIONS;
use second::task::{admit_list, start_frame, Record, Set, Task, MOST_FRAMES};
use second::{answers, check_word, sheet};

fn case(name: &str) -> Case {
    cases().into_iter().find(|case| case.name == name).unwrap()
}

fn frames_of(name: &str) -> Vec<u32> {
    case(name).set.tasks[0].frames.clone()
}

fn eight_each(times: &[Vec<u32>]) -> Vec<u32> {
    times.iter().flat_map(|t| t.iter().copied().chain([0; MOST_FRAMES]).take(MOST_FRAMES)).collect()
}

/// The answer by sheet, by list and by the C entry's double, with the order and every slot.
fn compare(version: u32, case: &Case) {
    let bytes = sheet::write(version, &case.set);
    let n = case.set.tasks.len();
    let mut times = vec![7; MOST_FRAMES * n + 3];
    let by_sheet = analysis::analyse_sheet(&bytes, &mut times);
    let mut list_times = vec![7; MOST_FRAMES * n + 3];
    let by_list = analysis::analyse_list(case.set.policy, &case.set.list(), &mut list_times);
    assert_eq!((by_sheet, &times), (by_list, &list_times), "{}", case.name);
    let mut raw = vec![9; 32 * n];
    let code = analysis::check_sheet(&bytes, &mut raw);
    let (verdict, expected) = match &case.expected {
        Expected::Refused(refusal) => {
            assert_eq!((by_sheet, code), (Err(*refusal), refusal.number()), "{}", case.name);
            assert!(times.iter().all(|&t| t == 7) && raw.iter().all(|&b| b == 9));
            return;
        }
        Expected::Holds(times) => (Verdict::Holds, times),
        Expected::Missed { task, blocker, times } => (Verdict::Missed { task: *task, blocker: *blocker }, times),
    };
    assert_eq!((by_sheet, code), (Ok(verdict), verdict.code()), "{}", case.name);
    assert_eq!(analyse(&case.set).order, case.order, "{}", case.name);
    let expected = eight_each(expected);
    assert_eq!(times[..8 * n], expected, "{}", case.name);
    assert_eq!(times[8 * n..], [7, 7, 7]);
    assert_eq!(raw, expected.iter().flat_map(|t| t.to_be_bytes()).collect::<Vec<u8>>());
}

#[test]
fn cases_a_to_o() {
    assert_eq!((cases().len(), cases_in_versions().len()), (14, 2 * 14 + 2));
    cases_in_versions().iter().for_each(|(version, case)| compare(*version, case));
}

#[test]
fn codes() {
    let code = |name| analysis::check_sheet(&sheet::write(1, &case(name).set), &mut [0; 512]);
    assert_eq!([code("f"), code("d"), code("g"), code("i")], [0, 100 + 17 + 16, 100 + 1, 11]);
}

/// Task numbers differ from places; of two lower tasks with the largest Q the first in priority order blocks.
#[test]
fn blockers_by_priority_order() {
    let task = |period, deadline, lock| Task::with_one_deadline(period, deadline, lock, &[5]);
    let tasks = vec![task(40, 40, 5), task(30, 30, 5), task(10, 8, 0), task(10, 10, 1), task(30, 29, 4)];
    let names = |policy| {
        let analysis = analyse(&Set { policy, tasks: tasks.clone() });
        let blockers: Vec<Option<usize>> = analysis.answers.iter().map(|a| a.blocker).collect();
        (analysis.order, blockers, analysis.verdict)
    };
    let missed = |task, blocker| Verdict::Missed { task, blocker };
    let first = Some(1);
    assert_eq!(names(0), (vec![0, 1, 2, 3, 4], vec![first, Some(4), Some(4), Some(4), None], missed(2, Some(4))));
    assert_eq!(names(1), (vec![2, 3, 1, 4, 0], vec![None, Some(0), first, first, Some(0)], missed(2, first)));
    assert_eq!(names(2), (vec![2, 3, 4, 1, 0], vec![None, Some(0), first, first, first], missed(2, first)));
    let unlocked = Set { policy: 0, tasks: vec![task(10, 10, 0), task(10, 10, 1)] };
    assert_eq!((analyse(&unlocked).answers[0].blocker, analyse(&unlocked).answers[0].blocking), (None, 0));
}

#[test]
fn start_frames() {
    assert_eq!(start_frame(&frames_of("j")), Ok(3));
    assert_eq!(start_frame(&frames_of("k")), Ok(2));
    assert_eq!(start_frame(&[4, 4]), Ok(0));
}

/// Worked by hand. The second goes round; in the last the sums of three frames tie.
#[test]
fn why_there_is_no_start() {
    let why = |frames: &[u32]| start_frame(frames).map_err(|why| (why.frame, why.length, why.other));
    assert_eq!(why(&frames_of("i")), Err((2, 2, 1)));
    assert_eq!(why(&[3, 1, 2]), Err((0, 2, 2)));
    assert_eq!(why(&[2, 1, 1, 2, 1, 3]), Err((5, 4, 3)));
}

#[test]
fn refusals_in_one_number() {
    assert_eq!(answers::refused(Refusal::NotMonotonic(3, NoStart { frame: 5, length: 7, other: 6 })), 0x06_0705_030B);
    assert_eq!(answers::refused(Refusal::Lock(15)), 0x0F0A);
    assert_eq!(answers::refused(Refusal::Room), 12);
    assert_eq!(answers::refused(Refusal::Deadlines), 17);
}

#[test]
fn bytes_of_m() {
    let body = [0x10, 0x20, 0x00, 0x00, 0xA0, 0x00, 0x0A, 0x00, 0x00, 0x01, 0x00, 0x00, 0x30];
    assert_eq!(sheet::write(1, &case("m").set), check_word::sealed(&body));
}

/// Time and deadline by turns; the second task has two frames.
#[test]
fn bytes_of_version_2() {
    let body = [0x20, 0x20, 0x00, 0x00, 0xA0, 0x00, 0x00, 0x10, 0x00, 0x03, 0x00, 0x00, 0xA0];
    assert_eq!(sheet::write(2, &case("m").set), check_word::sealed(&body));
    let high = [0x28, 0x40, 0x00, 0x00, 0xA0, 0x00, 0x00, 0x10, 0x00, 0x02, 0x00, 0x00, 0xA0];
    let low = [0x00, 0x14, 0x00, 0x00, 0x32, 0x00, 0x00, 0x50, 0x00, 0x14, 0x00, 0x00, 0x20, 0x00, 0x04];
    let bytes = sheet::write(2, &Set { policy: 2, ..joystick(4) });
    assert_eq!(bytes, check_word::sealed(&[&high[..], &low].concat()));
    assert_eq!(sheet::read_versions(&VERSIONS, &bytes), Ok((2, Set { policy: 2, ..joystick(4) })));
}

/// A full frame that may be late by more than a short one: T 20 Q 3, frames 5 and 2, deadlines 20 and this; above it T 10 C 2.
fn joystick(short: u32) -> Set {
    let low = Task { period: 20, lock: 3, frames: vec![5, 2], deadlines: vec![20, short] };
    Set { policy: 0, tasks: vec![plain(10, 2), low] }
}

fn plain(period: u32, frame: u32) -> Task {
    Task::with_one_deadline(period, period, 0, &[frame])
}

/// Each frame against its own deadline: the short frame's time is 2 + 2, the full one's 5 + 2.
#[test]
fn deadlines_of_frames() {
    let of = |set: &Set| {
        let analysis = analyse(set);
        (analysis.verdict, analysis.answers.into_iter().map(|answer| answer.times).collect::<Vec<_>>())
    };
    assert_eq!(of(&joystick(4)), (Verdict::Holds, vec![Some(vec![4]), Some(vec![7, 4])]));
    assert_eq!(of(&joystick(3)), (Verdict::Missed { task: 1, blocker: None }, vec![Some(vec![4]), None]));
    // frames of equal time: what one has in time the other has not
    let mut equal = joystick(20);
    (equal.tasks[1].frames, equal.tasks[1].deadlines) = (vec![5, 5], vec![7, 6]);
    assert_eq!(of(&equal), (Verdict::Missed { task: 1, blocker: None }, vec![Some(vec![4]), None]));
    equal.tasks[1].deadlines = vec![7, 20];
    assert_eq!(of(&equal), (Verdict::Holds, vec![Some(vec![4]), Some(vec![7, 7])]));
}

/// Policy 2 and the report take the smallest deadline of a task.
#[test]
fn the_smallest_deadline_counts() {
    let by_deadline = Set { policy: 2, ..joystick(4) };
    assert_eq!(report(&sheet::write(2, &joystick(4))), "holds 2\n0 10 10 2 4\n1 20 4 0 7 4\n");
    assert_eq!(report(&sheet::write(2, &by_deadline)), "holds 2\n1 20 4 0 5 2\n0 10 10 0 7\n");
    assert_eq!(report(&sheet::write(2, &joystick(3))), "missed 2 1 -\n0 10 10 2 4\n1 20 3 0 missed\n");
    // equal keys: the lower number is higher
    let equal = Set { policy: 2, ..joystick(10) };
    assert_eq!(analyse(&equal).order, [0, 1]);
}

/// Converted by hand: case M both ways, and what version 1 cannot hold.
#[test]
fn converted() {
    let [one, two] = VERSIONS.map(|version| sheet::write(version, &case("m").set));
    assert_eq!((sheet::convert(2, &one), sheet::convert(1, &two)), (Ok(two.clone()), Ok(one.clone())));
    let apart = sheet::write(2, &joystick(4));
    assert_eq!(sheet::convert(1, &apart), Err(Refusal::Deadlines));
    assert_eq!((sheet::convert(1, &one), sheet::convert(2, &two)), (Err(Refusal::Version), Err(Refusal::Version)));
    assert_eq!((sheet::convert(0, &[]), sheet::convert(3, &two)), (Err(Refusal::Version), Err(Refusal::Version)));
    assert_eq!((sheet::convert(2, &[]), sheet::convert(2, &two[..two.len() - 1])), (Err(Refusal::Length), Err(Refusal::Length)));
}

/// 3 by the version told first; the sheet's own, 3 of the other version at its place; 17 after 11 and before 12.
#[test]
fn order_of_a_conversion() {
    let number = |version, set: &Set, room: usize| {
        let sheet = sheet::write(2, set);
        sheet::convert_into(version, &sheet, &mut vec![0; room]).map_or_else(|r| (r.number(), r.task()), |_| (0, 0))
    };
    let mut spoilt = sheet::write(2, &case("m").set);
    spoilt[4] ^= 1;
    assert_eq!(sheet::convert(2, &spoilt), Err(Refusal::CheckWord));
    let wrong_policy = Set { policy: 3, ..joystick(4) };
    assert_eq!((number(2, &wrong_policy, 0), number(1, &wrong_policy, 0), number(9, &wrong_policy, 0)), ((3, 0), (4, 0), (3, 0)));
    let mut locked = joystick(4);
    locked.tasks[1].lock = 6;
    assert_eq!(number(1, &locked, 0), (10, 1));
    let mut unordered = joystick(4);
    unordered.tasks[0] = Task::with_one_deadline(10, 10, 0, &[1, 2, 3]);
    assert_eq!(number(1, &unordered, 0), (11, 0));
    assert_eq!((number(1, &joystick(4), 0), number(1, &joystick(20), 0), number(1, &joystick(20), 50)), ((17, 0), (12, 0), (0, 0)));
}

#[test]
fn refused_lists() {
    let good = Task::with_one_deadline(10, 10, 3, &[3]);
    let refusal = |task: Task| admit_list(0, &[good.record(), task.record()]).unwrap_err();
    assert!(admit_list(0, &[good.record()]).is_ok());
    assert_eq!(admit_list(0, &[]).unwrap_err().number(), 6);
    assert_eq!(refusal(good.due_by(11)), Refusal::NotWellFormed(1));
    assert_eq!(refusal(Task { lock: 4, ..good.clone() }), Refusal::Lock(1));
    let full = Task::with_one_deadline(1_048_575, 1_048_575, 1_048_576, &[1_048_575]);
    assert_eq!(refusal(full), Refusal::NotWellFormed(1));
    // each frame against its own deadline, and each deadline against the period
    let apart = |deadlines: [u32; 2]| Task { frames: vec![3, 1], deadlines: deadlines.to_vec(), ..good.clone() };
    assert!(admit_list(0, &[apart([3, 1]).record(), apart([10, 10]).record()]).is_ok());
    for deadlines in [[2, 10], [3, 0], [10, 11], [11, 1], [1_048_576, 1]] {
        assert_eq!(refusal(apart(deadlines)), Refusal::NotWellFormed(1));
    }
}

#[test]
fn order_of_a_list() {
    let good = case("m").set.tasks[0].record();
    let uncounted = Record { frame_count: 9, ..good };
    let low = Record { period: 0, ..good };
    let locked = Record { lock: 4, ..good };
    let both = Record { lock: 4, frame_count: 3, frames: [1, 2, 3, 0, 0, 0, 0, 0], deadlines: [10; MOST_FRAMES], ..good };
    let number = |policy, list: &[Record]| admit_list(policy, list).map_or_else(|r| (r.number(), r.task()), |_| (0, 0));
    assert_eq!(number(3, &[]), (4, 0));
    assert_eq!(number(0, &[uncounted; 17]), (6, 0));
    assert_eq!(number(0, &[low, uncounted]), (7, 1));
    assert_eq!(number(0, &[good, locked, low]), (10, 1));
    assert_eq!(number(0, &[both]), (10, 0));
    assert_eq!(number(0, &[good, Record { lock: 3, ..both }, locked]), (11, 1));
    let apart = Record { deadlines: [10, 9, 10, 0, 0, 0, 0, 0], lock: 3, ..both };
    let mut short = [0xEE; 14];
    let mut written = |version, policy, list: &[Record]| sheet::write_into(version, policy, list, &mut short).unwrap_err();
    assert_eq!((written(0, 3, &[]), written(3, 3, &[]), written(257, 0, &[good])), (Refusal::Version, Refusal::Version, Refusal::Version));
    assert_eq!((written(1, 3, &[]), written(2, 3, &[])), (Refusal::Policy, Refusal::Policy));
    assert_eq!(written(1, 0, &[locked]), Refusal::Lock(0));
    // a list without a start frame, then one that version 1 cannot hold, then the room
    assert_eq!(written(1, 0, &[apart]).number(), 11);
    let apart = Record { frames: [3, 2, 1, 0, 0, 0, 0, 0], ..apart };
    assert_eq!((written(1, 0, &[good, apart]), written(2, 0, &[good, apart])), (Refusal::Deadlines, Refusal::Room));
    assert_eq!(written(1, 0, &[good]), Refusal::Room);
    assert_eq!(short, [0xEE; 14]);
}

#[test]
fn report_of_f() {
    let printed = "holds 2\n0 10 4 2 4\n1 20 20 0 7\n";
    assert_eq!(VERSIONS.map(|version| report(&sheet::write(version, &case("f").set))), [printed; 2]);
}

#[test]
fn other_reports() {
    let of = |name| report(&sheet::write(1, &case(name).set));
    assert_eq!(of("b"), "holds 2\n0 3 3 0 2 1\n1 7 7 0 6\n");
    assert_eq!(of("d"), "missed 2 1 -\n0 3 3 0 3\n1 5 5 0 missed\n");
    assert_eq!(of("g"), "missed 2 0 1\n0 10 4 3 missed\n1 20 20 0 7\n");
    assert_eq!(of("i"), "refused 11\n");
    assert_eq!(of("l1"), "holds 2\n1 8 5 0 1\n0 10 5 0 2\n");
    assert_eq!(report(&[]), "refused 1\n");
    assert_eq!(report(&[0; 453]), "refused 2\n");
    assert_eq!(report(&[0; 732]), "refused 2\n");
    assert_eq!(report(&[0; 733]), "refused 1\n");
}

/// The sheets that stand in files are those of the cases, and there is no other.
#[test]
fn sheets_in_files() {
    let folder = std::path::Path::new(env!("CARGO_MANIFEST_DIR")).join("../../sheets");
    let mut files: Vec<(String, Vec<u8>)> = std::fs::read_dir(folder)
        .unwrap()
        .map(|entry| entry.unwrap())
        .map(|entry| (entry.file_name().into_string().unwrap(), std::fs::read(entry.path()).unwrap()))
        .collect();
    files.sort();
    assert_eq!(files, second::cases::sheets());
}
