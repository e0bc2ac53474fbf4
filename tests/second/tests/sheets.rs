//! The C entries that analyse a sheet of either version and report on it: the proved code against the second reading, and the entries against each other.
use second::analysis::Verdict;
use second::cases::{cases_in_versions, Expected};
use second::compared::{no_room, verdict, version_of, Compared, OF_SHEETS};
use second::random::Random;
use second::sheet::VERSIONS;
use second::task::{Record, Set, Task, MOST_FRAMES, MOST_TASKS, MOST_TICKS};
use second::{answers, generate, proved, report, sheet};
use std::collections::BTreeMap;

/// What the header promises for every report.
const REPORT_MOST: usize = 2048;

/// Strings that are too short or too long, up to far beyond a sheet.
const ODD_LENGTHS: [usize; 10] = [0, 1, 14, 15, 452, 453, 732, 733, 4_096, 1 << 20];

#[test]
fn sheets_are_analysed_alike() {
    let mut random = Random::new(60);
    let mut compared = Compared::new(61);
    let mut verdicts = BTreeMap::new();
    for set in generate::sets_of_every_size(62, 160) {
        let version = generate::version_for(&mut random, &set);
        let (bytes, need) = (sheet::write(version, &set), MOST_FRAMES * set.tasks.len());
        for room in generate::rooms(need) {
            assert_eq!(no_room(compared.analyse_sheet(&bytes, room)), room < need);
        }
        for damaged in generate::damaged_sheets(&mut random, version, &set) {
            let answer = compared.analyse_sheet(&damaged.bytes, random.below(140) as usize);
            assert_eq!(answer, answers::refused(damaged.refusal), "{}", damaged.way);
        }
    }
    for set in generate::sets_of_every_size(63, 60_000) {
        let room = generate::likely_room(&mut random, MOST_FRAMES * set.tasks.len());
        let bytes = generate::sheet_of(&mut random, &set);
        let answer = compared.analyse_sheet(&bytes, room);
        if answer.is_multiple_of(256) {
            assert_eq!(answer >> 24, set.tasks.len() as u64);
            *verdicts.entry((version_of(&bytes), verdict(answer))).or_insert(0u64) += 1;
        }
        compared.analyse_sheet(&generate::muddled_sheet(&mut random, &set), room);
        compared.analyse_sheet(&generate::random_sheet(&mut random), room);
    }
    compared.finish("sheets analysed", &OF_SHEETS);
    println!("verdicts of sheets by version: {verdicts:?}");
    assert!(verdicts.len() == 6 && verdicts.values().sum::<u64>() >= 40_000);
}

/// Every size of room from none to one past the need, for reports of every kind.
#[test]
fn reports_are_written_alike() {
    let mut random = Random::new(64);
    let mut compared = Compared::new(65);
    let mut every_room = |bytes: &[u8]| {
        let need = report::report(bytes).len();
        for room in generate::rooms(need) {
            assert_eq!(no_room(compared.report(bytes, room)), room < need);
        }
    };
    for set in generate::sets_of_every_size(66, 160) {
        every_room(&generate::sheet_of(&mut random, &set));
        every_room(&generate::muddled_sheet(&mut random, &set));
        every_room(&generate::random_sheet(&mut random));
    }
    ODD_LENGTHS.iter().for_each(|&length| every_room(&vec![0xA5; length]));
    for set in generate::sets_of_every_size(67, 20_000) {
        let good = generate::sheet_of(&mut random, &set);
        let room = generate::likely_room(&mut random, report::report(&good).len());
        compared.report(&good, room);
        compared.report(&generate::muddled_sheet(&mut random, &set), REPORT_MOST);
        compared.report(&generate::random_sheet(&mut random), random.below(20) as usize);
    }
    compared.finish("reports", &[(0, &[0, 12]), (1, &[0, 12]), (2, &[0, 12])]);
    assert!(compared.total() >= 100_000);
}

/// A refused sheet is no refusal of the report: its text says it.
#[test]
fn refused_sheets_have_a_report() {
    let mut random = Random::new(68);
    let mut numbers = BTreeMap::new();
    for set in generate::sets_of_every_size(69, 48) {
        let version = generate::version_for(&mut random, &set);
        for damaged in generate::damaged_sheets(&mut random, version, &set) {
            let mut text = [0; REPORT_MOST];
            let expected = format!("refused {}\n", damaged.refusal.number());
            assert_eq!(proved::report(&damaged.bytes, &mut text), (expected.len() as u64) << 8, "{}", damaged.way);
            assert!(text.starts_with(expected.as_bytes()) && text[expected.len()..].iter().all(|&b| b == 0));
            *numbers.entry((version, damaged.refusal.number())).or_insert(0u64) += 1;
        }
    }
    println!("reports of refused sheets by the version before the damage and by refusal: {numbers:?}");
    assert!(VERSIONS.iter().all(|&version| (1..=11).all(|number| numbers.contains_key(&(version, number)))));
}

/// Sixteen tasks of eight frames with long times and blocking.
#[test]
fn a_long_report() {
    let frame = MOST_TICKS / MOST_TASKS as u32;
    let task = Task::with_one_deadline(MOST_TICKS, MOST_TICKS, frame, &[frame; MOST_FRAMES]);
    let bytes = sheet::write(2, &Set { policy: 0, tasks: vec![task; MOST_TASKS] });
    assert_eq!(bytes.len(), sheet::GREATEST);
    let answer = Compared::new(70).report(&bytes, REPORT_MOST);
    assert!(answer.is_multiple_of(256) && report::report(&bytes).starts_with("holds 16\n"));
    println!("a long report: {} bytes", answer >> 8);
}

/// What the scope says of cases A to M, and what N and O come to by hand, not what the second program says.
#[test]
fn cases_a_to_o() {
    for (version, case) in cases_in_versions() {
        let mut numbers = [0xEEEE_EEEE; MOST_FRAMES * 3 + 1];
        let answer = proved::analyse_sheet(&sheet::write(version, &case.set), &mut numbers);
        let (expected, times) = match case.expected {
            Expected::Refused(refusal) => (answers::refused(refusal), vec![]),
            Expected::Holds(times) => (answers::analysed(Verdict::Holds, times.len()) << 8, times),
            Expected::Missed { task, blocker, times } => (answers::analysed(Verdict::Missed { task, blocker }, times.len()) << 8, times),
        };
        let slots = times.iter().flat_map(|t| t.iter().copied().chain([0; MOST_FRAMES]).take(MOST_FRAMES));
        let left: Vec<u32> = slots.chain([0xEEEE_EEEE; MOST_FRAMES * 3 + 1]).take(numbers.len()).collect();
        assert_eq!((answer, numbers.to_vec()), (expected, left), "{}", case.name);
    }
    println!("cases A to O by the sheet's analysis, in each version: {} compared", cases_in_versions().len());
}

/// The same sheet by every entry: by bytes, by numbers, by a list that is read and analysed, and written back.
#[test]
fn entries_agree() {
    let mut random = Random::new(71);
    let mut compared = BTreeMap::new();
    for set in generate::sets_of_every_size(72, 20_000) {
        for bytes in [generate::sheet_of(&mut random, &set), generate::muddled_sheet(&mut random, &set)] {
            let (mut numbers, mut raw) = ([0; MOST_FRAMES * MOST_TASKS], [0; 4 * MOST_FRAMES * MOST_TASKS]);
            let answer = proved::analyse_sheet(&bytes, &mut numbers);
            let code = u64::from(proved::check_sheet(&bytes, &mut raw));
            assert_eq!(raw.to_vec(), numbers.iter().flat_map(|t| t.to_be_bytes()).collect::<Vec<u8>>());
            match (answer % 256, answer >> 8 & 0xFFFF) {
                (0, 0) => assert_eq!(code, 0),
                (0, outcome) => assert_eq!(code, outcome + 99),
                (refusal, _) => assert_eq!(code, refusal),
            }
            by_list(&bytes, answer, &numbers);
            *compared.entry((version_of(&bytes), answer.is_multiple_of(256))).or_insert(0u64) += 1;
        }
    }
    println!("sheets by every entry, by version and whether they were analysed: {compared:?}");
    assert!(VERSIONS.iter().all(|&version| compared[&(version, true)] >= 5_000 && compared[&(version, false)] >= 1_000));
}

/// The list of a sheet has the sheet's analysis and the sheet's bytes; a refused sheet has no list, for the same reason.
fn by_list(bytes: &[u8], answer: u64, times: &[u32]) {
    let none = Record { period: 0, lock: 0, frame_count: 0, frames: [0; MOST_FRAMES], deadlines: [0; MOST_FRAMES] };
    let mut list = [none; MOST_TASKS];
    let read = proved::read_list(bytes, &mut list);
    if !answer.is_multiple_of(256) {
        assert_eq!(read, answer);
        return;
    }
    let [_, tasks, policy, version, above @ ..] = read.to_le_bytes();
    let (tasks, policy, version) = (usize::from(tasks), u32::from(policy), u32::from(version));
    assert_eq!((version, above), (version_of(bytes), [0; 4]));
    let (mut again, mut back) = (vec![0; times.len()], [0; sheet::GREATEST]);
    assert_eq!(proved::analyse_list(policy, &list[..tasks], &mut again), answer);
    assert_eq!(again, times);
    assert_eq!(proved::write_list(version, policy, &list[..tasks], &mut back), (bytes.len() as u64) << 8);
    assert_eq!(&back[..bytes.len()], bytes);
}
