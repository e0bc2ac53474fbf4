//! The C entry that converts a sheet: the proved code against the second reading; and what both versions of a sheet have in common, by the proved code alone.
use second::compared::{no_room, version_of, Compared, OF_CONVERTED};
use second::random::Random;
use second::refusal::Refusal;
use second::sheet::{GREATEST, VERSIONS};
use second::task::{Record, Set, MOST_FRAMES, MOST_TASKS};
use second::{answers, bits, generate, proved, script_inputs, scripts, sheet};
use std::collections::BTreeMap;

/// What the header promises for every report.
const REPORT_MOST: usize = 2048;

fn other(version: u32) -> u32 {
    3 - version
}

/// Conversions by what they show, each of which must have come so often.
#[derive(Default)]
struct Ways(BTreeMap<&'static str, u64>);

impl Ways {
    fn count(&mut self, way: &'static str) {
        *self.0.entry(way).or_insert(0) += 1;
    }

    fn finish(&self, what: &str, ways: usize, least: u64) {
        println!("{what}: {:?}", self.0);
        assert!(self.0.len() == ways && self.0.values().all(|&count| count >= least));
    }
}

/// Every size of room from none to one past the need; where version 1 cannot hold the set, 17 in each.
fn in_every_room(compared: &mut Compared, ways: &mut Ways, version: u32, set: &Set) {
    let (bytes, need) = (sheet::write(other(version), set), sheet::length(version, set));
    let held = version == 2 || set.has_one_deadline_each();
    for room in generate::rooms(need) {
        let answer = compared.convert(version, &bytes, room);
        assert_eq!((answer == answers::refused(Refusal::Deadlines), no_room(answer)), (!held, held && room < need));
        ways.count(match (held, room < need) {
            (false, false) => "17",
            (false, true) => "17, room too small",
            (true, false) => "converted",
            (true, true) => "room too small",
        });
    }
}

/// A damaged sheet by every version told: its own refusal, unless 3 comes first.
fn damaged_in_every_way(compared: &mut Compared, ways: &mut Ways, set: &Set, damaged: &generate::DamagedSheet, room: usize) {
    for version in VERSIONS {
        let same = version_of(&damaged.bytes) == version;
        let before = matches!(damaged.refusal, Refusal::Length | Refusal::CheckWord);
        let expected = if same && !before { Refusal::Version } else { damaged.refusal };
        let answer = compared.convert(version, &damaged.bytes, room);
        assert_eq!(answer, answers::refused(expected), "{} to {version}", damaged.way);
        ways.count(match (same, before) {
            _ if damaged.refusal == Refusal::Version => "3 by a sheet of no version",
            (true, true) => "1 or 2 of a sheet of the version told",
            (true, false) => "3 by a sheet of the version told, other refusals after it",
            (false, _) if !set.has_one_deadline_each() => "a refusal before 17",
            (false, _) => "a refusal",
        });
    }
}

#[test]
fn sheets_are_converted_alike() {
    let mut random = Random::new(150);
    let (mut compared, mut ways) = (Compared::new(151), Ways::default());
    for (i, set) in generate::sets_of_every_size(152, 160).enumerate() {
        let set = if i % 4 == 0 { generate::with_one_deadline_each(&set) } else { set };
        in_every_room(&mut compared, &mut ways, 1, &set);
        in_every_room(&mut compared, &mut ways, 2, &generate::with_one_deadline_each(&set));
        let version = generate::version_for(&mut random, &set);
        let good = sheet::write(version, &set);
        for told in generate::NO_VERSIONS {
            assert_eq!(compared.convert(told, &good, GREATEST), 3);
            assert_eq!(compared.convert(told, &good[..i % good.len()], 0), 3);
            ways.count("3 by the version told");
        }
        assert_eq!(compared.convert(version, &good, GREATEST), 3);
        ways.count("3 by a sheet of the version told");
        for damaged in generate::damaged_sheets(&mut random, version, &set) {
            let room = random.below(GREATEST as u64 + 8) as usize;
            damaged_in_every_way(&mut compared, &mut ways, &set, &damaged, room);
        }
    }
    ways.finish("conversions by what they show", 11, 100);
    compared.finish("sheets converted", &OF_CONVERTED);
}

/// Sheets of any kind, any version told, rooms of all kinds.
#[test]
fn any_sheets_are_converted_alike() {
    let mut random = Random::new(153);
    let mut compared = Compared::new(154);
    for set in generate::sets_of_every_size(155, 30_000) {
        let set = if generate::one_in(&mut random, 3) { generate::with_one_deadline_each(&set) } else { set };
        let (good, version) = (generate::sheet_of(&mut random, &set), generate::any_version(&mut random));
        let room = generate::likely_room(&mut random, sheet::length(version, &set));
        compared.convert(version, &good, room);
        compared.convert(other(version_of(&good)), &good, room);
        compared.convert(version, &generate::muddled_sheet(&mut random, &set), room);
        compared.convert(version, &generate::random_sheet(&mut random), room);
        compared.convert(version, &bits::inverted(&good, random.below(8 * good.len() as u64) as usize), room);
    }
    compared.finish("any sheets converted", &OF_CONVERTED);
    assert!(compared.total() >= 100_000);
}

/// NULL with length 0 is an empty buffer.
#[test]
fn null_is_an_empty_buffer() {
    use std::ptr::{null, null_mut};
    let set = generate::with_one_deadline_each(&generate::costly_sets()[2]);
    let bytes = sheet::write(1, &set);
    unsafe {
        assert_eq!(proved::burrbeech_convert(2, null(), 0, null_mut(), 0), 1);
        assert_eq!(proved::burrbeech_convert(3, null(), 0, null_mut(), 0), 3);
        assert_eq!(proved::burrbeech_convert(2, bytes.as_ptr(), bytes.len(), null_mut(), 0), 12);
    }
}

// ---- by the proved code alone

/// The sheet in this version; the bytes past it stay.
fn converted(version: u32, bytes: &[u8]) -> Vec<u8> {
    let mut out = [0xEE; GREATEST + 1];
    let answer = proved::convert(version, bytes, &mut out);
    assert_eq!(answer % 256, 0, "{bytes:02x?}");
    let (sheet, rest) = out.split_at((answer >> 8) as usize);
    assert!(rest.iter().all(|&byte| byte == 0xEE));
    sheet.to_vec()
}

/// From each version to the other and back the bytes are the same; the header's bits behind the version stay.
#[test]
fn there_and_back() {
    let (mut sheets, mut sizes) = (0u64, BTreeMap::new());
    for set in generate::sets_of_every_size(156, 12_000) {
        let set = generate::with_one_deadline_each(&set);
        for version in VERSIONS {
            let there = sheet::write(version, &set);
            let over = converted(other(version), &there);
            assert_eq!((version_of(&over), bits::take(&over, 4, 12)), (other(version), bits::take(&there, 4, 12)));
            assert_eq!(converted(version, &over), there);
            sheets += 1;
        }
        *sizes.entry((set.policy, set.tasks.len())).or_insert(0u64) += 1;
    }
    println!("there and back: {sheets} sheets, {} policies and sizes", sizes.len());
    assert_eq!(sizes.len(), 3 * MOST_TASKS);
}

/// The report, in room for every one.
fn report(bytes: &[u8]) -> (u64, Vec<u8>) {
    let mut text = vec![0; REPORT_MOST];
    (proved::report(bytes, &mut text), text)
}

/// What both analyses answer and write.
fn times(bytes: &[u8]) -> (u64, u32, Vec<u32>, Vec<u8>) {
    let (mut numbers, mut raw) = (vec![0; MOST_FRAMES * MOST_TASKS], vec![0; 4 * MOST_FRAMES * MOST_TASKS]);
    let answer = proved::analyse_sheet(bytes, &mut numbers);
    (answer, proved::check_sheet(bytes, &mut raw), numbers, raw)
}

const NONE: Record = Record { period: 7, lock: 7, frame_count: 7, frames: [7; MOST_FRAMES], deadlines: [7; MOST_FRAMES] };

/// The version, the policy and the records of a sheet that is not refused.
fn read(bytes: &[u8]) -> (u32, u32, Vec<Record>) {
    let mut list = [NONE; MOST_TASKS];
    let [refusal, tasks, policy, version, above @ ..] = proved::read_list(bytes, &mut list).to_le_bytes();
    assert_eq!((refusal, above), (0, [0; 4]));
    let (records, rest) = list.split_at(usize::from(tasks));
    assert!(rest.iter().all(|record| *record == NONE));
    (u32::from(version), u32::from(policy), records.to_vec())
}

/// A sheet and what it is converted to are analysed, reported on and read alike.
#[test]
fn both_sheets_have_the_same_analysis() {
    let (mut sheets, mut verdicts) = (0u64, BTreeMap::new());
    for set in generate::sets_of_every_size(157, 12_000) {
        let one = sheet::write(1, &generate::with_one_deadline_each(&set));
        let two = converted(2, &one);
        let analysed = times(&one);
        assert_eq!(analysed, times(&two));
        assert_eq!(report(&one), report(&two));
        let ((version, policy, list), (over, again, same)) = (read(&one), read(&two));
        assert_eq!((version, over, &list), (1, 2, &same));
        assert_eq!(policy, again);
        *verdicts.entry(second::compared::verdict(analysed.0)).or_insert(0u64) += 1;
        sheets += 1;
    }
    println!("both sheets analysed: {sheets} pairs, {verdicts:?}");
    assert!(verdicts.len() == 3 && verdicts.values().all(|&count| count >= 500));
}

/// The same script ends in the same way with both, and they have the same worst run.
#[test]
fn both_sheets_have_the_same_runs() {
    let mut random = Random::new(158);
    let mut ways = Ways::default();
    for i in 0..4_000 {
        let set = generate::with_one_deadline_each(&script_inputs::short_set(&mut random, 1 + i % MOST_TASKS));
        let one = sheet::write(1, &set);
        let two = converted(2, &one);
        let script = scripts::write(&script_inputs::script(&mut random, &set, 0, 8));
        let answer = proved::play(&one, &script);
        assert_eq!(answer, proved::play(&two, &script));
        ways.count(if answer >> 40 == 16 { "done" } else { "missed" });
        let [first, second] = [&one, &two].map(|sheet| {
            let mut room = vec![0xEE; 2_000];
            (proved::worst_run(sheet, &mut room), room)
        });
        assert_eq!(first, second);
        ways.count(if first.0 == 0 { "holds" } else { "worst run" });
    }
    ways.finish("runs of both sheets", 4, 300);
}

/// Every bit of an admitted sheet of either version, by every entry that reads one.
#[test]
fn every_changed_bit_is_refused() {
    let mut changed = 0u64;
    for set in generate::sets_of_every_size(159, 3 * MOST_TASKS) {
        for bytes in [sheet::write(1, &generate::with_one_deadline_each(&set)), sheet::write(2, &set)] {
            read(&bytes);
            for at in 0..8 * bytes.len() {
                refused_by_all(&bits::inverted(&bytes, at));
                changed += 1;
            }
        }
    }
    println!("one changed bit: {changed} sheets, all refused");
    assert!(changed >= 100_000);
}

/// With 2, and nothing is written.
fn refused_by_all(bytes: &[u8]) {
    let (mut list, mut numbers, mut raw) = ([NONE; MOST_TASKS], [7; MOST_FRAMES * MOST_TASKS], [7; 4 * MOST_FRAMES * MOST_TASKS]);
    assert_eq!((proved::read_list(bytes, &mut list), list), (2, [NONE; MOST_TASKS]));
    assert_eq!((proved::analyse_sheet(bytes, &mut numbers), numbers), (2, [7; MOST_FRAMES * MOST_TASKS]));
    assert_eq!((proved::check_sheet(bytes, &mut raw), raw), (2, [7; 4 * MOST_FRAMES * MOST_TASKS]));
    let mut out = [7; GREATEST];
    assert_eq!((VERSIONS.map(|version| proved::convert(version, bytes, &mut out)), out), ([2, 2], [7; GREATEST]));
    assert!(report(bytes).1.starts_with(b"refused 2\n"));
}

/// A list that is written and read again is the same, its version and policy with it; unused slots are 0 then.
#[test]
fn written_and_read() {
    let mut random = Random::new(160);
    let mut written = BTreeMap::new();
    for set in generate::sets_of_every_size(161, 12_000) {
        let version = generate::version_for(&mut random, &set);
        let list = generate::littered(&mut random, set.list());
        let mut room = [0; GREATEST];
        let answer = proved::write_list(version, set.policy, &list, &mut room);
        assert_eq!(answer % 256, 0);
        assert_eq!(read(&room[..(answer >> 8) as usize]), (version, set.policy, set.list()));
        *written.entry((version, set.has_one_deadline_each())).or_insert(0u64) += 1;
    }
    println!("written and read, by version and whether each task has one deadline: {written:?}");
    assert!([(1, true), (2, true), (2, false)].iter().all(|key| written[key] >= 1_000));
}
