//! The C entries for lent lists of task records, read from and written to sheets of both versions: the proved code against the second reading.
use second::compared::{no_room, verdict, Compared, OF_LISTS, OF_SHEETS, OF_WRITTEN};
use second::generate;
use second::random::Random;
use second::refusal::Refusal;
use second::sheet::VERSIONS;
use second::task::{Record, MOST_FRAMES, MOST_TASKS};
use second::{answers, sheet};
use std::collections::BTreeMap;

/// The list is what lies in the lent room; in front of it and behind it stand other records.
#[test]
fn sheets_are_read_alike() {
    let mut random = Random::new(40);
    let mut compared = Compared::new(41);
    for set in generate::sets_of_every_size(42, 160) {
        let version = generate::version_for(&mut random, &set);
        let (bytes, n) = (sheet::write(version, &set), set.tasks.len());
        for room in generate::rooms(n) {
            assert_eq!(no_room(compared.read_list(&bytes, room)), room < n);
        }
        for damaged in generate::damaged_sheets(&mut random, version, &set) {
            let room = random.below(MOST_TASKS as u64 + 2) as usize;
            let answer = compared.read_list(&damaged.bytes, room);
            assert_eq!(answer, answers::refused(damaged.refusal), "{}", damaged.way);
        }
    }
    for set in generate::sets_of_every_size(43, 20_000) {
        let need = generate::likely_room(&mut random, set.tasks.len());
        compared.read_list(&generate::sheet_of(&mut random, &set), need);
        compared.read_list(&generate::muddled_sheet(&mut random, &set), MOST_TASKS);
        compared.read_list(&generate::random_sheet(&mut random), need);
    }
    compared.finish("sheets read into lists", &OF_SHEETS);
}

#[test]
fn lists_are_written_alike() {
    let mut random = Random::new(44);
    let mut compared = Compared::new(45);
    for set in generate::sets_of_every_size(46, 120) {
        let list = generate::littered(&mut random, set.list());
        for version in VERSIONS {
            let (length, held) = (sheet::length(version, &set), version == 2 || set.has_one_deadline_each());
            for room in generate::rooms(length) {
                let answer = compared.write_list(version, set.policy, &list, room);
                assert_eq!((answer == answers::refused(Refusal::Deadlines), no_room(answer)), (!held, held && room < length));
            }
        }
        for damaged in generate::damaged_lists(&mut random, &set) {
            let list = generate::littered(&mut random, damaged.list);
            let room = random.below(sheet::GREATEST as u64 + 8) as usize;
            for version in VERSIONS {
                let answer = compared.write_list(version, damaged.policy, &list, room);
                assert_eq!(answer, answers::refused(damaged.refusal), "{}", damaged.way);
            }
            let version = generate::any_version(&mut random);
            compared.write_list(version, damaged.policy, &list, room);
        }
        for version in generate::NO_VERSIONS {
            assert_eq!(compared.write_list(version, set.policy, &list, sheet::GREATEST), 3);
        }
    }
    for set in generate::sets_of_every_size(47, 30_000) {
        let list = generate::littered(&mut random, set.list());
        let version = generate::any_version(&mut random);
        let room = generate::likely_room(&mut random, sheet::length(version, &set));
        compared.write_list(version, set.policy, &list, room);
        compared.write_list(version, any_policy(&mut random), &muddled(&mut random, list), room);
    }
    compared.finish("lists written to sheets", &OF_WRITTEN);
}

#[test]
fn lists_are_analysed_alike() {
    let mut random = Random::new(48);
    let mut compared = Compared::new(49);
    let mut verdicts = BTreeMap::new();
    for set in generate::sets_of_every_size(50, 120) {
        let list = generate::littered(&mut random, set.list());
        let need = MOST_FRAMES * list.len();
        for room in generate::rooms(need) {
            assert_eq!(no_room(compared.analyse_list(set.policy, &list, room)), room < need);
        }
        for damaged in generate::damaged_lists(&mut random, &set) {
            let list = generate::littered(&mut random, damaged.list);
            let room = random.below(140) as usize;
            let answer = compared.analyse_list(damaged.policy, &list, room);
            assert_eq!(answer, answers::refused(damaged.refusal), "{}", damaged.way);
        }
    }
    for set in generate::sets_of_every_size(51, 130_000) {
        let list = generate::littered(&mut random, set.list());
        let room = generate::likely_room(&mut random, MOST_FRAMES * list.len());
        let answer = compared.analyse_list(set.policy, &list, room);
        if answer.is_multiple_of(256) {
            *verdicts.entry(verdict(answer)).or_insert(0u64) += 1;
        }
        if random.below(4) == 0 {
            compared.analyse_list(any_policy(&mut random), &muddled(&mut random, list), room);
        }
    }
    compared.finish("lists analysed", &OF_LISTS);
    println!("verdicts of lists: {verdicts:?}");
    assert!(verdicts.len() == 3 && verdicts.values().sum::<u64>() >= 100_000);
}

/// Mostly one that there is.
fn any_policy(random: &mut Random) -> u32 {
    match random.below(20) {
        0 => random.next() as u32,
        _ => random.below(3) as u32,
    }
}

/// The list with up to three numbers of any value, so that several refusals contend.
fn muddled(random: &mut Random, mut list: Vec<Record>) -> Vec<Record> {
    for _ in 0..=random.below(3) {
        let number = random.below(list.len() as u64) as usize;
        let record = &mut list[number];
        let slot = random.below(8) as usize;
        let near = [0, 1, record.period, record.deadlines[slot], record.frames[slot], 1_048_575, 1_048_576, random.next() as u32];
        let value = near[random.below(8) as usize];
        match random.below(5) {
            0 => record.period = value,
            1 => record.deadlines[slot] = value,
            2 => record.lock = value,
            3 => record.frame_count = random.below(11) as u32,
            _ => record.frames[slot] = value,
        }
    }
    list
}
