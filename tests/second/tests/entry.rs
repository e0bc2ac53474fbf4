//! The C entry of the workbench, on sheets of both versions: the proved code against the second reading.
use second::cases::{cases, cases_in_versions, Expected};
use second::compared::version_of;
use second::generate::{self, Shape};
use second::random::Random;
use second::sheet::VERSIONS;
use second::task::{Set, MOST_FRAMES, MOST_TASKS};
use second::{analysis, bits, proved, sheet};
use std::collections::{BTreeMap, BTreeSet};

/// Bytes before and after the lent buffer, which no call may touch.
const GUARD: usize = 24;

/// What a task needs of the buffer.
const TASK_BYTES: usize = 4 * MOST_FRAMES;

#[derive(Clone, Copy, Debug, PartialEq, Eq, PartialOrd, Ord)]
enum Kind {
    Holds,
    MissedByABlocker,
    MissedWithoutBlocker,
    Refused(u32),
}

impl Kind {
    fn of(answer: u32) -> Self {
        match answer {
            0 => Kind::Holds,
            1..=12 => Kind::Refused(answer),
            100.. if (answer - 100) % 17 == 16 => Kind::MissedWithoutBlocker,
            100.. => Kind::MissedByABlocker,
            _ => panic!("{answer} is no answer"),
        }
    }

    /// What can come of a sheet of either version, and with version 0 of any other.
    fn all() -> BTreeSet<(u32, Kind)> {
        let known = VERSIONS.iter().flat_map(|&version| (0..=12).chain([100, 116]).map(move |answer| (version, answer)));
        let all = known.filter(|&(_, answer)| answer != 3).chain([1, 2, 3].map(|answer| (0, answer)));
        all.map(|(version, answer)| (version, Kind::of(answer))).collect()
    }
}

/// The comparisons made so far.
struct Compared {
    random: Random,
    /// By the sheet's version, 0 for one that is none.
    kinds: BTreeMap<(u32, Kind), u64>,
    misses: BTreeSet<u32>,
}

impl Compared {
    fn new(seed: u64) -> Self {
        Compared { random: Random::new(seed), kinds: BTreeMap::new(), misses: BTreeSet::new() }
    }

    /// One sheet and a buffer of `room` bytes with any content: the same answer and the same bytes, in the buffer and around it.
    fn compare(&mut self, bytes: &[u8], room: usize) -> u32 {
        let before = self.random.bytes(GUARD + room + GUARD);
        let (mut ours, mut theirs) = (before.clone(), before.clone());
        let expected = analysis::check_sheet(bytes, &mut theirs[GUARD..][..room]);
        let answer = proved::check_sheet(bytes, &mut ours[GUARD..][..room]);
        assert_eq!(answer, expected, "room {room}, sheet {bytes:02x?}");
        assert_eq!(ours, theirs, "room {room}, sheet {bytes:02x?}");
        let written = GUARD..GUARD + written(bytes, answer);
        assert!(ours[..written.start] == before[..written.start] && ours[written.end..] == before[written.end..]);
        *self.kinds.entry((version_of(bytes), Kind::of(answer))).or_insert(0) += 1;
        if answer >= 100 {
            self.misses.insert(answer);
        }
        answer
    }

    fn total(&self) -> u64 {
        self.kinds.values().sum()
    }

    /// Prints the count of each kind.
    fn print(&self, what: &str) {
        println!("{what}: {} comparisons, {:?}", self.total(), self.kinds);
    }
}

/// How many bytes an answer of that kind writes.
fn written(bytes: &[u8], answer: u32) -> usize {
    match answer {
        1..=12 => 0,
        _ => TASK_BYTES * bits::take(bytes, 6, 5).expect("no header") as usize,
    }
}

/// A set of any kind.
fn any_set(random: &mut Random) -> Set {
    let shape = generate::shape(random);
    match random.below(10) {
        0 => generate::edge_set(random),
        1 => generate::tiny_set(random),
        2 | 3 => generate::tight_set(random, shape),
        _ => generate::set_of(random, shape),
    }
}

/// Admitted sets of every size under every policy; the buffer fits, is longer, or now and then too short.
#[test]
fn admitted_sheets() {
    let mut random = Random::new(30);
    let mut compared = Compared::new(31);
    let (mut sizes, mut loads) = (BTreeSet::new(), BTreeMap::new());
    for round in 0..120_000 {
        let set = if round % 5 == 0 { sized_set(&mut random, round / 5 % MOST_TASKS + 1) } else { any_set(&mut random) };
        let (bytes, need) = (generate::sheet_of(&mut random, &set), TASK_BYTES * set.tasks.len());
        let room = match random.below(8) {
            0 => need + random.below(80) as usize,
            1 => random.below(need as u64) as usize,
            _ => need,
        };
        compared.compare(&bytes, room);
        sizes.insert((version_of(&bytes), set.policy, set.tasks.len()));
        *loads.entry(((generate::load(&set) * 10.0) as u32).min(13)).or_insert(0u64) += 1;
    }
    compared.print("admitted sheets");
    println!("admitted sheets by tenths of load, 13 for more: {loads:?}; {} different misses", compared.misses.len());
    assert_eq!(sizes.len(), 2 * 3 * MOST_TASKS);
    assert!((3..=13).all(|load| loads.contains_key(&load)));
    for version in VERSIONS {
        let of_version = compared.kinds.iter().filter(|((v, kind), _)| *v == version && *kind != Kind::Refused(12));
        let analysed: u64 = of_version.map(|(_, count)| count).sum();
        assert!(analysed >= 30_000, "{analysed} sets analysed");
    }
}

fn sized_set(random: &mut Random, tasks: usize) -> Set {
    let shape = Shape { tasks, ..generate::shape(random) };
    generate::set_of(random, shape)
}

/// Admitted, damaged, muddled and random sheets: every answer that there is.
#[test]
fn every_kind_of_answer() {
    let mut random = Random::new(32);
    let mut compared = Compared::new(33);
    for round in 0..160 {
        let set = if round % 2 == 0 { sized_set(&mut random, round / 2 % MOST_TASKS + 1) } else { any_set(&mut random) };
        let version = generate::version_for(&mut random, &set);
        for damaged in generate::damaged_sheets(&mut random, version, &set) {
            let room = random.below(2 * 512) as usize;
            let answer = compared.compare(&damaged.bytes, room);
            assert_eq!(answer, damaged.refusal.number(), "{}: {:02x?}", damaged.way, damaged.bytes);
        }
        compared.compare(&sheet::write(version, &set), TASK_BYTES * set.tasks.len());
    }
    for _ in 0..30_000 {
        let set = any_set(&mut random);
        let room = random.below(600) as usize;
        compared.compare(&generate::muddled_sheet(&mut random, &set), room);
        compared.compare(&generate::random_sheet(&mut random), room);
    }
    compared.print("sheets of all kinds");
    assert_eq!(compared.kinds.keys().copied().collect::<BTreeSet<(u32, Kind)>>(), Kind::all());
    assert!(compared.total() >= 100_000);
}

/// Every size of buffer from none to one past the need, for sets of every size.
#[test]
fn every_room() {
    let mut random = Random::new(34);
    let mut compared = Compared::new(35);
    for round in 0..5 * MOST_TASKS {
        let set = sized_set(&mut random, round % MOST_TASKS + 1);
        let (bytes, need) = (generate::sheet_of(&mut random, &set), TASK_BYTES * set.tasks.len());
        for room in generate::rooms(need) {
            let answer = compared.compare(&bytes, room);
            assert_eq!(answer == 12, room < need, "room {room}, sheet {bytes:02x?}");
        }
    }
    compared.print("every room");
}

#[test]
fn every_changed_bit_is_refused() {
    let mut random = Random::new(36);
    let mut compared = Compared::new(37);
    let mut sets: Vec<Set> = (1..=MOST_TASKS).map(|tasks| sized_set(&mut random, tasks)).collect();
    sets.extend(cases().into_iter().map(|case| case.set));
    sets.push(generate::costly_sets()[0].clone());
    let of_one = sets.iter().map(|set| sheet::write(1, &generate::with_one_deadline_each(set)));
    let of_two = sets.iter().map(|set| sheet::write(2, set));
    for bytes in of_one.chain(of_two) {
        for at in 0..8 * bytes.len() {
            assert_eq!(compared.compare(&bits::inverted(&bytes, at), 512), 2, "bit {at} of {bytes:02x?}");
        }
    }
    compared.print("one changed bit");
}

#[test]
fn costly_sheets() {
    let mut compared = Compared::new(38);
    for set in generate::costly_sets() {
        compared.compare(&sheet::write(2, &set), TASK_BYTES * set.tasks.len());
    }
    compared.print("costly sheets");
}

/// What the scope says of cases A to M, and what N and O come to by hand, not what the second program says.
#[test]
fn cases_a_to_o() {
    for (version, case) in cases_in_versions() {
        let mut buffer = [0xEE; TASK_BYTES * 3 + 1];
        let answer = proved::check_sheet(&sheet::write(version, &case.set), &mut buffer);
        let (number, times) = match case.expected {
            Expected::Refused(refusal) => (refusal.number(), vec![]),
            Expected::Holds(times) => (0, times),
            Expected::Missed { task, blocker, times } => (100 + 17 * task as u32 + blocker.unwrap_or(16) as u32, times),
        };
        let slots = times.iter().flat_map(|t| t.iter().copied().chain([0; MOST_FRAMES]).take(MOST_FRAMES));
        let written = slots.flat_map(u32::to_be_bytes);
        let expected: Vec<u8> = written.chain([0xEE; TASK_BYTES * 3 + 1]).take(buffer.len()).collect();
        assert_eq!((answer, buffer.to_vec()), (number, expected), "{}", case.name);
    }
    println!("cases A to O by the entry, in each version: {} compared", cases_in_versions().len());
}
