//! The test for a start frame, whose answer every C entry that names the task of a refusal passes on: the proved code against the second reading.
use second::analysis::analyse;
use second::compared::Compared;
use second::jobs::Equation;
use second::random::Random;
use second::task::{start_frame, Set, Task, MOST_FRAMES, MOST_TASKS};
use second::{generate, proved, sheet};
use std::cmp::Ordering;
use std::collections::{BTreeMap, BTreeSet};

/// The comparisons by each entry whose answer names the task of a refusal.
struct Entries {
    random: Random,
    read: Compared,
    written: Compared,
    lists: Compared,
    sheets: Compared,
}

impl Entries {
    fn new(seed: u64) -> Self {
        let [read, written, lists, sheets] = [1, 2, 3, 4].map(|i| Compared::new(seed + i));
        Entries { random: Random::new(seed), read, written, lists, sheets }
    }

    /// Lent room that fits most of the time.
    fn room(&mut self, need: usize) -> usize {
        generate::likely_room(&mut self.random, need)
    }

    /// The set by its list and by its sheet, which are refused alike, also by a writer of the other version; the answer of the sheet's analysis.
    fn compare(&mut self, set: &Set) -> u64 {
        let (bytes, n) = (generate::sheet_of(&mut self.random, set), set.tasks.len());
        let version = 1 + self.random.below(2) as u32;
        let list = generate::littered(&mut self.random, set.list());
        let [records, length, times] = [n, sheet::length(version, set), MOST_FRAMES * n].map(|need| self.room(need));
        let answer = self.sheets.analyse_sheet(&bytes, times);
        let read = self.read.read_list(&bytes, records);
        let written = self.written.write_list(version, set.policy, &list, length);
        let analysed = self.lists.analyse_list(set.policy, &list, times);
        if answer % 256 == 11 {
            assert_eq!([read, written, analysed], [answer; 3], "{set:?}");
            number_alone(&bytes);
        }
        answer
    }

    fn total(&self) -> u64 {
        [&self.read, &self.written, &self.lists, &self.sheets].iter().map(|compared| compared.total()).sum()
    }
}

/// The workbench's entry and the report say 11 and no more.
fn number_alone(bytes: &[u8]) {
    let (mut times, mut text) = ([7; 4 * MOST_FRAMES * MOST_TASKS], [7; 12]);
    assert_eq!(proved::check_sheet(bytes, &mut times), 11);
    assert_eq!(proved::report(bytes, &mut text), 11 << 8);
    assert_eq!((times, &text), ([7; 4 * MOST_FRAMES * MOST_TASKS], b"refused 11\n\x07"));
}

/// How many compared sets reached each start of those analysed, and each part of the proved reasons.
#[derive(Default)]
struct Reached {
    counts: BTreeMap<&'static str, BTreeMap<usize, u64>>,
    /// Reasons, with the number of frames: m, frame, length, other frame.
    reasons: BTreeSet<[usize; 4]>,
}

impl Reached {
    fn count(&mut self, what: &'static str, number: usize) {
        *self.counts.entry(what).or_default().entry(number).or_insert(0) += 1;
    }

    fn answer(&mut self, set: &Set, answer: u64) {
        let [refusal, task, frame, length, other, ..] = answer.to_le_bytes().map(usize::from);
        if refusal == 11 {
            self.count("task", task);
            self.count("frame", frame);
            self.count("length", length);
            self.count("other frame", other);
            let frames = &set.tasks[task].frames;
            self.count("largest frames", frames.iter().filter(|&&c| c == frames[frame]).count());
            self.reasons.insert([frames.len(), frame, length, other]);
        }
        if refusal == 0 {
            set.tasks.iter().for_each(|t| self.count("start", start_frame(&t.frames).expect("no start frame")));
        }
    }

    /// Prints the counts; every start and every part of a reason must have come so often.
    fn finish(&self, what: &str, least: u64) {
        println!("{what}: {:?}, {} different reasons", self.counts, self.reasons.len());
        let all = |what: &str, mut numbers: std::ops::Range<usize>| numbers.all(|n| self.counts[what][&n] >= least);
        assert!(["start", "frame", "other frame"].iter().all(|what| all(what, 0..MOST_FRAMES)));
        assert!(all("length", 2..MOST_FRAMES) && all("largest frames", 1..4));
    }
}

/// The list as that of a task, with a task below it that waits for one round of it and more.
fn over_a_long_task(frames: &[u32]) -> Set {
    let task = |period, frames: &[u32]| Task::with_one_deadline(period, period, 0, frames);
    Set { policy: 0, tasks: vec![task(5, frames), task(200, &[8, 7, 6, 5, 4, 3, 2, 1].map(|n| 4 * n))] }
}

/// Every list of times from 1 to 4 alone, and one that has a start also over a task that waits for it.
#[test]
fn every_list_of_few_times() {
    let (mut entries, mut reached) = (Entries::new(90), Reached::default());
    let (mut lists, mut not_the_first_largest, mut told) = (0, 0, 0);
    for frames in (1..=MOST_FRAMES).flat_map(|count| generate::frame_lists(count, 4)) {
        let set = over_a_long_task(&frames);
        let alone = Set { policy: 0, tasks: set.tasks[..1].to_vec() };
        reached.answer(&alone, entries.compare(&alone));
        lists += 1;
        let Ok(start) = start_frame(&frames) else { continue };
        reached.answer(&set, entries.compare(&set));
        let first_largest = frames.iter().position(|&c| c == alone.tasks[0].largest_frame()).expect("no frame");
        if start != first_largest {
            not_the_first_largest += 1;
            // taken as the start, that frame would give the task below other times
            told += u32::from(Equation { starts: vec![first_largest, 0], ..Equation::of(&set) }.analysis() != analyse(&set));
        }
    }
    println!("{lists} lists, {} comparisons; start not the first largest frame: {not_the_first_largest}, told {told}", entries.total());
    reached.finish("every list of times 1 to 4", 1_000);
    // lists with times up to 8 have no others
    assert_eq!(reached.reasons.len(), 364);
    assert!(lists == 87_380 && not_the_first_largest >= 5_000 && told >= 5_000);
}

/// Sets of every size, in which several tasks may lack a start; the first of them is named, with its own reason.
#[test]
fn the_first_task_without_a_start() {
    let mut random = Random::new(91);
    let (mut entries, mut reached, mut several) = (Entries::new(92), Reached::default(), 0);
    for _ in 0..10_000 {
        let set = generate::set_of_lists(&mut random);
        let answer = entries.compare(&set);
        reached.answer(&set, answer);
        several += u32::from(set.tasks.iter().filter(|t| start_frame(&t.frames).is_err()).count() > 1);
    }
    reached.finish("sets of any lists", 50);
    println!("{} comparisons; sets with several tasks without a start: {several}", entries.total());
    assert!(several >= 1_000);
    let of_sheets: [(u32, &[u64]); 2] = [(1, &[0, 11, 12]), (2, &[0, 11, 12])];
    entries.read.finish("sheets read", &of_sheets);
    entries.sheets.finish("sheets analysed", &of_sheets);
    entries.lists.finish("lists analysed", &[(0, &[0, 11, 12])]);
    entries.written.finish("lists written", &[(1, &[0, 11, 12, 17]), (2, &[0, 11, 12])]);
}

/// Beside a task without a start something else is wrong, in every way of the scope's table: what comes first is the answer.
#[test]
fn eleven_keeps_its_place() {
    let mut random = Random::new(97);
    let mut entries = Entries::new(98);
    let mut beside = BTreeMap::new();
    for mut set in generate::sets_of_every_size(103, 64) {
        let number = random.below(set.tasks.len() as u64) as usize;
        set.tasks[number] = generate::not_monotonic(&mut random, &set.tasks[number]).0;
        let mut count = |answer: u64| {
            let [refusal, task, ..] = answer.to_le_bytes().map(usize::from);
            *beside.entry((refusal, task.cmp(&number))).or_insert(0u64) += 1;
        };
        let version = generate::version_for(&mut random, &set);
        for damaged in generate::damaged_sheets(&mut random, version, &set) {
            entries.read.read_list(&damaged.bytes, random.below(17) as usize);
            count(entries.sheets.analyse_sheet(&damaged.bytes, random.below(140) as usize));
        }
        for damaged in generate::damaged_lists(&mut random, &set) {
            let list = generate::littered(&mut random, damaged.list);
            entries.written.write_list(version, damaged.policy, &list, random.below(740) as usize);
            count(entries.lists.analyse_list(damaged.policy, &list, random.below(140) as usize));
        }
    }
    println!(
        "beside a task without a start, {} comparisons, by refusal and its task before, at or after that one: {beside:?}",
        entries.total()
    );
    assert_eq!(beside.keys().map(|key| key.0).collect::<BTreeSet<usize>>(), (1..=11).collect());
    for refusal in [9, 10, 11] {
        assert!([Ordering::Less, Ordering::Equal].iter().all(|&place| beside[&(refusal, place)] >= 100));
        assert!(!beside.contains_key(&(refusal, Ordering::Greater)));
    }
    assert!(beside[&(7, Ordering::Greater)] >= 1_000);
}
