//! The work of n jobs by the formula and by the sum over the jobs, and the workbench's C entry against the equation read job by job.
use second::analysis::{Analysis, Higher, Verdict};
use second::generate::{self, Shape};
use second::jobs::{releases, Equation, Work};
use second::random::Random;
use second::refusal::Refusal;
use second::task::{start_frame, sum_from, Set, Task, MOST_FRAMES, MOST_TICKS};
use second::{proved, sheet};
use std::collections::{BTreeMap, BTreeSet};

/// What a task needs of the lent room.
const TASK_BYTES: usize = 4 * MOST_FRAMES;

type Counts = BTreeMap<&'static str, usize>;

fn count(counts: &mut Counts, what: &'static str, reached: bool) {
    *counts.entry(what).or_insert(0) += usize::from(reached);
}

/// The formula in its parts: so many rounds, and so many frames more from this one on.
fn formula(frames: &[u32], rounds: usize, from: usize, remaining: usize) -> u64 {
    rounds as u64 * sum_from(frames, 0, frames.len()) + sum_from(frames, from, remaining)
}

/// The formula with one part wrong.
const WRONG: [(&str, Work); 3] = [
    ("rounds rounded up", |frames, start, n| formula(frames, n.div_ceil(frames.len()), start, n % frames.len())),
    ("remaining frames from frame 0", |frames, _, n| formula(frames, n / frames.len(), 0, n % frames.len())),
    ("one frame too many", |frames, start, n| formula(frames, n / frames.len(), start, n % frames.len() + 1)),
];

/// Frames that have a start, and numbers of jobs: around one round, around many, and of each scale up to the most that there can be.
fn frames_and_jobs() -> BTreeSet<(Vec<u32>, usize)> {
    let mut random = Random::new(80);
    let mut inputs = BTreeSet::new();
    for _ in 0..8_000 {
        let m = 1 + random.below(MOST_FRAMES as u64) as usize;
        let greatest = [3, 20, u64::from(MOST_TICKS)][random.below(3) as usize];
        let frames = (0..m).map(|_| 1 + random.below(greatest) as u32).collect();
        let frames = generate::arranged(&mut random, frames);
        let (rounds, scale) = (m * (2 + random.below(100) as usize), 1 + random.below(20));
        let (within, any) = (random.below(m as u64) as usize, random.below(1 << scale) as usize);
        inputs.extend([0, 1, m - 1, m, m + 1, rounds, rounds + within, any].map(|n| (frames.clone(), n)));
    }
    inputs
}

/// The wrong formulas show that the inputs would tell.
#[test]
fn the_formula_is_the_sum_over_the_jobs() {
    let inputs = frames_and_jobs();
    let (mut reached, mut told) = (Counts::new(), Counts::new());
    for (frames, n) in &inputs {
        let (m, start) = (frames.len(), start_frame(frames).expect("no start frame"));
        let sum = sum_from(frames, start, *n);
        let task = Task::with_one_deadline(MOST_TICKS, MOST_TICKS, 0, frames);
        assert_eq!(Higher::new(&task).work(*n as u32), sum, "{n} jobs of {frames:?}");
        assert_eq!(formula(frames, n / m, start, n % m), sum, "{n} jobs of {frames:?}");
        let (turned, remain, rounds) = (start != 0, n % m != 0, n / m >= 2);
        count(&mut reached, "start not 0", turned);
        count(&mut reached, "frames remain", remain);
        count(&mut reached, "two rounds", rounds);
        count(&mut reached, "all three", turned && remain && rounds);
        WRONG.iter().for_each(|(name, wrong)| count(&mut told, name, wrong(frames, start, *n) != sum));
    }
    println!("work of n jobs: {} comparisons, {reached:?}", inputs.len());
    println!("wrong formulas told by the work: {told:?}");
    assert!(inputs.len() >= 20_000 && reached.values().chain(told.values()).all(|&n| n >= 5_000));
}

/// One to six tasks, with periods short enough to try every t.
fn short_set(random: &mut Random) -> Set {
    let tasks = 1 + random.below(6) as usize;
    let greatest_period = [60, 200][random.below(2) as usize];
    let shape = Shape { tasks, least_period: 2, greatest_period, ..generate::shape(random) };
    if generate::one_in(random, 4) {
        generate::tight_set(random, shape)
    } else {
        generate::set_of(random, shape)
    }
}

/// A task with a very short period and several frames, and longer ones that wait for rounds of it.
fn set_of_rounds(random: &mut Random) -> Set {
    let first =
        Shape { tasks: 1, least_frames: 2, most_frames: 5, least_period: 3, greatest_period: 12, load: 500, ..generate::shape(random) };
    let tasks = 1 + random.below(5) as usize;
    let others = Shape { tasks, least_period: 40, greatest_period: 200, load: 300, ..generate::shape(random) };
    let mut set = generate::set_of(random, first);
    set.tasks.extend(generate::set_of(random, others).tasks);
    set
}

/// The answer of the entry, and what the call leaves in a room with this content.
fn entry(bytes: &[u8], before: &[u8]) -> (u32, Vec<u8>) {
    let mut room = before.to_vec();
    (proved::check_sheet(bytes, &mut room), room)
}

/// The verdict's number and the times in bytes; bytes after them stay.
fn compare(random: &mut Random, set: &Set, analysis: &Analysis) {
    let times: Vec<u8> = analysis.slots().iter().flat_map(|t| t.to_be_bytes()).collect();
    let length = TASK_BYTES * set.tasks.len() + random.below(9) as usize;
    let before = random.bytes(length);
    let after = [&times, &before[times.len()..]].concat();
    let sheet = generate::sheet_of(random, set);
    assert_eq!(entry(&sheet, &before), (analysis.verdict.code(), after), "{set:?}");
}

fn kind(verdict: Verdict) -> &'static str {
    match verdict {
        Verdict::Holds => "holds",
        Verdict::Missed { blocker: None, .. } => "missed, no blocker",
        Verdict::Missed { .. } => "missed, blocker",
    }
}

/// The tasks, by number, of which a lower one's response time takes a whole round and frames that remain.
fn gone_round(set: &Set, analysis: &Analysis) -> BTreeSet<usize> {
    let mut found = BTreeSet::new();
    for (place, &task) in analysis.order.iter().enumerate() {
        for &t in analysis.answers[task].times.iter().flatten() {
            found.extend(analysis.order[..place].iter().filter(|&&i| {
                let (n, m) = (releases(t, set.tasks[i].period), set.tasks[i].frames.len());
                n > m && n % m != 0
            }));
        }
    }
    found
}

/// The wrong formulas show that the sets would tell.
#[test]
fn the_entry_answers_as_the_equation_job_by_job() {
    let mut random = Random::new(81);
    let (mut reached, mut told, mut sizes) = (Counts::new(), Counts::new(), BTreeSet::new());
    for round in 0..20_000 {
        let set = if round % 2 == 0 { short_set(&mut random) } else { set_of_rounds(&mut random) };
        let equation = Equation::of(&set);
        let analysis = equation.analysis();
        compare(&mut random, &set, &analysis);
        let gone = gone_round(&set, &analysis);
        count(&mut reached, kind(analysis.verdict), true);
        count(&mut reached, "a round and more", !gone.is_empty());
        count(&mut reached, "a round and more, start not 0", gone.iter().any(|&i| equation.starts[i] != 0));
        WRONG.iter().for_each(|&(name, work)| count(&mut told, name, Equation { work, ..Equation::of(&set) }.analysis() != analysis));
        sizes.insert((set.policy, set.tasks.len()));
    }
    println!("sets job by job: {reached:?}, {} policies and sizes", sizes.len());
    println!("wrong formulas told by the sets: {told:?}");
    assert_eq!(sizes.len(), 3 * 6);
    assert!(reached.len() == 5 && reached.values().chain(told.values()).all(|&n| n >= 2_000));
}

/// Damaged, muddled and random sheets as far as they are refused, and too little room: the second reading's number, and nothing written.
#[test]
fn the_entry_refuses_as_the_second_reading() {
    let mut random = Random::new(82);
    let mut refusals = BTreeMap::new();
    let mut refused = |bytes: &[u8], room: &[u8], refusal: Refusal| {
        assert_eq!(entry(bytes, room), (refusal.number(), room.to_vec()), "{bytes:02x?}");
        *refusals.entry(refusal.number()).or_insert(0u64) += 1;
    };
    for _ in 0..100 {
        let set = short_set(&mut random);
        let version = generate::version_for(&mut random, &set);
        let mut sheets: Vec<Vec<u8>> = generate::damaged_sheets(&mut random, version, &set).into_iter().map(|d| d.bytes).collect();
        sheets.extend((0..20).map(|_| generate::muddled_sheet(&mut random, &set)));
        sheets.extend((0..20).map(|_| generate::random_sheet(&mut random)));
        let length = random.below(300) as usize;
        let room = random.bytes(length);
        for bytes in sheets {
            // one that is admitted may have a deadline too long to try every t
            if let Err(refusal) = sheet::read(&bytes) {
                refused(&bytes, &room, refusal);
            }
        }
        let little = random.below((TASK_BYTES * set.tasks.len()) as u64) as usize;
        refused(&sheet::write(version, &set), &random.bytes(little), Refusal::Room);
    }
    println!("sheets refused by the entry, by refusal: {refusals:?}");
    assert_eq!(refusals.into_keys().collect::<Vec<u32>>(), (1..=12).collect::<Vec<u32>>());
}
