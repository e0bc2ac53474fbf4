//! Time per call of the C entries and of the second program's, on the same sheets and scripts.
use second::analysis;
use second::generate::{self, Shape};
use second::random::Random;
use second::scripts::{self, Entry as Release, Script};
use second::sheet::VERSIONS;
use second::task::{Set, Task, MOST_TASKS, MOST_TICKS};
use second::{answers, sheet};
use std::hint::black_box;
use std::time::Instant;

extern "C" {
    fn burrbeech_check_sheet(sheet: *const u8, sheet_len: usize, times: *mut u8, times_len: usize) -> u32;
    fn burrbeech_play(sheet: *const u8, sheet_len: usize, script: *const u8, script_len: usize) -> u64;
    fn burrbeech_worst_run(sheet: *const u8, sheet_len: usize, script: *mut u8, script_len: usize) -> u64;
}

type Entry = fn(&[u8], &mut [u8]) -> u32;

fn proved(sheet: &[u8], times: &mut [u8]) -> u32 {
    unsafe { burrbeech_check_sheet(sheet.as_ptr(), sheet.len(), times.as_mut_ptr(), times.len()) }
}

/// How many turns are taken: one with `--one-turn`.
fn taken(turns: usize) -> usize {
    if std::env::args().any(|word| word == "--one-turn") {
        1
    } else {
        turns
    }
}

/// Nanoseconds per call, the sheets gone through `rounds` times.
fn nanoseconds(entry: Entry, sheets: &[Vec<u8>], rounds: usize) -> f64 {
    let mut times = [0; 512];
    let began = Instant::now();
    for _ in 0..rounds {
        for sheet in sheets {
            black_box(entry(black_box(sheet), &mut times));
        }
    }
    began.elapsed().as_nanos() as f64 / (rounds * sheets.len()) as f64
}

/// The least of several turns, the two programs by turns, so that other load on the machine weighs on neither.
fn measure(what: &str, sheets: &[Vec<u8>], rounds: usize, turns: usize) {
    let mut holds = 0;
    for sheet in sheets {
        let (mut ours, mut theirs) = ([0; 512], [0; 512]);
        let answer = proved(sheet, &mut ours);
        assert_eq!((answer, ours), (analysis::check_sheet(sheet, &mut theirs), theirs));
        holds += usize::from(answer == 0);
    }
    let mut least = [f64::INFINITY; 2];
    for _ in 0..taken(turns) {
        for (least, entry) in least.iter_mut().zip([proved as Entry, analysis::check_sheet]) {
            *least = least.min(nanoseconds(entry, sheets, rounds));
        }
    }
    let [ours, theirs] = least;
    let of = format!("{what} ({holds} of {} hold)", sheets.len());
    println!("{of:<60} proved {ours:>11.0} ns, second {theirs:>11.0} ns, ratio {:.2}", ours / theirs);
}

/// 1 to 6 tasks of 1 to 3 frames, periods of 1,000 to 100,000 ticks, short locks, loads of 0.3 to 0.9; in version 2 with a deadline for each frame.
fn typical(random: &mut Random, version: u32) -> Vec<u8> {
    let shape = Shape {
        tasks: 1 + random.below(6) as usize,
        least_frames: 1,
        most_frames: 3,
        least_period: 1_000,
        greatest_period: 100_000,
        most_lock: 100,
        most_early: 200,
        apart: version == 2,
        load: 300 + random.below(601) as u32,
    };
    sheet::write(version, &generate::set_of(random, shape))
}

/// Any set in a version that can hold it.
fn any(random: &mut Random) -> Vec<u8> {
    let set = generate::admitted_set(random);
    generate::sheet_of(random, &set)
}

/// One larger frame in each task, so that its time does not answer for the others, and little work in all, so that a round adds little.
fn one_larger_frame() -> Set {
    let mut tasks = vec![plain(2, &[2, 2, 2, 2, 2, 2, 2, 1]), plain(17, &[1]), plain(274, &[1])];
    tasks.extend((3..MOST_TASKS).map(|_| plain(MOST_TICKS, &[2, 1, 1, 1, 1, 1, 1, 1])));
    Set { policy: 0, tasks }
}

/// Short periods that leave a hundred-thousandth of the processor, so that the long times below take very many rounds; two of the short tasks miss, and the long times are still written. Two frame times by turns, so that no time answers for the next frame.
fn costliest_of_version_1() -> Set {
    let short = [(19, 8), (9, 1), (23, 1), (22, 1), (17, 1), (10, 3), (16, 1), (39, 4), (2, 1), (2_875, 1)];
    let mut tasks: Vec<Task> = short.map(|(period, frames)| plain(period, &vec![1; frames])).to_vec();
    tasks.extend((short.len()..MOST_TASKS).map(|_| plain(MOST_TICKS, &[2, 1, 2, 1, 2, 1, 2, 1])));
    tasks[MOST_TASKS - 1].lock = 2;
    Set { policy: 0, tasks }
}

/// In version 2 equal frames with different deadlines are worked out one by one; it holds.
fn costliest_of_version_2() -> Set {
    let short = [(2, 4), (4, 3), (5, 7), (21, 7), (422, 7)];
    let mut tasks: Vec<Task> = short.map(|(period, frames)| plain(period, &vec![1; frames])).to_vec();
    tasks.extend((short.len()..MOST_TASKS).map(|_| plain(MOST_TICKS, &[1; 8])));
    with_different_deadlines(&Set { policy: 0, tasks })
}

/// The set with eight different deadlines in each of its long tasks.
fn with_different_deadlines(set: &Set) -> Set {
    Set { policy: set.policy, tasks: set.tasks.iter().map(generate::with_different_deadlines).collect() }
}

/// One deadline, at the period, and no lock.
fn plain(period: u32, frames: &[u32]) -> Task {
    Task::with_one_deadline(period, period, 0, frames)
}

/// Milliseconds of one call that answers a number, the least of several turns by turns, where both programs answer the same.
fn measure_long(what: &str, turns: usize, mut ours: impl FnMut() -> u64, mut theirs: impl FnMut() -> u64) {
    assert_eq!(ours(), theirs());
    let mut least = [f64::INFINITY; 2];
    for _ in 0..taken(turns) {
        let began = Instant::now();
        black_box(ours());
        least[0] = least[0].min(began.elapsed().as_secs_f64());
        let began = Instant::now();
        black_box(theirs());
        least[1] = least[1].min(began.elapsed().as_secs_f64());
    }
    let [ours, theirs] = least.map(|seconds| seconds * 1e3);
    println!("{what:<60} proved {ours:>11.2} ms, second {theirs:>11.2} ms, ratio {:.2}", ours / theirs);
}

fn play_by_turns(what: &str, set: &Set, script: &Script, turns: usize) {
    let (sheet, script) = (sheet::write(1, set), scripts::write(script));
    let proved = || unsafe { burrbeech_play(sheet.as_ptr(), sheet.len(), script.as_ptr(), script.len()) };
    measure_long(what, turns, proved, || answers::play(&sheet, &script));
}

/// Sixteen tasks: fifteen that are released about every thousand ticks, some of them with locks, and a long one that is released last and runs to the end.
fn two_million_ticks() -> (Set, Script) {
    let short = |i: u32| Task::with_one_deadline(1_000 + 16 * i, 900 + 16 * i, 3, &[30]);
    let mut tasks: Vec<Task> = (1..MOST_TASKS as u32).map(short).collect();
    tasks.push(plain(MOST_TICKS, &[MOST_TICKS]));
    let mut entries = vec![Release { task: 15, tick: MOST_TICKS, work: MOST_TICKS, lock: 0 }];
    for (i, task) in tasks.iter().enumerate().take(15) {
        let ticks = (i as u32..=MOST_TICKS).step_by(task.period as usize);
        entries.extend(ticks.map(|tick| Release { task: i as u32, tick, work: 10 + i as u32, lock: 3 * (i as u32 % 2) }));
    }
    entries.sort_by_key(|entry| (entry.tick, entry.task));
    (Set { policy: 0, tasks }, Script { first_frames: vec![0; MOST_TASKS], entries })
}

/// Sixteen tasks that are released at every tick, a hundred thousand entries in all; of the sixteen of the first tick fifteen miss at once, so that the call judges the script and plays one tick.
fn hundred_thousand_entries() -> (Set, Script) {
    let tasks = vec![plain(1, &[1]); MOST_TASKS];
    let entries = (0..100_000u32).map(|j| Release { task: j % 16, tick: j / 16, work: 1, lock: 0 }).collect();
    (Set { policy: 0, tasks }, Script { first_frames: vec![0; MOST_TASKS], entries })
}

/// A long deadline that is missed below tasks of short periods: some 830,000 entries.
fn long_worst_run() -> Set {
    Set { policy: 0, tasks: vec![plain(2, &[1]), plain(5, &[1]), plain(11, &[2]), plain(MOST_TICKS, &[200_000])] }
}

fn worst_by_turns(what: &str, set: &Set, turns: usize) {
    let sheet = sheet::write(1, set);
    let (mut ours, mut theirs) = (vec![0u8; 9_000_000], vec![0u8; 9_000_000]);
    let proved = || unsafe { burrbeech_worst_run(sheet.as_ptr(), sheet.len(), ours.as_mut_ptr(), ours.len()) };
    measure_long(what, turns, proved, || answers::worst_run(&sheet, &mut theirs));
    assert!(ours == theirs);
}

fn main() {
    let mut random = Random::new(60);
    for version in VERSIONS {
        let sheets: Vec<Vec<u8>> = (0..2_000).map(|_| typical(&mut random, version)).collect();
        measure(&format!("typical, version {version}: 1 to 6 tasks, 1 to 3 frames"), &sheets, 20, 7);
    }
    let sheets: Vec<Vec<u8>> = (0..2_000).map(|_| any(&mut random)).collect();
    measure("any: 1 to 16 tasks, 1 to 8 frames, both versions", &sheets, 10, 5);
    let [missing, holding, different] = generate::costly_sets();
    measure("slow climb to a miss", &[sheet::write(1, &missing)], 1, 20);
    measure("slow climb to times, equal frames", &[sheet::write(1, &holding)], 1, 4);
    measure("slow climb to times, eight different deadlines", &[sheet::write(2, &different)], 1, 4);
    measure("slow climb to times, one larger frame", &[sheet::write(1, &one_larger_frame())], 1, 10);
    measure("the costliest found of version 1", &[sheet::write(1, &costliest_of_version_1())], 1, 3);
    measure("the costliest found of version 2", &[sheet::write(2, &costliest_of_version_2())], 1, 3);
    let (set, script) = two_million_ticks();
    play_by_turns("a play of two million ticks, sixteen tasks", &set, &script, 5);
    let (set, script) = hundred_thousand_entries();
    play_by_turns("a script of 100,000 entries judged, one tick played", &set, &script, 10);
    worst_by_turns("a worst run of some 830,000 entries written", &long_worst_run(), 3);
}
