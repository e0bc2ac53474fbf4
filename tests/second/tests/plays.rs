//! Run scripts by the C entries, on sheets of both versions: the proved code against the second reading, and what the scope says of scripts worked by hand.
use second::analysis::{analyse, Verdict};
use second::cases::cases;
use second::compared::version_of;
use second::proved::{burrbeech_play, burrbeech_trace, burrbeech_worst_run, play, trace, worst_run};
use second::random::Random;
use second::refusal::Refusal;
use second::scripts::{self, Entry, Script};
use second::sheet::VERSIONS;
use second::task::{Set, Task, MOST_TASKS, MOST_TICKS};
use second::{answers, bits, check_word, generate, script_inputs, sheet};
use std::collections::{BTreeMap, BTreeSet};

/// Memory before and after what is lent, which no call may touch.
const GUARD: usize = 24;

/// The comparisons made with one entry.
struct Compared {
    random: Random,
    /// By the sheet's version, 0 for one that is none, and by refusal, 0 for none.
    counts: BTreeMap<(u32, u64), u64>,
    /// Refusals with their details.
    refusals: BTreeSet<(u64, u64)>,
    /// Tasks that were seen to miss, 16 for plays without a miss.
    ends: BTreeMap<u64, u64>,
}

impl Compared {
    fn new(seed: u64) -> Self {
        Compared { random: Random::new(seed), counts: BTreeMap::new(), refusals: BTreeSet::new(), ends: BTreeMap::new() }
    }

    fn count(&mut self, sheet: &[u8], answer: u64) {
        *self.counts.entry((version_of(sheet), answer & 0xFF)).or_insert(0) += 1;
        if answer & 0xFF > 0 {
            self.refusals.insert((answer & 0xFF, answer >> 8));
        }
    }

    /// Also by the task that misses.
    fn count_play(&mut self, sheet: &[u8], answer: u64) {
        self.count(sheet, answer);
        if answer & 0xFF == 0 {
            assert!(answer >> 40 <= 16);
            *self.ends.entry(answer >> 40).or_insert(0) += 1;
        }
    }

    fn play(&mut self, sheet: &[u8], script: &[u8]) -> u64 {
        let answer = play(sheet, script);
        assert_eq!(answer, answers::play(sheet, script), "sheet {sheet:02x?}, script {script:02x?}");
        self.count_play(sheet, answer);
        answer
    }

    /// The same number and the same content, in the lent room and around it; a refused call changes nothing.
    fn lend(&mut self, room: usize, second: impl FnOnce(&mut [u8]) -> u64, proved: impl FnOnce(&mut [u8]) -> u64) -> u64 {
        let before = self.random.bytes(GUARD + room + GUARD);
        let (mut ours, mut theirs) = (before.clone(), before.clone());
        let expected = second(&mut theirs[GUARD..][..room]);
        let answer = proved(&mut ours[GUARD..][..room]);
        assert_eq!(answer, expected, "room {room}");
        assert!(ours == theirs, "answer {answer:x}, room {room}: the content differs");
        assert!(answer & 0xFF == 0 || ours == before, "refusal {} changed something", answer & 0xFF);
        answer
    }

    fn trace(&mut self, sheet: &[u8], script: &[u8], room: usize) -> u64 {
        let answer = self.lend(room, |ticks| answers::trace(sheet, script, ticks), |ticks| trace(sheet, script, ticks));
        self.count_play(sheet, answer);
        answer
    }

    fn worst_run(&mut self, sheet: &[u8], room: usize) -> u64 {
        let answer = self.lend(room, |script| answers::worst_run(sheet, script), |script| worst_run(sheet, script));
        self.count(sheet, answer);
        answer
    }

    fn total(&self) -> u64 {
        self.counts.values().sum()
    }

    /// Prints the counts; every refusal that the entry can give must have come for sheets of each version, and those with a task number for every task.
    fn finish(&self, what: &str, reachable: &[u64]) {
        println!("{what}: {} comparisons, by version and refusal: {:?}", self.total(), self.counts);
        if !self.ends.is_empty() {
            println!("{what}: plays by the task that missed, 16 for none: {:?}", self.ends);
        }
        let given: BTreeSet<u64> = self.counts.keys().map(|key| key.1).collect();
        assert_eq!(given.into_iter().collect::<Vec<u64>>(), reachable);
        // of a version that is none there is no more than 3
        assert!(VERSIONS.iter().all(|&v| reachable.iter().all(|&n| n == 3 || self.counts.contains_key(&(v, n)))));
        for refusal in reachable.iter().filter(|n| [7, 9, 10, 11].contains(n)) {
            let tasks: BTreeSet<u64> = self.refusals.iter().filter(|r| r.0 == *refusal).map(|r| r.1 % 256).collect();
            assert_eq!(tasks.len(), MOST_TASKS, "refusal {refusal}");
        }
        assert!(self.refusals.iter().all(|&(n, detail)| [7, 9, 10, 11, 14].contains(&n) || detail == 0));
    }
}

/// Sets and scripts that keep the rules.
fn plays(seed: u64, count: usize) -> impl Iterator<Item = (Set, Script)> {
    let mut random = Random::new(seed);
    (0..count).map(move |i| {
        let set = match i % 20 {
            0 => generate::tiny_set(&mut random),
            1..=3 => script_inputs::short_set(&mut random, MOST_TASKS),
            _ => script_inputs::short_set(&mut random, 1 + i / 20 % MOST_TASKS),
        };
        let script = match i % 3 {
            0 => script_inputs::near_worst(&mut random, &set),
            _ => script_inputs::script(&mut random, &set, 0, 8),
        };
        (set, script)
    })
}

/// How many ticks an answer that is none of a refusal tells.
fn ticks_of(answer: u64) -> usize {
    (answer >> 8 & 0xFFFF_FFFF) as usize
}

#[test]
fn plays_and_traces_are_alike() {
    let mut random = Random::new(110);
    let (mut played, mut traced) = (Compared::new(111), Compared::new(112));
    for (set, script) in plays(113, 12_000) {
        let (sheet, bytes) = (generate::sheet_of(&mut random, &set), scripts::write(&script));
        let answer = played.play(&sheet, &bytes);
        let need = ticks_of(answer);
        for room in [need, need + 1, need.saturating_sub(1), random.below(need as u64 + 9) as usize] {
            assert_eq!(traced.trace(&sheet, &bytes, room), if room < need { 12 } else { answer });
        }
    }
    played.finish("plays", &[0]);
    traced.finish("traces", &[0, 12]);
    assert!((0..=16).all(|task| played.ends[&task] >= 50), "{:?}", played.ends);
}

/// Every size of room from none to one past the need.
#[test]
fn every_room_of_a_trace() {
    let (mut random, mut compared) = (Random::new(142), Compared::new(114));
    for (set, script) in plays(115, 400) {
        let (sheet, bytes) = (generate::sheet_of(&mut random, &set), scripts::write(&script));
        let need = ticks_of(answers::play(&sheet, &bytes));
        for room in generate::rooms(need) {
            assert_eq!(compared.trace(&sheet, &bytes, room) == 12, room < need);
        }
    }
    compared.finish("every room of a trace", &[0, 12]);
}

/// 13 and 14 in every way; each item is named by its place.
#[test]
fn damaged_scripts_are_refused_alike() {
    let mut random = Random::new(116);
    let (mut played, mut traced) = (Compared::new(117), Compared::new(118));
    let mut ways = BTreeMap::new();
    for (set, script) in plays(119, 120) {
        let sheet = generate::sheet_of(&mut random, &set);
        for damaged in script_inputs::damaged_scripts(&mut random, &set, &script) {
            let expected = answers::refused(damaged.refusal);
            assert_eq!(played.play(&sheet, &damaged.bytes), expected, "{}", damaged.way);
            assert_eq!(traced.trace(&sheet, &damaged.bytes, random.below(40) as usize), expected, "{}", damaged.way);
            *ways.entry(damaged.way).or_insert(0u64) += 1;
        }
    }
    println!("damaged scripts by way: {ways:?}");
    played.finish("damaged scripts played", &[13, 14]);
    traced.finish("damaged scripts traced", &[13, 14]);
    assert!(ways.len() == 16 && ways.values().all(|&count| count >= 100));
    let items: BTreeSet<u64> = played.refusals.iter().filter(|r| r.0 == 14).map(|r| r.1).collect();
    assert!((0..50).all(|item| items.contains(&item)), "{items:?}");
}

/// Scripts with several things wrong, and random bytes with a right check word.
#[test]
fn muddled_scripts_are_answered_alike() {
    let mut random = Random::new(120);
    let (mut played, mut traced) = (Compared::new(121), Compared::new(122));
    for (set, script) in plays(123, 12_000) {
        let sheet = generate::sheet_of(&mut random, &set);
        let muddled = scripts::write(&script_inputs::muddled(&mut random, &set, &script));
        let room = random.below(120) as usize;
        for bytes in [muddled, script_inputs::random_script(&mut random, set.tasks.len())] {
            played.play(&sheet, &bytes);
            traced.trace(&sheet, &bytes, room);
        }
    }
    played.finish("muddled scripts played", &[0, 13, 14]);
    traced.finish("muddled scripts traced", &[0, 12, 13, 14]);
    assert!(played.counts.values().all(|&count| count >= 150) && traced.counts.values().all(|&count| count >= 150));
}

/// A sheet that is refused is refused as by itself, whatever the script and the room.
#[test]
fn the_sheet_comes_first() {
    let mut random = Random::new(124);
    let (mut played, mut traced, mut written) = (Compared::new(125), Compared::new(126), Compared::new(127));
    for set in generate::sets_of_every_size(128, 48) {
        let good = scripts::write(&script_inputs::script(&mut random, &set, 0, 1));
        let version = generate::version_for(&mut random, &set);
        for damaged in generate::damaged_sheets(&mut random, version, &set) {
            let expected = answers::refused(damaged.refusal);
            let script = match random.below(3) {
                0 => good.clone(),
                1 => script_inputs::random_script(&mut random, set.tasks.len()),
                _ => {
                    let length = random.below(30) as usize;
                    random.bytes(length)
                }
            };
            let room = random.below(40) as usize;
            assert_eq!(played.play(&damaged.bytes, &script), expected, "{}", damaged.way);
            assert_eq!(traced.trace(&damaged.bytes, &script, room), expected, "{}", damaged.way);
            assert_eq!(written.worst_run(&damaged.bytes, room), expected, "{}", damaged.way);
        }
    }
    let every: Vec<u64> = (1..=11).collect();
    played.finish("refused sheets played", &every);
    traced.finish("refused sheets traced", &every);
    written.finish("refused sheets, worst run", &every);
}

#[test]
fn every_changed_bit_of_a_script_is_refused() {
    let (mut random, mut compared) = (Random::new(143), Compared::new(129));
    for (set, script) in plays(130, 60) {
        let (sheet, bytes) = (generate::sheet_of(&mut random, &set), scripts::write(&script));
        for at in 0..8 * bytes.len() {
            assert_eq!(compared.play(&sheet, &bits::inverted(&bytes, at)), 13, "bit {at} of {bytes:02x?}");
        }
    }
    compared.finish("one changed bit of a script", &[13]);
}

/// What the proved code writes is a script that it plays to the miss of the named task, by its frame's deadline.
fn plays_to_the_miss(set: &Set, sheet: &[u8], need: usize) {
    let mut script = vec![0; need];
    assert_eq!(worst_run(sheet, &mut script), (need as u64) << 8);
    let Verdict::Missed { task, .. } = analyse(set).verdict else { panic!("the set holds") };
    let frame = scripts::first_frame_without(set, task).expect("the task passes");
    let moment = 1 + u64::from(set.tasks[task].deadlines[frame]);
    assert_eq!(play(sheet, &script), (moment + ((task as u64) << 32)) << 8);
}

#[test]
fn worst_runs_are_written_alike() {
    let mut random = Random::new(131);
    let mut compared = Compared::new(132);
    let (mut holds, mut missed, mut by_a_smaller_frame) = (0, BTreeMap::new(), 0);
    for (i, (set, _)) in plays(133, 10_000).enumerate() {
        let sheet = generate::sheet_of(&mut random, &set);
        let Some(script) = scripts::worst(&set) else {
            assert_eq!(compared.worst_run(&sheet, random.below(40) as usize), 0);
            holds += 1;
            continue;
        };
        let need = scripts::write(&script).len();
        for room in [need, need + 1, need - 1, random.below(need as u64) as usize] {
            assert_eq!(compared.worst_run(&sheet, room), if room < need { 12 } else { (need as u64) << 8 });
        }
        let Verdict::Missed { task, blocker } = analyse(&set).verdict else { panic!("the set holds") };
        *missed.entry((blocker.is_some(), task)).or_insert(0u64) += 1;
        let frame = scripts::first_frame_without(&set, task).expect("the task passes");
        by_a_smaller_frame += u32::from(set.tasks[task].frames[frame] < set.tasks[task].largest_frame());
        if i % 3 == 0 {
            plays_to_the_miss(&set, &sheet, need);
        }
    }
    println!("worst runs: {holds} sets hold, {by_a_smaller_frame} are missed by a frame that is not the largest; missed with a blocker or not, by task: {missed:?}");
    compared.finish("worst runs", &[0, 12]);
    assert!(holds >= 1_000 && by_a_smaller_frame >= 200 && (0..MOST_TASKS).all(|task| missed.contains_key(&(false, task))));
    assert!((0..MOST_TASKS - 1).all(|task| missed.contains_key(&(true, task))));
}

/// Every size of room from none to one past the need; a set that holds needs none.
#[test]
fn every_room_of_a_worst_run() {
    let (mut random, mut compared) = (Random::new(144), Compared::new(134));
    for (set, _) in plays(135, 400) {
        let sheet = generate::sheet_of(&mut random, &set);
        let need = scripts::worst(&set).map_or(0, |script| scripts::write(&script).len());
        for room in generate::rooms(need) {
            let answer = compared.worst_run(&sheet, room);
            assert_eq!(answer, if room < need { 12 } else { (need as u64) << 8 });
        }
    }
    compared.finish("every room of a worst run", &[0, 12]);
}

/// Periods of every scale: worst runs of any length, and their plays.
#[test]
fn sets_of_every_scale() {
    let (mut random, mut compared) = (Random::new(145), Compared::new(136));
    let mut missed = 0;
    for set in generate::sets_of_every_size(137, 300) {
        let sheet = generate::sheet_of(&mut random, &set);
        let need = scripts::worst(&set).map_or(0, |script| scripts::write(&script).len());
        compared.worst_run(&sheet, need);
        compared.worst_run(&sheet, need.saturating_sub(1));
        if need > 0 && missed < 30 {
            plays_to_the_miss(&set, &sheet, need);
            missed += 1;
        }
    }
    println!("worst runs of sets of every scale: {} comparisons, {missed} played", compared.total());
    assert!(missed == 30);
}

/// Releases up to the last tick there is, with traces as long as they get.
#[test]
fn long_plays() {
    let mut random = Random::new(138);
    let (mut played, mut traced) = (Compared::new(139), Compared::new(140));
    for i in 0..8 {
        let set = if i % 2 == 0 { generate::edge_set(&mut random) } else { script_inputs::short_set(&mut random, 3) };
        let from = MOST_TICKS - random.below(60) as u32;
        let script = scripts::write(&script_inputs::script(&mut random, &set, from, 3));
        let sheet = generate::sheet_of(&mut random, &set);
        let need = ticks_of(played.play(&sheet, &script));
        traced.trace(&sheet, &script, need);
        traced.trace(&sheet, &script, need.saturating_sub(1));
    }
    let last = Set { policy: 0, tasks: vec![plain(MOST_TICKS, 1), plain(MOST_TICKS, MOST_TICKS)] };
    for (work, task) in [(MOST_TICKS, 1u64), (MOST_TICKS - 1, 16)] {
        let script = scripts::write(&script_of(&[0, 0], &[[0, MOST_TICKS, 1, 0], [1, MOST_TICKS, work, 0]]));
        for sheet in VERSIONS.map(|version| sheet::write(version, &last)) {
            let answer = played.play(&sheet, &script);
            assert_eq!(answer, (2 * u64::from(MOST_TICKS) + (task << 32)) << 8);
            traced.trace(&sheet, &script, ticks_of(answer));
        }
    }
    println!("long plays: {} plays, {} traces", played.total(), traced.total());
}

/// A script of more than a million entries, written, cut short by a byte and played; and the greatest count with nothing behind it.
#[test]
fn long_scripts() {
    let mut compared = Compared::new(141);
    let set = &generate::costly_sets()[0];
    let sheet = sheet::write(1, set);
    let need = scripts::length(MOST_TASKS, 1 + MOST_TICKS as usize);
    assert_eq!(compared.worst_run(&sheet, need - 1), 12);
    assert_eq!(compared.worst_run(&sheet, need), (need as u64) << 8);
    plays_to_the_miss(set, &sheet, need);
    let script = scripts::write(&scripts::worst(set).expect("the set holds"));
    assert_eq!(play(&sheet, &script[..need - 1]), 13);
    for entries in [0, 1, 2] {
        let mut body = vec![0; 8 + 3 + 8 * entries];
        body[8..11].fill(0xFF);
        assert_eq!(compared.play(&sheet, &check_word::sealed(&body)), 13);
    }
}

// ---- what the scope says, not what the second program says

fn plain(period: u32, frame: u32) -> Task {
    Task::with_one_deadline(period, period, 0, &[frame])
}

/// Entries as task, tick, work, lock.
fn script_of(first_frames: &[u32], entries: &[[u32; 4]]) -> Script {
    let entries = entries.iter().map(|&[task, tick, work, lock]| Entry { task, tick, work, lock }).collect();
    Script { first_frames: first_frames.to_vec(), entries }
}

fn case(name: &str) -> Vec<u8> {
    cases().into_iter().find(|case| case.name == name).map(|case| sheet::write(1, &case.set)).expect("no such case")
}

/// The play and what its ticks show.
fn shown(sheet: &[u8], script: &Script) -> (u64, u64, Vec<u8>) {
    let bytes = scripts::write(script);
    let mut ticks = [0xEE; 64];
    let answer = trace(sheet, &bytes, &mut ticks);
    assert_eq!((answer, answer & 0xFF), (play(sheet, &bytes), 0));
    assert!(ticks[ticks_of(answer)..].iter().all(|&b| b == 0xEE));
    (answer >> 8 & 0xFFFF_FFFF, answer >> 40, ticks[..ticks_of(answer)].to_vec())
}

#[test]
fn worked_by_hand() {
    let f = script_of(&[0, 0], &[[1, 0, 5, 3], [0, 1, 2, 0]]);
    assert_eq!(shown(&case("f"), &f), (7, 16, vec![33, 33, 33, 0, 0, 33, 33]));
    let g = script_of(&[0, 0], &[[1, 0, 4, 4], [0, 1, 2, 0]]);
    assert_eq!(shown(&case("g"), &g), (5, 0, vec![33, 33, 33, 33, 0]));
    let d = script_of(&[0, 0], &[[0, 1, 3, 0], [1, 1, 1, 0], [0, 4, 3, 0]]);
    assert_eq!(shown(&case("d"), &d), (6, 1, vec![16, 0, 0, 0, 0, 0]));
    assert_eq!(shown(&case("f"), &script_of(&[0, 0], &[])), (0, 16, vec![]));
    for (name, script) in [("g", g), ("d", d)] {
        let mut room = [0xEE; 32];
        let bytes = scripts::write(&script);
        assert_eq!(worst_run(&case(name), &mut room), (bytes.len() as u64) << 8);
        assert_eq!((&room[..bytes.len()], room[bytes.len()]), (&bytes[..], 0xEE));
    }
    let holding = cases().into_iter().filter(|case| !["d", "g", "i"].contains(&case.name));
    for case in holding {
        assert_eq!(VERSIONS.map(|version| worst_run(&sheet::write(version, &case.set), &mut [])), [0, 0], "{}", case.name);
    }
    assert_eq!(worst_run(&case("g"), &mut [0; 21]), 12);
    assert_eq!(worst_run(&case("i"), &mut []), answers::refused(sheet::read(&case("i")).unwrap_err()));
    let number = |firsts: &[u32], entries: &[[u32; 4]]| play(&case("f"), &scripts::write(&script_of(firsts, entries)));
    let item = |item: usize| answers::refused(Refusal::Item(item));
    assert_eq!([number(&[1, 0], &[]), number(&[0, 1], &[])], [item(0), item(1)]);
    assert_eq!([number(&[0, 0], &[[2, 0, 1, 0]]), number(&[0, 0], &[[0, 0, 2, 1]])], [item(2); 2]);
    assert_eq!([number(&[0, 0], &[[1, 0, 5, 4]]), number(&[0, 0], &[[1, 0, 6, 3]])], [item(2); 2]);
    assert_eq!([number(&[0, 0], &[[0, 1, 2, 0], [1, 0, 5, 3]]), number(&[0, 0], &[[0, 1, 2, 0], [0, 1, 2, 0]])], [item(3); 2]);
    assert_eq!([number(&[0, 0], &[[0, 1, 2, 0], [0, 10, 2, 0]]), number(&[0, 0], &[[0, 1, 2, 0], [0, 11, 2, 0]]) & 0xFF], [item(3), 0]);
}

/// Frames 3 and 1 with the deadlines 6 and 2, below T 8 C 2: the short frame's job is due two ticks after its release.
#[test]
fn a_deadline_for_each_frame() {
    let low = Task { period: 6, lock: 0, frames: vec![3, 1], deadlines: vec![6, 2] };
    let sheet = sheet::write(2, &Set { policy: 0, tasks: vec![plain(8, 2), low] });
    let both = script_of(&[0, 0], &[[0, 0, 2, 0], [1, 0, 3, 0], [0, 8, 2, 0], [1, 8, 1, 0]]);
    assert_eq!(shown(&sheet, &both), (10, 1, vec![0, 0, 1, 1, 1, 16, 16, 16, 0, 0]));
    let turned = script_of(&[0, 1], &[[1, 0, 0, 0], [0, 6, 2, 0], [1, 6, 3, 0]]);
    assert_eq!(shown(&sheet, &turned), (11, 16, vec![16, 16, 16, 16, 16, 16, 0, 0, 1, 1, 1]));
    let worst = script_of(&[0, 1], &[[0, 1, 2, 0], [1, 1, 1, 0]]);
    let (bytes, mut room) = (scripts::write(&worst), [0xEE; 32]);
    assert_eq!(worst_run(&sheet, &mut room), (bytes.len() as u64) << 8);
    assert_eq!((&room[..bytes.len()], room[bytes.len()]), (&bytes[..], 0xEE));
    assert_eq!(shown(&sheet, &worst), (3, 1, vec![16, 0, 0]));
}

/// NULL with length 0 is an empty buffer.
#[test]
fn null_is_an_empty_buffer() {
    use std::ptr::{null, null_mut};
    let (f, g) = (case("f"), case("g"));
    let none = scripts::write(&script_of(&[0, 0], &[]));
    let one = scripts::write(&script_of(&[0, 0], &[[0, 0, 2, 0]]));
    unsafe {
        assert_eq!(burrbeech_play(null(), 0, null(), 0), 1);
        assert_eq!(burrbeech_play(f.as_ptr(), f.len(), null(), 0), 13);
        assert_eq!(burrbeech_trace(f.as_ptr(), f.len(), null(), 0, null_mut(), 0), 13);
        assert_eq!(burrbeech_trace(f.as_ptr(), f.len(), none.as_ptr(), none.len(), null_mut(), 0), 16 << 40);
        assert_eq!(burrbeech_trace(f.as_ptr(), f.len(), one.as_ptr(), one.len(), null_mut(), 0), 12);
        assert_eq!(burrbeech_worst_run(null(), 0, null_mut(), 0), 1);
        assert_eq!(burrbeech_worst_run(f.as_ptr(), f.len(), null_mut(), 0), 0);
        assert_eq!(burrbeech_worst_run(g.as_ptr(), g.len(), null_mut(), 0), 12);
    }
}
