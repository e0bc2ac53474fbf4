//! The second program on generated inputs: every refusal in every way, round trips, lent room, and the equation by its plain words.
use second::analysis::{self, analyse, Verdict};
use second::generate::{self, Draft};
use second::jobs::Equation;
use second::random::Random;
use second::refusal::{NoStart, Refusal};
use second::sheet::VERSIONS;
use second::task::{admit_list, start_frame, Record, Set, Task, MOST_FRAMES, MOST_TASKS};
use second::{bits, check_word, report, sheet};
use std::collections::{BTreeMap, BTreeSet};

fn sets(seed: u64, count: usize) -> impl Iterator<Item = Set> {
    let mut random = Random::new(seed);
    (0..count).map(move |i| if i % 8 == 0 { generate::edge_set(&mut random) } else { generate::admitted_set(&mut random) })
}

#[test]
fn damaged_sheets_are_refused_as_meant() {
    let mut random = Random::new(10);
    let (mut by_number, mut ways) = (BTreeMap::new(), BTreeSet::new());
    for set in sets(11, 160) {
        let version = generate::version_for(&mut random, &set);
        for damaged in generate::damaged_sheets(&mut random, version, &set) {
            assert_eq!(sheet::read(&damaged.bytes), Err(damaged.refusal), "{}: {:02x?}", damaged.way, damaged.bytes);
            *by_number.entry((version, damaged.refusal.number())).or_insert(0u64) += 1;
            ways.insert((version, damaged.way));
        }
    }
    println!("damaged sheets by version and refusal: {by_number:?}, {} ways", ways.len());
    assert!(VERSIONS.iter().all(|&version| (1..=11).all(|n| by_number.contains_key(&(version, n)))));
}

#[test]
fn damaged_lists_are_refused_as_meant() {
    let mut random = Random::new(12);
    let (mut by_number, mut ways) = (BTreeMap::new(), BTreeSet::new());
    for set in sets(13, 120) {
        for damaged in generate::damaged_lists(&mut random, &set) {
            let list = generate::littered(&mut random, damaged.list);
            assert_eq!(admit_list(damaged.policy, &list), Err(damaged.refusal), "{}: {list:?}", damaged.way);
            *by_number.entry(damaged.refusal.number()).or_insert(0u64) += 1;
            ways.insert(damaged.way);
        }
        let list = generate::littered(&mut random, set.list());
        assert_eq!(admit_list(set.policy, &list), Ok(set));
    }
    println!("damaged lists by refusal: {by_number:?}, {} ways", ways.len());
    assert!([4, 6, 7, 9, 10, 11].iter().all(|n| by_number.contains_key(n)));
}

/// Whether so many frames from k on, going round, take more than as many from s on.
fn greater(frames: &[u32], k: usize, s: usize, length: usize) -> bool {
    let sum = |from: usize| frames.iter().cycle().skip(from).take(length).map(|&c| u64::from(c)).sum::<u64>();
    sum(k) > sum(s)
}

fn qualifies(frames: &[u32], s: usize) -> bool {
    (1..=frames.len()).all(|length| (0..frames.len()).all(|k| !greater(frames, k, s, length)))
}

/// The first largest frame; another frame's sum is greater, at no shorter length that of any, at this length that of no lower one.
fn is_true(frames: &[u32], NoStart { frame, length, other }: NoStart) -> bool {
    let none_greater = |n: usize, mut among: std::ops::Range<usize>| among.all(|k| !greater(frames, k, frame, n));
    frames.iter().position(|c| c == frames.iter().max().unwrap()) == Some(frame)
        && greater(frames, other, frame, length)
        && (1..length).all(|n| none_greater(n, 0..frames.len()))
        && none_greater(length, 0..other)
}

/// A start is the first frame that qualifies; a true reason is there exactly where none does.
#[test]
fn a_start_or_why_there_is_none() {
    let mut random = Random::new(23);
    let few = (1..=MOST_FRAMES).flat_map(|count| generate::frame_lists(count, 3));
    let (mut starts, mut lengths) = (BTreeMap::new(), BTreeMap::new());
    for frames in few.chain((0..20_000).map(|_| generate::frame_list(&mut random))) {
        let answer = start_frame(&frames);
        assert_eq!(answer.ok(), (0..frames.len()).find(|&s| qualifies(&frames, s)), "{frames:?}");
        match answer {
            Ok(start) => *starts.entry(start).or_insert(0u64) += 1,
            Err(why) => {
                assert!(is_true(&frames, why) && (2..frames.len()).contains(&why.length), "{frames:?}: {why:?}");
                *lengths.entry(why.length).or_insert(0u64) += 1;
            }
        }
    }
    println!("frame lists by start: {starts:?}; without one, by the length of the reason: {lengths:?}");
    assert!((0..MOST_FRAMES).all(|start| starts[&start] >= 100) && (2..MOST_FRAMES).all(|length| lengths[&length] >= 100));
}

/// The scope's order where two things are wrong.
#[test]
fn order_of_a_sheet() {
    let mut random = Random::new(14);
    let shape = generate::Shape {
        tasks: 3,
        most_frames: 1,
        least_frames: 1,
        least_period: 10,
        greatest_period: 100,
        ..generate::shape(&mut random)
    };
    let set = generate::set_of(&mut random, shape);
    VERSIONS.iter().for_each(|&version| order_of_a_draft(&Draft::of(version, &set)));
}

/// Three tasks of one frame.
fn order_of_a_draft(draft: &Draft) {
    let number = |change: &dyn Fn(&mut Draft)| {
        let mut changed = draft.clone();
        change(&mut changed);
        sheet::read(&changed.bytes()).map_or_else(|r| (r.number(), r.task()), |_| (0, 0))
    };
    assert_eq!(number(&|_| {}), (0, 0));
    assert_eq!(number(&|d| (d.version, d.policy) = (3, 3)), (3, 0));
    assert_eq!(number(&|d| (d.version, d.policy) = (0, 3)), (3, 0));
    assert_eq!(number(&|d| (d.policy, d.spare) = (3, 1)), (4, 0));
    assert_eq!(number(&|d| (d.spare, d.count) = (1, 0)), (5, 0));
    assert_eq!(number(&|d| (d.count, d.tasks[0].frame_count) = (17, 9)), (6, 0));
    assert_eq!(number(&|d| (d.count, d.tasks[1].frame_count) = (4, 9)), (7, 1));
    assert_eq!(number(&|d| (d.tasks[0].period, d.tasks[2].frame_count) = (0, 0)), (7, 2));
    assert_eq!(number(&|d| (d.tasks[2].frame_count, d.surplus) = (15, vec![0; 9])), (7, 2));
    assert_eq!(number(&|d| (d.fill, d.surplus) = (1, vec![0])), (8, 0));
    assert_eq!(number(&|d| (d.fill, d.tasks[0].period) = (1, 0)), (5, 0));
    assert_eq!(number(&|d| (d.tasks[1].period, d.tasks[0].lock) = (0, 1_048_575)), (10, 0));
    assert_eq!(number(&|d| (d.tasks[1].period, d.tasks[1].lock) = (0, 1_048_575)), (9, 1));
}

#[test]
fn round_trips() {
    let (mut sizes, mut lengths) = (BTreeSet::new(), BTreeSet::new());
    for set in sets(15, 2_000) {
        for version in VERSIONS.into_iter().filter(|&version| version == 2 || set.has_one_deadline_each()) {
            let bytes = sheet::write(version, &set);
            assert_eq!(bytes.len(), sheet::length(version, &set));
            assert_eq!(Draft::of(version, &set).bytes(), bytes);
            sizes.insert((version, set.tasks.len()));
            lengths.insert(bytes.len());
            assert_eq!(sheet::read_versions(&VERSIONS, &bytes), Ok((version, set.clone())));
        }
    }
    assert_eq!((sheet::LEAST, sheet::GREATEST), (15, 732));
    assert_eq!(sizes.len(), 2 * MOST_TASKS);
    println!("round trips: sheets of {} to {} bytes", lengths.first().unwrap(), lengths.last().unwrap());
}

/// There and back gives the same bytes, and both sheets the same set; what version 1 cannot hold has no way back.
#[test]
fn conversions_there_and_back() {
    let (mut converted, mut apart) = (0u64, 0u64);
    for set in sets(24, 4_000) {
        let two = sheet::write(2, &set);
        if !set.has_one_deadline_each() {
            assert_eq!(sheet::convert(1, &two), Err(Refusal::Deadlines));
            apart += 1;
            continue;
        }
        let one = sheet::write(1, &set);
        assert_eq!((sheet::convert(2, &one).as_ref(), sheet::convert(1, &two).as_ref()), (Ok(&two), Ok(&one)));
        assert_eq!((sheet::read(&one), sheet::read(&two)), (Ok(set.clone()), Ok(set)));
        converted += 1;
    }
    println!("there and back: {converted} sets, {apart} that version 1 cannot hold");
    assert!(converted > 1_000 && apart > 1_000);
}

/// What changes a sheet but gets through must be a sheet with the same bytes when written again.
#[test]
fn muddled_and_random_sheets() {
    let mut random = Random::new(16);
    let mut answers = BTreeMap::new();
    for set in sets(17, 20_000) {
        for bytes in [generate::muddled_sheet(&mut random, &set), generate::random_sheet(&mut random)] {
            let answer = sheet::read_versions(&VERSIONS, &bytes);
            if let Ok((version, set)) = &answer {
                assert_eq!(sheet::write(*version, set), bytes);
            }
            *answers.entry(answer.map_or_else(Refusal::number, |_| 0)).or_insert(0u64) += 1;
        }
    }
    println!("muddled and random sheets by refusal, 0 for none: {answers:?}");
    assert!((0..=11).filter(|&n| n != 2).all(|n| answers.contains_key(&n)));
}

#[test]
fn changed_bits_are_refused() {
    for set in sets(18, 20) {
        let sheets = [sheet::write(1, &generate::with_one_deadline_each(&set)), sheet::write(2, &set)];
        for bytes in sheets {
            assert!(check_word::is_sealed(&bytes));
            for at in 0..8 * bytes.len() {
                assert_eq!(sheet::read(&bits::inverted(&bytes, at)), Err(Refusal::CheckWord));
            }
        }
    }
}

/// Every room from none to one past the need, for all lent memory.
#[test]
fn lent_room() {
    let mut random = Random::new(25);
    let blank = Record { period: 1, lock: 3, frame_count: 4, frames: [5; 8], deadlines: [6; 8] };
    for set in sets(19, 25) {
        let version = generate::version_for(&mut random, &set);
        let (bytes, n) = (sheet::write(version, &set), set.tasks.len());
        for room in generate::rooms(bytes.len()) {
            let (mut buffer, fits) = (vec![0xA5; room], room >= bytes.len());
            assert_eq!(sheet::write_into(version, set.policy, &set.list(), &mut buffer), fits.then_some(bytes.len()).ok_or(Refusal::Room));
            assert_eq!(buffer, filled(room, fits, &bytes, 0xA5));
        }
        if set.has_one_deadline_each() {
            let other = sheet::write(3 - version, &set);
            for room in generate::rooms(other.len()) {
                let (mut buffer, fits) = (vec![0xA5; room], room >= other.len());
                assert_eq!(sheet::convert_into(3 - version, &bytes, &mut buffer), fits.then_some(other.len()).ok_or(Refusal::Room));
                assert_eq!(buffer, filled(room, fits, &other, 0xA5));
            }
        }
        for room in generate::rooms(n) {
            let mut list = vec![blank; room];
            assert_eq!(sheet::read_into(&bytes, &mut list), (room >= n).then_some((version, set.policy, n)).ok_or(Refusal::Room));
            assert_eq!(list, filled(room, room >= n, &set.list(), blank));
        }
        let analysis = analyse(&set);
        for room in generate::rooms(8 * n) {
            let (mut times, fits) = (vec![77; room], room >= 8 * n);
            assert_eq!(analysis::analyse_sheet(&bytes, &mut times), fits.then_some(analysis.verdict).ok_or(Refusal::Room));
            assert_eq!(times, filled(room, fits, &analysis.slots(), 77));
        }
        let slots: Vec<u8> = analysis.slots().iter().flat_map(|t| t.to_be_bytes()).collect();
        for room in generate::rooms(32 * n) {
            let (mut raw, fits) = (vec![0x5A; room], room >= 32 * n);
            assert_eq!(analysis::check_sheet(&bytes, &mut raw), if fits { analysis.verdict.code() } else { 12 });
            assert_eq!(raw, filled(room, fits, &slots, 0x5A));
        }
    }
}

/// What a room of that size holds after a call that fits or is refused.
fn filled<T: Clone>(room: usize, fits: bool, content: &[T], before: T) -> Vec<T> {
    let written = if fits { content } else { &[] };
    written.iter().cloned().chain(std::iter::repeat(before)).take(room).collect()
}

#[test]
fn response_times_are_least_solutions() {
    let mut random = Random::new(20);
    let (mut times, mut missed) = (0u64, 0u64);
    for round in 0..1_500 {
        let shape = generate::Shape { least_period: 4, greatest_period: 200, ..generate::shape(&mut random) };
        let set = if round % 3 == 0 { generate::tight_set(&mut random, shape) } else { generate::set_of(&mut random, shape) };
        let analysis = analyse(&set);
        assert_eq!(analysis, Equation::of(&set).analysis(), "{set:?}");
        for answer in &analysis.answers {
            match answer.times {
                Some(_) => times += 1,
                None => missed += 1,
            }
        }
    }
    println!("tasks by the plain equation: {times} with times, {missed} without");
    assert!(times > 1_000 && missed > 1_000);
}

#[test]
fn admitted_sets_get_every_verdict() {
    let (mut verdicts, mut loads) = (BTreeMap::new(), BTreeMap::new());
    for set in sets(21, 20_000) {
        let load = (generate::load(&set) * 5.0) as u32;
        *loads.entry(load.min(7)).or_insert(0u64) += 1;
        let kind = match analyse(&set).verdict {
            Verdict::Holds => "holds",
            Verdict::Missed { blocker: None, .. } => "missed, no blocker",
            Verdict::Missed { .. } => "missed, blocker",
        };
        *verdicts.entry(kind).or_insert(0u64) += 1;
    }
    println!("verdicts of admitted sets: {verdicts:?}; by fifths of load, 7 for more: {loads:?}");
    assert!(verdicts.len() == 3 && verdicts.values().all(|&n| n > 1_000));
}

/// What tasks may be ordered by.
type Key = fn(&Task) -> u32;

/// The verdict and the times of a set whose tasks stand in the order of this key.
fn ordered_by(set: &Set, key: Key) -> (Verdict, Vec<u32>) {
    let mut order: Vec<usize> = (0..set.tasks.len()).collect();
    order.sort_by_key(|&i| key(&set.tasks[i]));
    let listed = analyse(&Set { policy: 0, tasks: order.iter().map(|&i| set.tasks[i].clone()).collect() });
    let number = |place: usize| order[place];
    let verdict = match listed.verdict {
        Verdict::Missed { task, blocker } => Verdict::Missed { task: number(task), blocker: blocker.map(number) },
        Verdict::Holds => Verdict::Holds,
    };
    let slots = listed.slots();
    let mut times = slots.clone();
    for (place, eight) in slots.chunks(MOST_FRAMES).enumerate() {
        times[MOST_FRAMES * number(place)..][..MOST_FRAMES].copy_from_slice(eight);
    }
    (verdict, times)
}

/// Sets that are compared elsewhere would tell a wrong reading of deadlines by frame, or a wrong order under policy 2.
#[test]
fn wrong_readings_would_be_told() {
    let orders: [(&str, Key); 2] =
        [("ordered by the first deadline", |task| task.deadlines[0]), ("ordered by the latest deadline", Task::latest_deadline)];
    let mut told = BTreeMap::new();
    for set in generate::sets_of_every_size(51, 10_000) {
        let analysis = analyse(&set);
        let right = (analysis.verdict, analysis.slots());
        let mut count = |name, answer| *told.entry(name).or_insert(0u64) += u64::from(answer != right);
        if set.policy == 2 {
            assert_eq!(ordered_by(&set, Task::smallest_deadline), right);
            orders.iter().for_each(|&(name, key)| count(name, ordered_by(&set, key)));
        } else {
            let answer = |reading| analyse(&generate::read_as(&set, reading));
            generate::WRONG_READINGS.iter().for_each(|&(name, reading)| count(name, (answer(reading).verdict, answer(reading).slots())));
        }
    }
    println!("wrong readings of deadlines told by sets: {told:?}");
    assert!(told.len() == 7 && told.values().all(|&count| count >= 100));
}

#[test]
fn costly_sets_end() {
    for set in generate::costly_sets() {
        assert_eq!(sheet::read(&sheet::write(2, &set)).as_ref(), Ok(&set));
        let began = std::time::Instant::now();
        let analysis = analyse(&set);
        println!("costly set: {:?} after {} ms", analysis.verdict, began.elapsed().as_millis());
        assert_eq!(analysis.slots().len(), MOST_FRAMES * set.tasks.len());
    }
}

/// A report's lines say what the analysis says.
#[test]
fn reports_have_a_line_for_each_task() {
    let mut random = Random::new(26);
    for set in sets(22, 500) {
        let text = report::report(&generate::sheet_of(&mut random, &set));
        let lines: Vec<&str> = text.lines().collect();
        assert!(text.ends_with('\n') && lines.len() == 1 + set.tasks.len());
        let analysis = analyse(&set);
        assert_eq!(lines[0].starts_with("holds "), analysis.verdict == Verdict::Holds);
        for (line, &task) in lines[1..].iter().zip(&analysis.order) {
            let words: Vec<&str> = line.split(' ').collect();
            assert_eq!(words[0], task.to_string());
            assert_eq!(words[2].parse(), Ok(*set.tasks[task].deadlines.iter().min().unwrap()));
            assert_eq!(words.len(), 4 + analysis.answers[task].times.as_ref().map_or(1, Vec::len));
        }
    }
}
