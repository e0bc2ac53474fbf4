//! Run scripts by the second program: scripts worked by hand, and plays, refusals and worst runs of generated ones looked at a second time.
use second::analysis::{self, analyse, Verdict};
use second::cases::cases;
use second::random::Random;
use second::refusal::Refusal;
use second::runs::{play_worst_run, Complete};
use second::scripts::{self, Entry, Play, Script, IDLE, LOCKED};
use second::sheet::VERSIONS;
use second::task::{Set, Task, MOST_TASKS, MOST_TICKS};
use second::{answers, bits, check_word, generate, script_inputs, sheet};
use std::collections::{BTreeMap, BTreeSet};

/// How many scripts are played and looked at again.
const PLAYS: usize = 100_000;

// ---- worked by hand

fn case(name: &str) -> Set {
    cases().into_iter().find(|case| case.name == name).unwrap().set
}

fn task(period: u32, deadline: u32, lock: u32, frames: &[u32]) -> Task {
    Task::with_one_deadline(period, deadline, lock, frames)
}

/// The set's sheet in each version that can hold it.
fn sheets(set: &Set) -> impl Iterator<Item = Vec<u8>> + '_ {
    VERSIONS.into_iter().filter(|&version| version == 2 || set.has_one_deadline_each()).map(|version| sheet::write(version, set))
}

/// Entries as task, tick, work, lock.
fn script(first_frames: &[u32], entries: &[[u32; 4]]) -> Script {
    let entries = entries.iter().map(|&[task, tick, work, lock]| Entry { task, tick, work, lock }).collect();
    Script { first_frames: first_frames.to_vec(), entries }
}

/// The play by the C faces' doubles: tick, task and what the ticks show.
fn played(set: &Set, script: &Script) -> (u64, u64, Vec<u8>) {
    let bytes = scripts::write(script);
    let by_sheet = |sheet: Vec<u8>| {
        let play = scripts::play_sheet(&sheet, &bytes).unwrap();
        look_again(set, script, &play, &mut Tally::default());
        let answer = answers::play(&sheet, &bytes);
        let mut ticks = vec![0xEE; play.shown.len() + 2];
        assert_eq!(answers::trace(&sheet, &bytes, &mut ticks), answer);
        assert_eq!(ticks.split_off(play.shown.len()), [0xEE, 0xEE]);
        assert_eq!((answer & 0xFF, answer >> 48), (0, 0));
        (answer >> 8 & 0xFFFF_FFFF, answer >> 40, ticks)
    };
    let mut all: Vec<_> = sheets(set).map(by_sheet).collect();
    all.dedup();
    assert_eq!(all.len(), 1);
    all.remove(0)
}

/// The number of the refusal and its detail; the lent bytes stay.
fn refused(set: &Set, script: &Script) -> (u64, u64) {
    let bytes = scripts::write(script);
    let answer = answers::play(&sheet::write(2, set), &bytes);
    for sheet in sheets(set) {
        let mut ticks = [0xEE; 64];
        assert_eq!((answers::trace(&sheet, &bytes, &mut ticks), ticks), (answer, [0xEE; 64]));
    }
    (answer & 0xFF, answer >> 8)
}

const NONE: u64 = 16;

/// Task 0 comes a tick after the stretch of three began, and takes its four.
#[test]
fn case_f_takes_exactly_its_deadline() {
    let run = script(&[0, 0], &[[1, 0, 5, 3], [0, 1, 2, 0]]);
    assert_eq!(played(&case("f"), &run), (7, NONE, vec![33, 33, 33, 0, 0, 33, 33]));
    let complete = scripts::play(&case("f"), &run).complete;
    assert_eq!(complete.iter().map(|job| (job.task, job.took)).collect::<Vec<_>>(), [(0, 4), (1, 7)]);
}

#[test]
fn bytes_of_a_script() {
    let run = script(&[0, 0], &[[1, 0, 5, 3], [0, 1, 2, 0]]);
    let head = [0x00, 0x00, 0x00, 0x02];
    let entries = [[0x10, 0x00, 0x00, 0x00, 0x00, 0x50, 0x00, 0x03], [0x00, 0x00, 0x01, 0x00, 0x00, 0x20, 0x00, 0x00]];
    assert_eq!(scripts::write(&run), check_word::sealed(&[&head[..], &entries.concat()].concat()));
    let three = script(&[7, 0, 1], &[[2, MOST_TICKS, 0x12345, 0xABCDE]]);
    let body = [0x70, 0x10, 0x00, 0x00, 0x12, 0xFF, 0xFF, 0xF1, 0x23, 0x45, 0xAB, 0xCD, 0xE0];
    assert_eq!(scripts::write(&three), check_word::sealed(&body));
    assert_eq!((scripts::length(2, 2), scripts::length(3, 1), scripts::length(1, 0)), (22, 15, 6));
}

/// With a stretch of four the first tick of task 0 is its last before the deadline.
#[test]
fn case_g_misses_at_5() {
    let worst = scripts::worst(&case("g")).unwrap();
    assert_eq!(worst, script(&[0, 0], &[[1, 0, 4, 4], [0, 1, 2, 0]]));
    assert_eq!(played(&case("g"), &worst), (5, 0, vec![33, 33, 33, 33, 0]));
}

/// No blocker: tick 0 is idle.
#[test]
fn case_d_misses_at_6() {
    let worst = scripts::worst(&case("d")).unwrap();
    assert_eq!(worst, script(&[0, 0], &[[0, 1, 3, 0], [1, 1, 1, 0], [0, 4, 3, 0]]));
    assert_eq!(played(&case("d"), &worst), (6, 1, vec![16, 0, 0, 0, 0, 0]));
}

/// Frame 0 has a response time though its task's slots are 0; frame 1 has none and is not the largest. The task above goes round from frame 2.
#[test]
fn the_first_frame_without_a_response_time() {
    let set = Set { policy: 0, tasks: vec![task(4, 4, 0, &[3, 1, 3, 2]), task(20, 9, 0, &[1, 3, 1, 5]), task(30, 30, 2, &[2, 4, 4])] };
    assert_eq!(analyse(&set).verdict, Verdict::Missed { task: 1, blocker: Some(2) });
    // frame 0 has demand 1 + 1 + 5 at 7; frame 1 has 1 + 3 + 5 from 5 to 8, and 1 + 3 + 8 at 9
    assert_eq!(scripts::first_frame_without(&set, 1), Some(1));
    let entries = [[2, 0, 2, 2], [0, 1, 3, 0], [1, 1, 3, 0], [0, 5, 2, 0], [0, 9, 3, 0]];
    let worst = scripts::worst(&set).unwrap();
    assert_eq!(worst, script(&[2, 1, 1], &entries));
    assert_eq!(played(&set, &worst), (10, 1, vec![34, 34, 0, 0, 0, 0, 0, 1, 1, 0]));
}

/// Frames 3 and 1 with the deadlines 6 and 2, below T 8 C 2: a job of the short frame is due sooner, and its worst run is as short.
#[test]
fn a_deadline_for_each_frame() {
    let low = Task { period: 6, lock: 0, frames: vec![3, 1], deadlines: vec![6, 2] };
    let set = Set { policy: 0, tasks: vec![task(8, 8, 0, &[2]), low] };
    let both = [[0, 0, 2, 0], [1, 0, 3, 0], [0, 8, 2, 0], [1, 8, 1, 0]];
    assert_eq!(played(&set, &script(&[0, 0], &both)), (10, 1, vec![0, 0, 1, 1, 1, 16, 16, 16, 0, 0]));
    assert_eq!(played(&set, &script(&[0, 1], &[[0, 0, 2, 0], [1, 0, 1, 0]])), (2, 1, vec![0, 0]));
    // a job without work takes its frame and its deadline with it
    let turned = [[1, 0, 0, 0], [0, 6, 2, 0], [1, 6, 3, 0]];
    assert_eq!(played(&set, &script(&[0, 1], &turned)), (11, NONE, vec![16, 16, 16, 16, 16, 16, 0, 0, 1, 1, 1]));
    assert_eq!(analyse(&set).verdict, Verdict::Missed { task: 1, blocker: None });
    let worst = scripts::worst(&set).unwrap();
    assert_eq!(worst, script(&[0, 1], &[[0, 1, 2, 0], [1, 1, 1, 0]]));
    assert_eq!(played(&set, &worst), (3, 1, vec![16, 0, 0]));
}

/// Each unlocked pick starts a stretch anew; the last one of each ends early. A lock of 1 starts none.
#[test]
fn two_tasks_with_locks() {
    let set = Set { policy: 0, tasks: vec![task(10, 10, 2, &[3]), task(12, 12, 2, &[4])] };
    let run = |above, below| played(&set, &script(&[0, 0], &[[1, 0, 4, below], [0, 1, 3, above]]));
    assert_eq!(run(2, 2), (7, NONE, vec![33, 33, 32, 32, 32, 33, 33]));
    assert_eq!(run(0, 2), (7, NONE, vec![33, 33, 0, 0, 0, 33, 33]));
    assert_eq!(run(2, 1), (7, NONE, vec![1, 32, 32, 32, 1, 1, 1]));
    assert_eq!(run(1, 0), (7, NONE, vec![1, 0, 0, 0, 1, 1, 1]));
    // the stretch ends with its job, and the next tick is free
    assert_eq!(played(&set, &script(&[0, 0], &[[1, 0, 1, 2], [0, 1, 3, 0]])), (4, NONE, vec![33, 0, 0, 0]));
    // a pick between two stretches: task 0 waits for the end of the second
    let late = script(&[0, 0], &[[1, 0, 4, 2], [0, 3, 3, 0]]);
    assert_eq!(played(&set, &late), (7, NONE, vec![33, 33, 33, 33, 0, 0, 0]));
}

/// They are complete at once, take their frame, and end the play at their tick.
#[test]
fn jobs_without_work() {
    let set = Set { policy: 0, tasks: vec![task(4, 4, 1, &[3, 1])] };
    assert_eq!(played(&set, &script(&[1], &[[0, 5, 0, 1]])), (5, NONE, vec![16; 5]));
    assert_eq!(played(&set, &script(&[0], &[[0, 0, 0, 0]])), (0, NONE, vec![]));
    assert_eq!(played(&set, &script(&[0], &[[0, 0, 0, 0], [0, 4, 1, 0]])), (5, NONE, vec![16, 16, 16, 16, 0]));
    assert_eq!(refused(&set, &script(&[0], &[[0, 0, 0, 0], [0, 4, 2, 0]])), (14, 2));
    // while another job is at work, and at the very end of its work
    let two = Set { policy: 0, tasks: vec![task(4, 4, 0, &[3]), task(4, 4, 0, &[1])] };
    assert_eq!(played(&two, &script(&[0, 0], &[[0, 0, 3, 0], [1, 2, 0, 0]])), (3, NONE, vec![0, 0, 0]));
    assert_eq!(played(&two, &script(&[0, 0], &[[0, 0, 3, 0], [1, 3, 0, 0]])), (3, NONE, vec![0, 0, 0]));
    assert_eq!(played(&two, &script(&[0, 0], &[[0, 0, 3, 0], [1, 4, 0, 0]])), (4, NONE, vec![0, 0, 0, 16]));
}

#[test]
fn no_entries() {
    assert_eq!(played(&case("f"), &script(&[0, 0], &[])), (0, NONE, vec![]));
    assert_eq!(answers::play(&sheet::write(1, &case("f")), &scripts::write(&script(&[0, 0], &[]))), 16 << 40);
}

/// Tasks 0 and 1 both reach their deadline at 4; task 1 is the higher, task 0 has the lower number.
#[test]
fn of_two_misses_the_lower_number() {
    let set = Set { policy: 1, tasks: vec![task(9, 4, 0, &[2]), task(8, 4, 0, &[2]), task(7, 7, 0, &[4])] };
    assert_eq!(analyse(&set).order, [2, 1, 0]);
    let all = script(&[0, 0, 0], &[[0, 0, 2, 0], [1, 0, 2, 0], [2, 0, 4, 0]]);
    assert_eq!(played(&set, &all), (4, 0, vec![2; 4]));
    let one = script(&[0, 0, 0], &[[1, 0, 2, 0], [2, 0, 4, 0]]);
    assert_eq!(played(&set, &one), (4, 1, vec![2; 4]));
}

/// A miss is seen before the releases of its tick; work that ends with the deadline is in time.
#[test]
fn misses_come_before_releases() {
    let set = Set { policy: 0, tasks: vec![task(4, 4, 0, &[1]), task(4, 4, 0, &[4])] };
    let entries = |work| script(&[0, 0], &[[0, 0, 1, 0], [1, 0, work, 0], [0, 4, 1, 0], [1, 4, 4, 0]]);
    assert_eq!(played(&set, &entries(4)), (4, 1, vec![0, 1, 1, 1]));
    assert_eq!(played(&set, &entries(3)), (8, 1, vec![0, 1, 1, 1, 0, 1, 1, 1]));
}

/// Released at the last tick there is, due as late as there is.
#[test]
fn the_longest_play() {
    let set = Set { policy: 0, tasks: vec![task(MOST_TICKS, MOST_TICKS, 0, &[1]), task(MOST_TICKS, MOST_TICKS, 0, &[MOST_TICKS])] };
    let ends = |work| {
        let (tick, task, shown) = played(&set, &script(&[0, 0], &[[0, MOST_TICKS, 1, 0], [1, MOST_TICKS, work, 0]]));
        (tick, task, shown.len() as u64, shown[MOST_TICKS as usize - 1], shown[MOST_TICKS as usize])
    };
    assert_eq!(ends(MOST_TICKS), (2_097_150, 1, 2_097_150, 16, 0));
    assert_eq!(ends(MOST_TICKS - 1), (2_097_150, NONE, 2_097_150, 16, 0));
}

/// Case K with a lock: frames 3,1,3,2 T 4; frame 2 T 20 Q 2.
#[test]
fn each_14() {
    let mut set = case("k");
    set.tasks[1].lock = 2;
    let number = |firsts: &[u32], entries: &[[u32; 4]]| refused(&set, &script(firsts, entries));
    let good = [[0, 0, 3, 0], [1, 0, 2, 2], [0, 4, 2, 0], [0, 8, 3, 0], [0, 12, 1, 0], [1, 20, 2, 1]];
    let with = |i: usize, entry: [u32; 4]| {
        let mut entries = good.to_vec();
        entries[i] = entry;
        number(&[2, 0], &entries)
    };
    assert_eq!(
        played(&set, &script(&[2, 0], &good)),
        (22, NONE, {
            let head = vec![0, 0, 0, 33, 33, 0, 0, 16, 0, 0, 0, 16, 0];
            [head, vec![16; 7], vec![1, 1]].concat()
        })
    );
    // first frames out of range
    assert_eq!(number(&[4, 0], &good), (14, 0));
    assert_eq!(number(&[15, 15], &good), (14, 0));
    assert_eq!(number(&[3, 1], &[]), (14, 1));
    // entries: a task out of range
    assert_eq!(with(0, [2, 0, 0, 0]), (14, 2));
    assert_eq!(with(5, [15, 20, 0, 0]), (14, 7));
    // a lock above Q, also 1 over 0, also of a job without work
    assert_eq!(with(1, [1, 0, 2, 3]), (14, 3));
    assert_eq!(with(0, [0, 0, 3, 1]), (14, 2));
    assert_eq!(with(2, [0, 4, 0, 1]), (14, 4));
    // out of order: the later one is named
    assert_eq!(number(&[2, 0], &[good[1], good[0], good[2]]), (14, 3));
    assert_eq!(number(&[2, 0], &[good[0], good[2], good[1]]), (14, 4));
    // the same tick and the same task
    assert_eq!(number(&[2, 0], &[good[0], [0, 0, 0, 0]]), (14, 3));
    // too close: the later one is named
    assert_eq!(with(2, [0, 3, 2, 0]), (14, 4));
    assert_eq!(with(5, [1, 19, 2, 1]), (14, 7));
    // work above the frame: frames 2, 3, 0, 1 come in turn
    assert_eq!(with(0, [0, 0, 4, 0]), (14, 2));
    assert_eq!(with(2, [0, 4, 3, 0]), (14, 4));
    assert_eq!(with(4, [0, 12, 2, 0]), (14, 6));
    // the first of several
    assert_eq!(number(&[4, 0], &[[2, 0, 0, 0]]), (14, 0));
    assert_eq!(number(&[0, 0], &[[0, 0, 3, 0], [0, 3, 1, 0], [9, 0, 0, 9]]), (14, 3));
}

#[test]
fn each_13_and_the_sheet_first() {
    let (sheet, good) = (sheet::write(1, &case("f")), scripts::write(&script(&[0, 0], &[[1, 0, 5, 3]])));
    let number = |script: &[u8]| answers::play(&sheet, script);
    let body = &good[..good.len() - 2];
    assert_eq!(number(&good) & 0xFF, 0);
    // length
    assert_eq!((number(&[]), number(&[0xFF]), number(&[0xFF, 0xFF]), number(&check_word::sealed(&body[..3]))), (13, 13, 13, 13));
    assert_eq!(number(&check_word::sealed(&body[..11])), 13);
    assert_eq!(number(&check_word::sealed(&[body, &[0]].concat())), 13);
    assert_eq!(number(&[good.clone(), vec![0]].concat()), 13);
    // fill: three tasks have half a byte
    let three = Set { policy: 0, tasks: vec![task(9, 9, 0, &[1]); 3] };
    let fill = |bits| check_word::sealed(&[0, 0, 0, 0, bits]);
    let of_three = |bits| answers::play(&sheet::write(1, &three), &fill(bits));
    assert_eq!((of_three(0), of_three(1), of_three(8)), (16 << 40, 13, 13));
    // check word, and 13 before 14
    assert_eq!(number(&[body, &[0, 0]].concat()), 13);
    let wrong_first = scripts::write(&script(&[1, 0], &[[1, 0, 5, 3]]));
    assert_eq!((number(&wrong_first), number(&bits::inverted(&wrong_first, 60))), (14, 13));
    // the sheet's own before both
    let both = |sheet: &[u8], script: &[u8]| [answers::play(sheet, script), answers::trace(sheet, script, &mut [])];
    assert_eq!(both(&[], &[]), [1; 2]);
    assert_eq!(both(&bits::inverted(&sheet, 20), &wrong_first), [2; 2]);
    let mut locked = case("f");
    locked.tasks[1].lock = 6;
    let [locked, unordered] = [locked, case("i")].map(|set| sheet::write(2, &set));
    assert_eq!(both(&locked, &good[1..]), [0x10A; 2]);
    assert_eq!(both(&unordered, &[]), [answers::refused(sheet::read(&unordered).unwrap_err()); 2]);
    assert_eq!(answers::worst_run(&locked, &mut []), 0x10A);
}

/// 12 comes last, and a set that holds needs no room.
#[test]
fn room() {
    let (f, g) = (sheet::write(1, &case("f")), sheet::write(1, &case("g")));
    let mut room = [0xEE; 23];
    assert_eq!((answers::worst_run(&f, &mut []), answers::worst_run(&f, &mut room)), (0, 0));
    assert_eq!((answers::worst_run(&g, &mut []), answers::worst_run(&g, &mut room[..21])), (12, 12));
    assert_eq!(room, [0xEE; 23]);
    assert_eq!(answers::worst_run(&g, &mut room), 22 << 8);
    assert_eq!(room[..], [scripts::write(&scripts::worst(&case("g")).unwrap()), vec![0xEE]].concat());
    let mut ticks = [0xEE; 6];
    assert_eq!(answers::trace(&g, &room[..22], &mut ticks[..4]), 12);
    assert_eq!(ticks, [0xEE; 6]);
    assert_eq!((answers::trace(&g, &room[..22], &mut ticks), ticks), (5 << 8, [33, 33, 33, 33, 0, 0xEE]));
    assert_eq!(answers::trace(&g, &room[..21], &mut []), 13);
    assert_eq!(answers::trace(&g, &scripts::write(&script(&[0, 1], &[])), &mut []), 0x10E);
}

// ---- looked at a second time

/// A job as the second look has it: by the work of its task up to it.
struct Told {
    task: usize,
    release: u64,
    due: u64,
    /// It is complete when its task has had so many ticks.
    complete_with: u64,
    lock: u64,
}

fn told(set: &Set, script: &Script) -> Vec<Told> {
    let mut works = vec![0; set.tasks.len()];
    let firsts = script.first_frames.iter().zip(&set.tasks);
    let mut deadlines: Vec<_> = firsts.map(|(&first, task)| task.deadlines.iter().cycle().skip(first as usize)).collect();
    let tell = |entry: &Entry| {
        let (task, release) = (entry.task as usize, u64::from(entry.tick));
        works[task] += u64::from(entry.work);
        let due = release + u64::from(*deadlines[task].next().unwrap());
        Told { task, release, due, complete_with: works[task], lock: u64::from(entry.lock) }
    };
    script.entries.iter().map(tell).collect()
}

#[derive(Debug, Default)]
struct Tally {
    plays: usize,
    done: usize,
    missed: usize,
    several_misses: usize,
    idle_ticks: usize,
    stretches: usize,
    stretches_ended_early: usize,
    /// A higher job waited for it.
    stretches_that_delay: usize,
}

/// The play told again from its ticks: each has gone to the job that the rules name, and it ends neither early nor late.
fn look_again(set: &Set, script: &Script, play: &Play, tally: &mut Tally) {
    let (jobs, order) = (told(set, script), analysis::order(set));
    let mut had = vec![0; set.tasks.len()];
    let mut stretch = None;
    tally.plays += 1;
    for now in 0..=play.tick {
        let misses = |job: &&Told| job.due == now && job.complete_with > had[job.task];
        let missed: BTreeSet<usize> = jobs.iter().filter(misses).map(|job| job.task).collect();
        let at_end = now == play.tick;
        assert_eq!(missed.first().copied(), play.missed.filter(|_| at_end), "at {now}: {set:?} {script:?}");
        if !missed.is_empty() {
            tally.missed += 1;
            tally.several_misses += usize::from(missed.len() > 1);
            break;
        }
        let pending: Vec<&Told> = jobs.iter().filter(|job| job.release <= now && job.complete_with > had[job.task]).collect();
        let all_done = pending.is_empty() && jobs.iter().all(|job| job.release <= now);
        assert_eq!(all_done, at_end, "at {now}: {set:?} {script:?}");
        // one job of a task at most
        assert_eq!(pending.iter().map(|job| job.task).collect::<BTreeSet<_>>().len(), pending.len());
        if at_end {
            tally.done += 1;
            break;
        }
        let shown = play.shown[now as usize];
        let highest = order.iter().find_map(|&task| pending.iter().find(|job| job.task == task));
        if stretch.is_some_and(|(_, until)| until == now) {
            stretch = None;
        }
        if stretch.is_none() {
            stretch = highest.filter(|job| job.lock >= 2).map(|job| {
                let left = job.complete_with - had[job.task];
                tally.stretches += 1;
                tally.stretches_ended_early += usize::from(left < job.lock);
                (job.task, now + left.min(job.lock))
            });
        }
        match (stretch, highest) {
            (Some((task, _)), _) => {
                assert_eq!(shown, LOCKED + task as u8, "at {now}: {set:?} {script:?}");
                tally.stretches_that_delay += usize::from(highest.is_some_and(|job| job.task != task && job.release == now));
            }
            (None, Some(job)) => assert_eq!(shown, job.task as u8, "at {now}: {set:?} {script:?}"),
            (None, None) => assert_eq!(shown, IDLE, "at {now}: {set:?} {script:?}"),
        }
        match shown {
            IDLE => tally.idle_ticks += 1,
            _ => had[usize::from(shown % LOCKED)] += 1,
        }
    }
    assert_eq!(play.shown.len() as u64, play.tick);
    if play.missed.is_none() {
        assert_eq!(play.complete.len(), script.entries.len());
        assert_eq!(play.tick, play.complete.iter().map(|job| job.release + job.took).max().unwrap_or(0));
    }
}

/// Sets and scripts that keep the rules: any, and such as are near a worst run.
fn plays(seed: u64, count: usize) -> impl Iterator<Item = (Set, Script)> {
    let mut random = Random::new(seed);
    (0..count).map(move |i| {
        let set = script_inputs::short_set(&mut random, if i % 9 == 0 { MOST_TASKS } else { 1 + i % 5 });
        let script = match i % 3 {
            0 => script_inputs::near_worst(&mut random, &set),
            _ => script_inputs::script(&mut random, &set, 0, 8),
        };
        (set, script)
    })
}

#[test]
fn plays_looked_at_again() {
    let mut tally = Tally::default();
    let mut missed_tasks = BTreeSet::new();
    for (set, script) in plays(40, PLAYS) {
        assert_eq!(scripts::judge(&set, &script), Ok(()), "{set:?} {script:?}");
        let bytes = scripts::write(&script);
        assert_eq!(bytes.len(), scripts::length(set.tasks.len(), script.entries.len()));
        assert_eq!(scripts::read(&bytes, set.tasks.len()).as_ref(), Ok(&script));
        let play = scripts::play(&set, &script);
        missed_tasks.extend(play.missed);
        look_again(&set, &script, &play, &mut tally);
        // a set that holds misses in no run, and no job takes longer than its time
        let analysis = analyse(&set);
        assert!(play.missed.is_none_or(|task| analysis.answers[task].times.is_none()));
        let late = |job: &&Complete| analysis.answers[job.task].times.as_ref().is_some_and(|t| job.took > u64::from(t[job.frame]));
        assert_eq!(play.complete.iter().find(late), None, "{set:?} {script:?}");
    }
    println!("plays looked at again: {tally:?}, misses of {} tasks", missed_tasks.len());
    assert!(tally.plays == PLAYS && tally.done > PLAYS / 4 && tally.missed > PLAYS / 10 && tally.several_misses > 1_000);
    assert!(tally.stretches > 50_000 && tally.stretches_ended_early > 20_000 && tally.stretches_that_delay > 5_000);
    assert_eq!(missed_tasks.len(), MOST_TASKS);
}

/// Plays and worst runs that are compared elsewhere would tell a wrong reading of deadlines by frame.
#[test]
fn wrong_readings_would_be_told() {
    let (mut plays_told, mut worst_told) = (BTreeMap::new(), BTreeMap::new());
    for (set, script) in plays(48, 12_000).filter(|(set, _)| set.policy != 2) {
        let (play, worst) = (scripts::play(&set, &script), scripts::worst(&set));
        for (name, reading) in generate::WRONG_READINGS {
            let other = generate::read_as(&set, reading);
            *plays_told.entry(name).or_insert(0u64) += u64::from(scripts::play(&other, &script) != play);
            *worst_told.entry(name).or_insert(0u64) += u64::from(scripts::worst(&other) != worst);
        }
    }
    println!("wrong readings of deadlines told by plays: {plays_told:?}; by worst runs: {worst_told:?}");
    assert!(plays_told.values().chain(worst_told.values()).all(|&count| count >= 100));
}

/// Releases up to the last tick, and periods up to the longest: the play ends by twice the longest time.
#[test]
fn plays_end() {
    let mut random = Random::new(41);
    let mut last = 0;
    for i in 0..24 {
        let mut set = if i % 2 == 0 { generate::edge_set(&mut random) } else { script_inputs::short_set(&mut random, 3) };
        // of many tasks one misses soon
        set.tasks.truncate(3);
        let from = MOST_TICKS - random.below(60) as u32;
        let script = script_inputs::script(&mut random, &set, from, 3);
        assert_eq!(scripts::judge(&set, &script), Ok(()), "{set:?} {script:?}");
        let play = scripts::play(&set, &script);
        look_again(&set, &script, &play, &mut Tally::default());
        assert!(play.tick <= 2 * u64::from(MOST_TICKS));
        last = play.tick.max(last);
    }
    println!("plays end at {last} at the latest");
    assert!(last > u64::from(MOST_TICKS) + 100_000);
}

// ---- refusals

/// The first item that breaks a rule, by comparing each entry with all before it.
fn first_wrong(set: &Set, script: &Script) -> Option<usize> {
    let wrong_frame = |i: usize| script.first_frames[i] as usize >= set.tasks[i].frames.len();
    let wrong_entry = |j: usize| {
        let (entry, before) = (&script.entries[j], &script.entries[..j]);
        let Some(task) = set.tasks.get(entry.task as usize) else { return true };
        let own = || before.iter().filter(|other| other.task == entry.task);
        let frame = task.frames.iter().cycle().nth(script.first_frames[entry.task as usize] as usize + own().count()).unwrap();
        let key = |e: &Entry| 16 * u64::from(e.tick) + u64::from(e.task);
        before.iter().any(|other| key(other) >= key(entry))
            || own().any(|other| entry.tick - other.tick < task.period)
            || entry.work > *frame
            || entry.lock > task.lock
    };
    let n = set.tasks.len();
    (0..n).find(|&i| wrong_frame(i)).or_else(|| (0..script.entries.len()).find(|&j| wrong_entry(j)).map(|j| n + j))
}

#[test]
fn damaged_scripts_are_refused_as_meant() {
    let mut random = Random::new(42);
    let (mut ways, mut items) = (BTreeMap::new(), BTreeSet::new());
    for (set, script) in plays(43, 400) {
        let sheet = sheet::write(2, &set);
        for damaged in script_inputs::damaged_scripts(&mut random, &set, &script) {
            let answer = answers::play(&sheet, &damaged.bytes);
            assert_eq!(answer, answers::refused(damaged.refusal), "{}: {set:?} {script:?}", damaged.way);
            *ways.entry(damaged.way).or_insert(0u64) += 1;
            if let Refusal::Item(item) = damaged.refusal {
                items.insert((item, item < set.tasks.len()));
            }
        }
    }
    println!("damaged scripts by way: {ways:?}");
    assert!(ways.len() == 16 && ways.values().all(|&count| count > 100), "{}", ways.len());
    assert!((0..MOST_TASKS).all(|item| items.contains(&(item, true))) && items.iter().filter(|item| !item.1).count() > 50);
}

/// Scripts in which several things are wrong: the first item is named, and what is not refused is a script that plays.
#[test]
fn muddled_scripts() {
    let mut random = Random::new(44);
    let (mut refused, mut good) = (0, 0);
    for (set, script) in plays(45, 40_000) {
        let muddled = script_inputs::muddled(&mut random, &set, &script);
        let judged = scripts::judge(&set, &muddled);
        assert_eq!(judged, first_wrong(&set, &muddled).map_or(Ok(()), |item| Err(Refusal::Item(item))), "{set:?} {muddled:?}");
        match judged {
            Ok(()) => {
                good += 1;
                look_again(&set, &muddled, &scripts::play(&set, &muddled), &mut Tally::default());
            }
            Err(_) => refused += 1,
        }
        let bytes = script_inputs::random_script(&mut random, set.tasks.len());
        if let Ok(script) = scripts::read(&bytes, set.tasks.len()) {
            assert_eq!(scripts::write(&script), bytes);
            assert_eq!(scripts::judge(&set, &script).is_ok(), first_wrong(&set, &script).is_none());
        }
    }
    println!("muddled scripts: {refused} refused, {good} good");
    assert!(refused > 10_000 && good > 5_000);
}

#[test]
fn every_changed_bit_is_refused() {
    let mut changed = 0;
    for (set, script) in plays(46, 300) {
        let (sheet, bytes) = (sheet::write(2, &set), scripts::write(&script));
        for at in 0..8 * bytes.len() {
            assert_eq!(answers::play(&sheet, &bits::inverted(&bytes, at)), 13, "bit {at} of {bytes:02x?}");
            changed += 1;
        }
    }
    println!("scripts with one changed bit: {changed}");
    assert!(changed > 100_000);
}

// ---- worst runs

/// Of the named task and those above it: the script of each frame's worst run plays as that run does.
fn every_worst_run(set: &Set, named: usize) {
    let order = analysis::order(set);
    let place = order.iter().position(|&i| i == named).unwrap();
    for &number in &order[..=place] {
        for frame in 0..set.tasks[number].frames.len() {
            let script = scripts::worst_of(set, number, frame);
            let play = scripts::play(set, &script);
            match play_worst_run(set, number, frame).unwrap() {
                Some(took) => {
                    assert_eq!(play.missed, None, "{set:?} {script:?}");
                    assert!(play.complete.iter().any(|job| (job.task, job.frame, job.release, job.took) == (number, frame, 1, took)));
                }
                None => assert_eq!((play.tick, play.missed), (1 + u64::from(set.tasks[number].deadlines[frame]), Some(number))),
            }
        }
    }
}

#[test]
fn worst_runs_of_missed_sets() {
    let mut random = Random::new(47);
    let (mut holds, mut missed, mut with_blocker, mut not_frame_0, mut not_the_largest, mut greatest) = (0, 0, 0, 0, 0, 0);
    let (mut a_larger_in_time, mut equal_in_time) = (0, 0);
    for i in 0..PLAYS {
        let set = match i % 50 {
            0 => generate::tiny_set(&mut random),
            _ => script_inputs::short_set(&mut random, 1 + i % MOST_TASKS),
        };
        let Some(script) = scripts::worst(&set) else {
            assert_eq!(analyse(&set).verdict, Verdict::Holds);
            holds += 1;
            continue;
        };
        let Verdict::Missed { task: number, blocker } = analyse(&set).verdict else { panic!("the set holds") };
        let task = &set.tasks[number];
        let first = (0..task.frames.len()).find(|&frame| play_worst_run(&set, number, frame) == Ok(None)).unwrap();
        assert_eq!(script, scripts::worst_of(&set, number, first), "{set:?}");
        assert_eq!(scripts::judge(&set, &script), Ok(()), "{set:?} {script:?}");
        let play = scripts::play(&set, &script);
        look_again(&set, &script, &play, &mut Tally::default());
        let deadline = task.deadlines[first];
        assert_eq!((play.tick, play.missed), (1 + u64::from(deadline), Some(number)), "{set:?}");
        let order = analysis::order(&set);
        let higher = order.iter().take_while(|&&i| i != number).map(|&i| deadline.div_ceil(set.tasks[i].period));
        let entries = usize::from(blocker.is_some()) + 1 + higher.sum::<u32>() as usize;
        assert_eq!(script.entries.len(), entries);
        assert!(entries <= deadline as usize + set.tasks.len() + 1 && script.entries.iter().all(|e| e.tick <= deadline));
        missed += 1;
        with_blocker += usize::from(blocker.is_some());
        not_frame_0 += usize::from(first > 0);
        not_the_largest += usize::from(task.frames[first] < task.largest_frame());
        let in_time = |frame: usize| play_worst_run(&set, number, frame).unwrap().is_some();
        let others = || (0..task.frames.len()).filter(|&frame| in_time(frame)).map(|frame| task.frames[frame]);
        a_larger_in_time += usize::from(others().any(|time| time > task.frames[first]));
        equal_in_time += usize::from(others().any(|time| time == task.frames[first]));
        greatest = greatest.max(entries);
        if i % 10 == 0 {
            every_worst_run(&set, number);
        }
    }
    println!("worst runs: {holds} sets hold, {missed} miss, {with_blocker} with a blocker, {not_frame_0} not at frame 0, {not_the_largest} not at a largest frame, up to {greatest} entries");
    println!("worst runs of frames beside a larger one that is in time: {a_larger_in_time}, beside one of equal time: {equal_in_time}");
    assert!(holds > 10_000 && missed > 20_000 && with_blocker > 5_000 && not_frame_0 > 2_000 && not_the_largest > 1_000);
    assert!(a_larger_in_time > 1_000 && equal_in_time > 500);
}

/// The longest scripts of worst runs that were found, and the longest periods.
#[test]
fn long_worst_runs() {
    let missing = &generate::costly_sets()[0];
    let script = scripts::worst(missing).unwrap();
    assert_eq!(script.entries.len(), 1 + MOST_TICKS as usize);
    let play = scripts::play_sheet(&sheet::write(1, missing), &scripts::write(&script)).unwrap();
    assert_eq!((play.tick, play.missed), (1 + u64::from(MOST_TICKS), Some(1)));
    assert!(play.shown[1..].iter().all(|&shown| shown == 0) && play.shown[0] == IDLE);
}
