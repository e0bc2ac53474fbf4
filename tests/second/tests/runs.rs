//! The analysis against runs: every run of tiny sets, with one deadline for a task and with one for each frame, the worst run of each frame, and random runs.
use second::all_runs::search;
use second::analysis::{analyse, Verdict};
use second::cases::cases_in_versions;
use second::generate;
use second::random::Random;
use second::runs::{play_worst_run, Breach, Player};
use second::task::{Set, Task};

/// How many tiny sets are searched.
const TINY_SETS: usize = 10_000;

#[derive(Debug, Default)]
struct Tally {
    times: usize,
    times_with_blocking: usize,
    times_below_several_frames: usize,
    /// Of tasks whose deadlines differ.
    times_by_own_deadlines: usize,
    /// Of frames beside one of the same time with another deadline.
    times_of_equal_frames: usize,
    tasks_that_miss: usize,
    /// Tasks that would pass if each frame had the largest frame's deadline.
    misses_by_own_deadlines: usize,
    /// Tasks with a frame that is in time and one of the same time that is not.
    misses_by_one_of_equal_frames: usize,
    sets_that_hold: usize,
    sets_with_no_run_left_out: usize,
    states: usize,
}

/// The written times are the worst over every run; a task without times misses in some run, one with times in none.
fn compare_every_run(set: &Set, tally: &mut Tally) {
    let (analysis, found) = (analyse(set), search(set));
    let mut several = false;
    for &task in &analysis.order {
        let answer = &analysis.answers[task];
        assert_eq!(found.misses[task], answer.times.is_none(), "task {task} of {set:?}: {found:?}");
        match &answer.times {
            Some(times) => {
                assert_eq!(&found.worst[task], times, "task {task} of {set:?}");
                tally.times += times.len();
                tally.times_with_blocking += if answer.blocking > 0 { times.len() } else { 0 };
                tally.times_below_several_frames += if several { times.len() } else { 0 };
                tally.times_by_own_deadlines += if set.tasks[task].has_one_deadline() { 0 } else { times.len() };
                tally.times_of_equal_frames += equal_frames(&set.tasks[task]).len();
            }
            None => {
                tally.tasks_that_miss += 1;
                count_miss(set, task, tally);
            }
        }
        several |= set.tasks[task].frames.len() > 1;
    }
    tally.sets_that_hold += usize::from(analysis.verdict == Verdict::Holds);
    tally.sets_with_no_run_left_out += usize::from(found.whole);
    tally.states += found.states;
}

/// The frames beside which there is one of the same time with another deadline.
fn equal_frames(task: &Task) -> Vec<usize> {
    let all = 0..task.frames.len();
    let apart = |k: usize, j: usize| task.frames[k] == task.frames[j] && task.deadlines[k] != task.deadlines[j];
    all.clone().filter(|&k| all.clone().any(|j| apart(k, j))).collect()
}

fn count_miss(set: &Set, number: usize, tally: &mut Tally) {
    let task = &set.tasks[number];
    let largest = (0..task.frames.len()).find(|&k| task.frames[k] == task.largest_frame()).unwrap();
    let mut relaxed = set.clone();
    relaxed.tasks[number] = task.due_by(task.deadlines[largest]);
    // where the order stays
    if set.policy != 2 {
        tally.misses_by_own_deadlines += usize::from(analyse(&relaxed).answers[number].times.is_some());
    }
    let in_time = |&k: &usize| play_worst_run(set, number, k).unwrap().is_some();
    let (early, late): (Vec<usize>, Vec<usize>) = equal_frames(task).into_iter().partition(in_time);
    let beside = |k: usize| late.iter().any(|&j| task.frames[j] == task.frames[k]);
    tally.misses_by_one_of_equal_frames += usize::from(early.into_iter().any(beside));
}

#[test]
fn every_run_of_tiny_sets() {
    let mut random = Random::new(30);
    let mut tally = Tally::default();
    for _ in 0..TINY_SETS {
        compare_every_run(&generate::tiny_set(&mut random), &mut tally);
    }
    println!("every run of {TINY_SETS} tiny sets: {tally:?}");
    assert!(tally.times > 1_000 && tally.times_with_blocking > 100 && tally.times_below_several_frames > 100);
    assert!(tally.tasks_that_miss > 100 && tally.sets_that_hold > 100 && tally.sets_with_no_run_left_out > 300);
    assert!(tally.times_by_own_deadlines > 5_000 && tally.times_of_equal_frames > 3_000);
    assert!(tally.misses_by_own_deadlines > 300 && tally.misses_by_one_of_equal_frames > 500);
}

/// The worst run of each frame takes its response time to the tick, or misses.
fn compare_worst_runs(set: &Set) -> (u64, u64) {
    let (mut times, mut misses) = (0, 0);
    let analysis = analyse(set);
    for (number, task) in set.tasks.iter().enumerate() {
        let played: Vec<Option<u64>> = (0..task.frames.len()).map(|frame| play_worst_run(set, number, frame).unwrap()).collect();
        match &analysis.answers[number].times {
            Some(written) => {
                assert_eq!(played, written.iter().map(|&t| Some(u64::from(t))).collect::<Vec<_>>(), "task {number} of {set:?}");
                times += written.len() as u64;
            }
            None => {
                assert!(played.contains(&None), "task {number} of {set:?}");
                misses += 1;
            }
        }
    }
    (times, misses)
}

fn small_set(random: &mut Random) -> Set {
    let shape = generate::Shape { least_period: 3, greatest_period: 150, ..generate::shape(random) };
    if generate::one_in(random, 3) {
        generate::tight_set(random, shape)
    } else {
        generate::set_of(random, shape)
    }
}

#[test]
fn worst_runs_take_the_written_times() {
    for (_, case) in cases_in_versions().iter().filter(|(version, case)| *version == 2 && case.name != "i") {
        compare_worst_runs(&case.set);
    }
    let mut random = Random::new(31);
    let (mut times, mut misses) = (0, 0);
    for _ in 0..1_000 {
        let set = small_set(&mut random);
        let (t, m) = compare_worst_runs(&set);
        (times, misses) = (times + t, misses + m);
    }
    println!("worst runs: {times} took the written time, {misses} tasks missed");
    assert!(times > 1_000 && misses > 100);
}

/// A run with random releases, works and stretches; often in step and with full work, since that is where times grow.
fn play_random_run(random: &mut Random, set: &Set, ticks: u64) -> (u64, u64) {
    let analysis = analyse(set);
    let first = set.tasks.iter().map(|t| random.below(t.frames.len() as u64) as usize).collect();
    let (eager, full) = (1 + random.below(4), random.below(4));
    let mut player = Player::new(set, first);
    while player.now() < ticks {
        for task in 0..set.tasks.len() {
            if player.may_release(task) && random.below(eager) == 0 {
                let frame = player.next_frame_time(task);
                let work = if random.below(4) < full { frame } else { random.below(u64::from(frame) + 1) as u32 };
                player.release(task, work).unwrap();
            }
        }
        let stretch = random.below(u64::from(player.longest_stretch()) + 1) as u32;
        player.tick(stretch).unwrap();
    }
    for job in &player.complete {
        if let Some(times) = &analysis.answers[job.task].times {
            assert!(job.took <= u64::from(times[job.frame]), "{job:?} in {set:?}");
        }
    }
    assert!(player.missed.iter().all(|job| analysis.answers[job.task].times.is_none()), "{set:?}");
    (player.complete.len() as u64, player.missed.len() as u64)
}

#[test]
fn random_runs_stay_within_the_written_times() {
    let mut random = Random::new(32);
    let (mut jobs, mut misses, mut hold) = (0, 0, 0);
    for i in 0..1_500 {
        let set = if i % 2 == 0 { generate::tiny_set(&mut random) } else { small_set(&mut random) };
        let (j, m) = play_random_run(&mut random, &set, 600);
        (jobs, misses) = (jobs + j, misses + m);
        hold += usize::from(analyse(&set).verdict == Verdict::Holds);
    }
    println!("random runs: {jobs} jobs complete, {misses} missed, {hold} sets hold");
    assert!(jobs > 10_000 && misses > 100 && hold > 100);
}

#[test]
fn the_player_keeps_the_rules() {
    let task = |period, lock, frames: &[u32]| Task::with_one_deadline(period, period, lock, frames);
    let set = Set { policy: 0, tasks: vec![task(4, 0, &[2, 1]), task(9, 2, &[3])] };
    let mut player = Player::new(&set, vec![1, 0]);
    assert_eq!(player.release(0, 2), Err(Breach::WorkAboveFrame));
    player.release(1, 3).unwrap();
    assert_eq!(player.tick(3), Err(Breach::NoSuchStretch));
    player.tick(2).unwrap();
    player.release(0, 0).unwrap();
    assert_eq!(player.release(0, 0), Err(Breach::ReleaseTooEarly));
    assert_eq!((player.running(), player.tick(1)), (Some(1), Err(Breach::NoSuchStretch)));
    player.tick(0).unwrap();
    (0..3).for_each(|_| player.tick(0).unwrap());
    player.release(0, 2).unwrap();
    (0..3).for_each(|_| player.tick(0).unwrap());
    let took: Vec<(usize, usize, u64)> = player.complete.iter().map(|job| (job.task, job.frame, job.took)).collect();
    assert_eq!(took, [(0, 1, 0), (1, 0, 3), (0, 0, 2)]);
    assert!(player.missed.is_empty() && player.now() == 8);
}
