//! Scripts for tests: random runs, and every way to break one item.
use crate::running::{shell, Folder};
use second::generate::{admitted_set, edge_set, one_in, set_of, Shape};
use second::random::Random;
use second::runs::{Job, Player};
use second::scripts::{Entry, Script};
use second::task::Set;

/// A set of small numbers, so that releases meet, wait and miss; in half of them each frame has a deadline of its own.
pub fn busy_set(random: &mut Random) -> Set {
    match random.below(8) {
        0 => admitted_set(random),
        1 => edge_set(random),
        _ => {
            let tasks = 1 + random.below(5) as usize;
            let load = 600 + random.below(900) as u32;
            let (apart, most_early) = if one_in(random, 2) { (true, 600) } else { (false, 8) };
            let shape = Shape {
                tasks,
                least_frames: 1,
                most_frames: 3,
                least_period: 4,
                greatest_period: 40,
                most_lock: 6,
                most_early,
                apart,
                load,
            };
            set_of(random, shape)
        }
    }
}

/// A run that keeps the rules: releases at the period or a little later, with any work and lock.
pub fn kept(random: &mut Random, set: &Set, entries: usize) -> Script {
    let first_frames: Vec<u32> = set.tasks.iter().map(|task| random.below(task.frames.len() as u64) as u32).collect();
    let mut next: Vec<(u64, usize)> = set.tasks.iter().map(|_| (random.below(12), 0)).collect();
    let mut script = Script { first_frames, entries: Vec::new() };
    while script.entries.len() < entries {
        let number = (0..set.tasks.len()).min_by_key(|&task| (next[task].0, task)).expect("a task");
        let (task, (tick, jobs)) = (&set.tasks[number], next[number]);
        if tick > 1_048_575 {
            break;
        }
        let frame = task.frames[(script.first_frames[number] as usize + jobs) % task.frames.len()];
        let work = if random.below(3) > 0 { frame } else { random.below(u64::from(frame) + 1) as u32 };
        let lock = if random.below(2) > 0 { task.lock } else { random.below(u64::from(task.lock) + 1) as u32 };
        script.entries.push(Entry { task: number as u32, tick: tick as u32, work, lock });
        next[number] = (tick + u64::from(task.period) + if random.below(2) > 0 { 0 } else { random.below(9) }, jobs + 1);
    }
    script
}

/// The script with one item changed, and the words that say what is wrong; `item` names it.
pub struct Broken {
    pub script: Script,
    pub item: usize,
    pub words: &'static str,
}

/// Every way in which the first frame of a task or an entry of a script that keeps the rules can break them.
pub fn broken(set: &Set, script: &Script) -> Vec<Broken> {
    let tasks = set.tasks.len();
    let mut all = Vec::new();
    for (number, task) in set.tasks.iter().enumerate() {
        let mut other = script.clone();
        other.first_frames[number] = task.frames.len() as u32;
        all.push(Broken { script: other, item: number, words: "first frame " });
    }
    for (i, entry) in script.entries.iter().enumerate() {
        let task = &set.tasks[entry.task as usize];
        let jobs = script.entries[..i].iter().filter(|earlier| earlier.task == entry.task).count();
        let frame = task.frames[(script.first_frames[entry.task as usize] as usize + jobs) % task.frames.len()];
        let last = script.entries[..i].iter().rev().find(|earlier| earlier.task == entry.task);
        let before = i.checked_sub(1).map(|before| script.entries[before]);
        let mut put = |changed: Entry, words| {
            let mut other = script.clone();
            other.entries[i] = changed;
            all.push(Broken { script: other, item: tasks + i, words });
        };
        if tasks < 16 {
            put(Entry { task: tasks as u32, ..*entry }, ": the sheet has ");
        }
        if frame < 1_048_575 {
            put(Entry { work: frame + 1, ..*entry }, " is 1 tick above the frame of task ");
        }
        if task.lock < 1_048_575 {
            put(Entry { lock: task.lock + 1, ..*entry }, " is 1 tick above the lock ");
        }
        if let Some(before) = before {
            put(Entry { work: 0, lock: 0, ..before }, " stands there twice");
            if before.tick > 0 {
                put(Entry { tick: before.tick - 1, ..*entry }, " stands behind ");
            }
        }
        if let Some(last) = last {
            let early = Entry { tick: last.tick + task.period - 1, ..*entry };
            if before.is_some_and(|before| (early.tick, early.task) > (before.tick, before.task)) {
                put(early, " is 1 tick too early for task ");
            }
        }
    }
    all
}

/// The text of a script in a form of its own, and the line of each item.
pub fn text(script: &Script) -> (String, impl Fn(usize) -> usize) {
    let frames: Vec<String> = script.first_frames.iter().map(u32::to_string).collect();
    let mut text = format!("\n# any comment\n first-frames\t{} # frames\r\n\ntask tick\twork lock\n", frames.join("  "));
    for Entry { task, tick, work, lock } in &script.entries {
        text += &format!("  {task} {tick}\t{work} {lock} # entry\r\n\n");
    }
    let tasks = script.first_frames.len();
    (text, move |item: usize| if item < tasks { 3 } else { 6 + 2 * (item - tasks) })
}

/// What is seen of a run that keeps the rules, by the second reading.
pub struct Seen {
    /// Of each tick the task that has it, and its sign in the lanes.
    pub ticks: Vec<(Option<usize>, u8)>,
    /// All jobs that miss at its end, by task number.
    pub missed: Vec<Job>,
}

pub fn seen(set: &Set, script: &Script) -> Seen {
    let mut player = Player::new(set, script.first_frames.iter().map(|&frame| frame as usize).collect());
    let (mut ticks, mut next) = (Vec::new(), 0);
    while player.missed.is_empty() {
        while script.entries.get(next).is_some_and(|entry| u64::from(entry.tick) == player.now()) {
            player.release(script.entries[next].task as usize, script.entries[next].work).expect("a release");
            next += 1;
        }
        if next == script.entries.len() && player.running().is_none() {
            break;
        }
        let lock = player.running_job().map_or(0, |job| {
            let is_of = |entry: &&Entry| (u64::from(entry.tick), entry.task as usize) == (job.release, job.task);
            script.entries.iter().find(is_of).expect("its entry").lock
        });
        let starts = !player.in_stretch() && lock >= 2;
        let sign = match (player.in_stretch(), starts) {
            (true, _) => b'=',
            (false, true) => b'L',
            (false, false) => b'x',
        };
        ticks.push((player.running(), sign));
        player.tick(if starts { lock } else { 0 }).expect("a tick");
    }
    player.missed.sort_by_key(|job| job.task);
    Seen { ticks, missed: player.missed }
}

/// A folder with a sheet `s` and a script `r`, made from a table and a text.
pub fn made(test: &str, tasks: &str, first_frames: &str, entries: &str) -> Folder {
    let folder = Folder::new(test);
    folder.file("t", format!("policy 0\ntask period deadline lock frames\n{tasks}").as_bytes());
    folder.file("r.text", format!("first-frames {first_frames}\ntask tick work lock\n{entries}").as_bytes());
    assert_eq!(shell(&folder.0, "\"$0\" compose t -o s && \"$0\" script compose s r.text -o r").done(0), "");
    folder
}

/// Tasks 1 and 2 miss at 8.
pub fn two_misses(test: &str) -> Folder {
    made(test, "0 10 5 0 3\n1 20 6 3 5\n2 20 6 0 4 2\n3 30 30 4 6\n", "0 0 0 0", "3 0 6 2\n1 2 5 3\n2 2 4 0\n0 3 3 0\n")
}
