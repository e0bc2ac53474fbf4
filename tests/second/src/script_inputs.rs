//! Scripts for comparisons: such as keep every rule, and such as are damaged in every way of 13 and 14.
use crate::check_word;
use crate::generate::{between, one_in, set_of, shape, tight_set, Shape};
use crate::random::Random;
use crate::refusal::Refusal;
use crate::scripts::{self, Entry, Script, COUNT_WIDTH, FIRST_WIDTH};
use crate::sheet::{self, CHECK_BYTES};
use crate::task::{Set, Task, MOST_TICKS};

/// A set whose plays are short: periods up to 58; some with locks as long as they may be, some with tight deadlines.
pub fn short_set(random: &mut Random, tasks: usize) -> Set {
    let shape = Shape { tasks, least_period: 2, greatest_period: between(random, 4, 40), ..shape(random) };
    if one_in(random, 3) {
        // long enough for some ticks of each task
        let least_period = 2 * tasks as u32 + 6;
        return tight_set(random, Shape { least_period, greatest_period: least_period + 20, ..shape });
    }
    let mut set = set_of(random, shape);
    if one_in(random, 2) {
        set.tasks.iter_mut().filter(|_| one_in(random, 2)).for_each(|task| task.lock = task.largest_frame());
    }
    set
}

/// A script that keeps the rules, with releases from tick `from` on and up to so many jobs of a task; they are often in step and with full work.
pub fn script(random: &mut Random, set: &Set, from: u32, most_jobs: u32) -> Script {
    let habits = Habits { from, most_jobs, late: random.below(3), full: random.below(4) };
    let first_frames: Vec<u32> = set.tasks.iter().map(|t| random.below(t.frames.len() as u64) as u32).collect();
    let mut entries = Vec::new();
    for (number, task) in set.tasks.iter().enumerate() {
        entries.extend(releases(random, &habits, (number, task), first_frames[number]));
    }
    entries.sort_by_key(|entry| (entry.tick, entry.task));
    Script { first_frames, entries }
}

struct Habits {
    from: u32,
    most_jobs: u32,
    /// So many of two releases come later than they may.
    late: u64,
    /// So many of four jobs have full work.
    full: u64,
}

fn releases(random: &mut Random, habits: &Habits, (number, task): (usize, &Task), first: u32) -> Vec<Entry> {
    let works = task.frames.iter().cycle().skip(first as usize);
    let late = |random: &mut Random| if random.below(2) < habits.late { between(random, 0, task.period) } else { 0 };
    let mut tick = habits.from + late(random);
    let mut entries = Vec::new();
    for &frame in works.take(between(random, 0, habits.most_jobs) as usize) {
        if tick > MOST_TICKS {
            break;
        }
        let work = if random.below(4) < habits.full { frame } else { between(random, 0, frame) };
        entries.push(Entry { task: number as u32, tick, work, lock: lock(random, task) });
        tick += task.period + late(random);
    }
    entries
}

/// As long as it may be, none, 1 or any.
fn lock(random: &mut Random, task: &Task) -> u32 {
    match random.below(6) {
        0 => 0,
        1 => task.lock.min(1),
        2 => between(random, 0, task.lock),
        _ => task.lock,
    }
}

/// The worst run of any frame of any task, here and there with less work and other locks.
pub fn near_worst(random: &mut Random, set: &Set) -> Script {
    let number = random.below(set.tasks.len() as u64) as usize;
    let frame = random.below(set.tasks[number].frames.len() as u64) as usize;
    let mut script = scripts::worst_of(set, number, frame);
    let rarely = 1 + random.below(8);
    for entry in &mut script.entries {
        let task = &set.tasks[entry.task as usize];
        if one_in(random, 2 * rarely) {
            entry.work -= between(random, 0, entry.work.min(2));
        }
        if one_in(random, 1 + rarely) {
            entry.lock = lock(random, task);
        }
    }
    script
}

/// A script that is to be turned away, how it was damaged, and with which refusal.
#[derive(Clone, Debug)]
pub struct DamagedScript {
    pub way: &'static str,
    pub bytes: Vec<u8>,
    pub refusal: Refusal,
}

/// The script, which keeps the rules, with one thing wrong, in every way of 13 and 14.
pub fn damaged_scripts(random: &mut Random, set: &Set, script: &Script) -> Vec<DamagedScript> {
    let mut damaged = Vec::new();
    wrong_bytes(random, script, &mut damaged);
    let mut wrong = wrong_first_frames(set, script);
    for i in 0..script.entries.len() {
        wrong.extend(wrong_entries(set, script, i));
        wrong.extend(wrong_order(script, i));
        wrong.extend(too_close(random, set, script, i));
    }
    let item = |(way, item, script)| DamagedScript { way, bytes: scripts::write(&script), refusal: Refusal::Item(item) };
    damaged.extend(wrong.into_iter().map(item));
    damaged
}

/// 13: lengths, counts, fill bits and check words.
fn wrong_bytes(random: &mut Random, script: &Script, damaged: &mut Vec<DamagedScript>) {
    let good = scripts::write(script);
    let body = &good[..good.len() - CHECK_BYTES];
    let mut push = |way, bytes| damaged.push(DamagedScript { way, bytes, refusal: Refusal::Script });
    for length in 0..body.len() {
        push("too short, check word right", check_word::sealed(&body[..length]));
    }
    for length in (0..good.len()).filter(|&length| !check_word::is_sealed(&good[..length])) {
        push("too short", good[..length].to_vec());
    }
    for surplus in 1..=10 {
        push("too long, check word right", check_word::sealed(&[body, &vec![0; surplus]].concat()));
    }
    // what stands behind a right check word makes a right one again where it is 0
    push("too long", [good.as_slice(), &[0]].concat());
    let at = FIRST_WIDTH * script.first_frames.len();
    let count = script.entries.len() as u32;
    for other in [0, count + 1, count + 256, 1 << 23, (1 << COUNT_WIDTH) - 1, count.saturating_sub(1)] {
        let mut body = body.to_vec();
        crate::bits::put(&mut body, at, COUNT_WIDTH, other);
        if other != count {
            push("count other than the entries", check_word::sealed(&body));
        }
    }
    let fill_bits = 8 * body.len() - scripts::fields(script).iter().map(|f| f.0).sum::<usize>();
    for fill in 1..1u8 << fill_bits {
        let mut body = body.to_vec();
        *body.last_mut().expect("no byte") |= fill;
        push("fill bits", check_word::sealed(&body));
    }
    let word = check_word::check_word(body);
    let over_firsts = check_word::check_word(&body[..at.div_ceil(8)]);
    for other in [!word, word.swap_bytes(), 0, 0xFFFF, over_firsts, word ^ 1, random.next() as u16] {
        if other != word {
            push("other check word", [body, &other.to_be_bytes()].concat());
        }
    }
}

/// With the item that is wrong.
type Wrong = (&'static str, usize, Script);

fn wrong_first_frames(set: &Set, script: &Script) -> Vec<Wrong> {
    let mut wrong = Vec::new();
    for (i, task) in set.tasks.iter().enumerate() {
        for frame in task.frames.len() as u32..1 << FIRST_WIDTH {
            let mut script = script.clone();
            script.first_frames[i] = frame;
            wrong.push(("first frame", i, script));
        }
    }
    wrong
}

/// Entry i with a task, a lock or a work out of range.
fn wrong_entries(set: &Set, script: &Script, i: usize) -> Vec<Wrong> {
    let entry = script.entries[i];
    let task = &set.tasks[entry.task as usize];
    let earlier = script.entries[..i].iter().filter(|other| other.task == entry.task).count();
    let frame = task.frames[(script.first_frames[entry.task as usize] as usize + earlier) % task.frames.len()];
    let mut others = Vec::new();
    for number in set.tasks.len() as u32..16 {
        others.push(("task", Entry { task: number, ..entry }));
    }
    for above in [task.lock + 1, MOST_TICKS].into_iter().filter(|&above| above > task.lock && above <= MOST_TICKS) {
        others.push((if task.lock == 0 { "lock over 0" } else { "lock" }, Entry { lock: above, ..entry }));
    }
    for above in [frame + 1, MOST_TICKS].into_iter().filter(|&above| above > frame && above <= MOST_TICKS) {
        others.push(("work above the frame", Entry { work: above, ..entry }));
    }
    let with = |(way, other)| {
        let mut script = script.clone();
        script.entries[i] = other;
        (way, script.first_frames.len() + i, script)
    };
    others.into_iter().map(with).collect()
}

/// Entry i twice, and behind the next one if that is of another task.
fn wrong_order(script: &Script, i: usize) -> Vec<Wrong> {
    let item = script.first_frames.len() + i + 1;
    let mut twice = script.clone();
    twice.entries.insert(i, script.entries[i]);
    let mut wrong = vec![("same tick, same task", item, twice)];
    if script.entries.get(i + 1).is_some_and(|next| next.task != script.entries[i].task) {
        let mut swapped = script.clone();
        swapped.entries.swap(i, i + 1);
        let same_tick = script.entries[i].tick == script.entries[i + 1].tick;
        wrong.push((if same_tick { "task numbers falling" } else { "ticks falling" }, item, swapped));
    }
    wrong
}

/// A further job of entry i's task less than a period later, just so and anywhere.
fn too_close(random: &mut Random, set: &Set, script: &Script, i: usize) -> Vec<Wrong> {
    let entry = script.entries[i];
    let period = set.tasks[entry.task as usize].period;
    let mut wrong = Vec::new();
    for tick in [entry.tick + period - 1, entry.tick + random.below(u64::from(period)) as u32] {
        if (entry.tick + 1..=MOST_TICKS).contains(&tick) {
            let close = Entry { tick, work: 0, lock: 0, ..entry };
            let at = script.entries.partition_point(|other| (other.tick, other.task) < (close.tick, close.task));
            let mut script = script.clone();
            script.entries.insert(at, close);
            wrong.push(("too close", script.first_frames.len() + at, script));
        }
    }
    wrong
}

/// The script with up to three numbers of any value near a limit, and a right check word.
pub fn muddled(random: &mut Random, set: &Set, script: &Script) -> Script {
    let mut script = script.clone();
    for _ in 0..between(random, 1, 3) {
        muddle(random, set, &mut script);
    }
    script
}

fn muddle(random: &mut Random, set: &Set, script: &mut Script) {
    let number = random.below(set.tasks.len() as u64) as usize;
    if script.entries.is_empty() || one_in(random, 8) {
        script.first_frames[number] = random.below(set.tasks[number].frames.len() as u64 + 1) as u32;
        return;
    }
    let (i, j) = (random.below(script.entries.len() as u64) as usize, random.below(script.entries.len() as u64) as usize);
    let near = [script.entries[j].tick, script.entries[i].tick + set.tasks[number].period, script.entries[i].tick];
    let near = (near[random.below(3) as usize] + random.below(3) as u32).saturating_sub(1).min(MOST_TICKS);
    let entry = &mut script.entries[i];
    match random.below(7) {
        0 => entry.task = random.below(16) as u32,
        1 => entry.task = number as u32,
        2 | 3 => entry.tick = near,
        4 => entry.work = (entry.work + random.below(3) as u32).min(MOST_TICKS),
        5 => entry.lock = (entry.lock + random.below(3) as u32).min(MOST_TICKS),
        _ => script.entries.swap(i, j),
    }
}

/// Random bytes with a right check word; mostly with a count that fits the length, and with small numbers.
pub fn random_script(random: &mut Random, tasks: usize) -> Vec<u8> {
    if one_in(random, 4) {
        let length = random.below(60) as usize;
        return check_word::sealed(&random.bytes(length));
    }
    let entry = |random: &mut Random| {
        let [task, tick, work, lock] = [tasks as u64, 50, 3, 2].map(|n| random.below(n + 1) as u32);
        Entry { task: task.min(15), tick, work, lock }
    };
    let mut entries: Vec<Entry> = (0..random.below(6)).map(|_| entry(random)).collect();
    entries.sort_by_key(|entry| (entry.tick, entry.task));
    let first_frames = (0..tasks).map(|_| u32::from(one_in(random, 8))).collect();
    let mut body = sheet::packed(&scripts::fields(&Script { first_frames, entries }));
    if one_in(random, 8) {
        let at = random.below(body.len() as u64) as usize;
        body[at] ^= 1 << random.below(8);
    }
    check_word::sealed(&body)
}
