//! Inputs for comparisons: admitted sets of every size, and sheets of both versions and lists damaged in every way of the refusal table.
use crate::analysis;
use crate::check_word;
use crate::random::Random;
use crate::refusal::{NoStart, Refusal};
use crate::sheet;
use crate::task::{admit_tasks, start_frame, Record, Set, Task, MOST_FRAMES, MOST_TASKS, MOST_TICKS};

/// What a random set shall look like.
#[derive(Clone, Copy, Debug)]
pub struct Shape {
    pub tasks: usize,
    pub least_frames: u32,
    pub most_frames: u32,
    pub least_period: u32,
    pub greatest_period: u32,
    pub most_lock: u32,
    /// How far a deadline may stand before T: thousandths of the way to its frame, or to the largest if it is that of all.
    pub most_early: u32,
    /// Whether each frame has a deadline of its own.
    pub apart: bool,
    /// Thousandths of the processor, all tasks together.
    pub load: u32,
}

/// A number from `least` to `greatest`.
pub fn between(random: &mut Random, least: u32, greatest: u32) -> u32 {
    least + random.below(u64::from(greatest - least) + 1) as u32
}

pub fn one_in(random: &mut Random, n: u64) -> bool {
    random.below(n) == 0
}

/// A number from `least` to `greatest`, each scale alike.
fn scaled(random: &mut Random, least: u32, greatest: u32) -> u32 {
    let share = random.below(1 << 30) as f64 / (1u64 << 30) as f64;
    let number = f64::from(least) * (f64::from(greatest) / f64::from(least)).powf(share);
    (number as u32).clamp(least, greatest)
}

/// 1 to 16 tasks, 1 to 8 frames, ticks from tens to 1,048,575, loads from 0.3 to 1.3; locks none, short or any.
pub fn shape(random: &mut Random) -> Shape {
    let least_period = scaled(random, 10, MOST_TICKS);
    let spread = scaled(random, 2, 10_000);
    let most_frames = between(random, 1, MOST_FRAMES as u32);
    let locks = [0, 2, least_period / 16 + 2, least_period / 4, MOST_TICKS];
    let apart = one_in(random, 2);
    let early = if apart { [100, 200, 400, 1_000] } else { [0, 0, 200, 1_000] };
    Shape {
        tasks: if one_in(random, 6) { MOST_TASKS } else { between(random, 1, MOST_TASKS as u32) as usize },
        least_frames: if one_in(random, 3) { most_frames } else { 1 },
        most_frames,
        least_period,
        greatest_period: least_period.saturating_mul(spread).min(MOST_TICKS),
        most_lock: locks[random.below(5) as usize],
        most_early: early[random.below(4) as usize],
        apart,
        load: between(random, 300, 1_300),
    }
}

/// The share of the processor that the set takes if every job has full work.
pub fn load(set: &Set) -> f64 {
    let share = |t: &Task| t.frames.iter().map(|&c| f64::from(c)).sum::<f64>() / (t.frames.len() as f64 * f64::from(t.period));
    set.tasks.iter().map(share).sum()
}

pub fn admitted_set(random: &mut Random) -> Set {
    let shape = shape(random);
    set_of(random, shape)
}

/// An admitted set of this shape, with any policy.
pub fn set_of(random: &mut Random, shape: Shape) -> Set {
    let shares: Vec<u64> = (0..shape.tasks).map(|_| 1 + random.below(100)).collect();
    let all: u64 = shares.iter().sum();
    let loads = shares.iter().map(|share| share * u64::from(shape.load) / all);
    let tasks = loads.map(|load| task_of(random, shape, load)).collect();
    let set = Set { policy: random.below(3) as u32, tasks };
    assert!(admit_tasks(&set.tasks).is_ok(), "{set:?}");
    set
}

/// A task that takes about `load` thousandths of the processor.
fn task_of(random: &mut Random, shape: Shape, load: u64) -> Task {
    let period = scaled(random, shape.least_period, shape.greatest_period);
    let count = u64::from(between(random, shape.least_frames, shape.most_frames));
    let parts: Vec<u64> = (0..count).map(|_| 1 + random.below(100)).collect();
    let round = u64::from(period) * count * load / 1_000;
    let all: u64 = parts.iter().sum();
    let frames = parts.iter().map(|part| (part * round / all).clamp(1, u64::from(period)) as u32).collect();
    finished(random, period, frames, Finish { most_early: shape.most_early, most_lock: shape.most_lock, apart: shape.apart })
}

/// What a task's deadlines and lock shall look like, as a `Shape` has it.
#[derive(Clone, Copy)]
struct Finish {
    most_early: u32,
    most_lock: u32,
    apart: bool,
}

impl Finish {
    fn any(random: &mut Random) -> Self {
        Finish { most_early: 1_000, most_lock: MOST_TICKS, apart: one_in(random, 2) }
    }

    /// One deadline for all frames, which is T.
    const LATEST: Finish = Finish { most_early: 0, most_lock: MOST_TICKS, apart: false };
}

/// A task with these frames in an order with a start frame, and deadlines and a lock that fit.
fn finished(random: &mut Random, period: u32, frames: Vec<u32>, finish: Finish) -> Task {
    let largest = *frames.iter().max().expect("no frame");
    let lock = if one_in(random, 3) { 0 } else { between(random, 0, largest.min(finish.most_lock)) };
    let frames = arranged(random, frames);
    let deadlines = deadlines(random, period, &frames, finish);
    Task { period, lock, frames, deadlines }
}

/// Deadlines at T or before it, now and then as early as they may be: one for each frame, or the same for all.
fn deadlines(random: &mut Random, period: u32, frames: &[u32], finish: Finish) -> Vec<u32> {
    let mut deadline = |frame: u32| {
        let slack = (u64::from(period - frame) * u64::from(finish.most_early) / 1_000) as u32;
        match random.below(12) {
            0 => period - slack,
            1..=5 => period - between(random, 0, slack),
            _ => period,
        }
    };
    if finish.apart {
        frames.iter().map(|&frame| deadline(frame)).collect()
    } else {
        vec![deadline(*frames.iter().max().expect("no frame")); frames.len()]
    }
}

/// The set with deadlines at the response times that it has when each is T, or a tick beside them: any frame may decide.
pub fn tight(random: &mut Random, set: &Set) -> Set {
    // not policy 2, which would order the tasks anew
    let tasks = set.tasks.iter().map(|task| task.due_by(task.period)).collect();
    let mut set = Set { policy: random.below(2) as u32, tasks };
    let answers = analysis::analyse(&set).answers;
    let rarely = 1 + random.below(100);
    for (task, answer) in set.tasks.iter_mut().zip(answers) {
        for (frame, time) in answer.times.into_iter().flatten().enumerate() {
            let beside = if one_in(random, rarely) { time - 1 } else { time + random.below(2) as u32 };
            task.deadlines[frame] = beside.clamp(task.frames[frame], task.period);
        }
    }
    set
}

/// Such a set of this shape with less load and shorter locks, so that most tasks have response times.
pub fn tight_set(random: &mut Random, shape: Shape) -> Set {
    let (load, most_lock) = (between(random, 100, 600), shape.most_lock.min(shape.least_period / 8 + 2));
    let set = set_of(random, Shape { load, most_lock, ..shape });
    tight(random, &set)
}

/// A task by another reading of its deadlines.
pub type Reading = fn(&Task) -> Task;

/// Readings that are wrong: they show whether inputs would tell.
pub const WRONG_READINGS: [(&str, Reading); 5] = [
    ("the smallest for all frames", |task| task.due_by(task.smallest_deadline())),
    ("the latest for all frames", |task| task.due_by(task.latest_deadline())),
    ("the first frame's for all", |task| task.due_by(task.deadlines[0])),
    ("the largest frame's for all", |task| task.due_by(deadline_of_time(task, task.largest_frame()))),
    ("one for frames of equal time", |task| Task {
        deadlines: task.frames.iter().map(|&time| deadline_of_time(task, time)).collect(),
        ..task.clone()
    }),
];

/// The deadline of the first frame of this time.
fn deadline_of_time(task: &Task, time: u32) -> u32 {
    let frame = task.frames.iter().position(|&c| c == time).expect("no such frame");
    task.deadlines[frame]
}

/// The set with each task so read.
pub fn read_as(set: &Set, reading: Reading) -> Set {
    Set { policy: set.policy, tasks: set.tasks.iter().map(reading).collect() }
}

/// A version whose sheet can hold the set: 2, or either if each task has one deadline.
pub fn version_for(random: &mut Random, set: &Set) -> u32 {
    if set.has_one_deadline_each() && !one_in(random, 3) {
        1
    } else {
        2
    }
}

/// The set's sheet in such a version.
pub fn sheet_of(random: &mut Random, set: &Set) -> Vec<u8> {
    sheet::write(version_for(random, set), set)
}

/// No versions that there are, some of them one in their low bits.
pub const NO_VERSIONS: [u32; 10] = [0, 3, 4, 15, 16, 17, 18, 257, 1 << 16 | 2, u32::MAX];

/// A version to tell an entry: mostly one that there is.
pub fn any_version(random: &mut Random) -> u32 {
    match random.below(20) {
        0 => random.next() as u32,
        1 => NO_VERSIONS[random.below(NO_VERSIONS.len() as u64) as usize],
        n => sheet::VERSIONS[n as usize % 2],
    }
}

/// The set with one deadline for each task, the latest that it has.
pub fn with_one_deadline_each(set: &Set) -> Set {
    read_as(set, |task| task.due_by(task.latest_deadline()))
}

/// The frames in some order that has a start frame: falling from anywhere if no other is found soon.
pub fn arranged(random: &mut Random, mut frames: Vec<u32>) -> Vec<u32> {
    for _ in 0..6 {
        shuffle(random, &mut frames);
        if start_frame(&frames).is_ok() {
            return frames;
        }
    }
    frames.sort_by(|a, b| b.cmp(a));
    let by = random.below(frames.len() as u64) as usize;
    frames.rotate_left(by);
    frames
}

/// Every frame list of so many times from 1 to `greatest`.
pub fn frame_lists(count: usize, greatest: u32) -> impl Iterator<Item = Vec<u32>> {
    let digit = move |n: u32, place: usize| n / greatest.pow(place as u32) % greatest;
    (0..greatest.pow(count as u32)).map(move |n| (0..count).map(|place| 1 + digit(n, place)).collect())
}

/// Any frame times; or few different ones, small or up to the limit, some lowered by a little, so that sums tie or nearly do.
pub fn frame_list(random: &mut Random) -> Vec<u32> {
    let count = if one_in(random, 2) { MOST_FRAMES as u32 } else { between(random, 1, MOST_FRAMES as u32) };
    let different = [3, 5, MOST_TICKS][random.below(3) as usize];
    let scale = [1, MOST_TICKS / different][random.below(2) as usize];
    let lowered = [0, scale / 16][random.below(2) as usize];
    (0..count).map(|_| scale * between(random, 1, different) - between(random, 0, lowered)).collect()
}

/// 1 to 16 tasks with such lists, all but about one of them in an order with a start frame.
pub fn set_of_lists(random: &mut Random) -> Set {
    let tasks = between(random, 1, MOST_TASKS as u32);
    let task = |random: &mut Random| {
        let frames = frame_list(random);
        let largest = *frames.iter().max().expect("no frame");
        let period = between(random, largest, (64 * largest).min(MOST_TICKS));
        let finish = Finish::any(random);
        let good = finished(random, period, frames.clone(), finish);
        if one_in(random, u64::from(tasks)) {
            Task { deadlines: deadlines(random, period, &frames, finish), frames, ..good }
        } else {
            good
        }
    };
    Set { policy: random.below(3) as u32, tasks: (0..tasks).map(|_| task(random)).collect() }
}

fn shuffle<T>(random: &mut Random, list: &mut [T]) {
    for i in (1..list.len()).rev() {
        list.swap(i, random.below(i as u64 + 1) as usize);
    }
}

/// A set at the limits of the numbers: ticks of 1, 2, 3 and just below and at 1,048,575.
pub fn edge_set(random: &mut Random) -> Set {
    const EDGES: [u32; 6] = [1, 2, 3, MOST_TICKS - 2, MOST_TICKS - 1, MOST_TICKS];
    let tasks = between(random, 1, MOST_TASKS as u32);
    let edge = |random: &mut Random| EDGES[random.below(EDGES.len() as u64) as usize];
    let task = |random: &mut Random| {
        let (period, below) = (edge(random), edge(random));
        let count = between(random, 1, MOST_FRAMES as u32);
        let frames = (0..count).map(|_| edge(random).min(period).min(below)).collect();
        let finish = Finish::any(random);
        finished(random, period, frames, finish)
    };
    Set { policy: random.below(3) as u32, tasks: (0..tasks).map(|_| task(random)).collect() }
}

/// A set for `all_runs`: two or three tasks, periods up to 6; some ask for a little more than the processor has, some have tight deadlines.
pub fn tiny_set(random: &mut Random) -> Set {
    if one_in(random, 5) {
        return tiny_rounds(random);
    }
    loop {
        let (tasks, most_frames) = if one_in(random, 3) { (2, 4) } else { (3, 2) };
        let tasks = (0..tasks).map(|_| tiny_task(random, most_frames)).collect();
        let set = Set { policy: random.below(3) as u32, tasks };
        if load(&set) <= 1.0 || load(&set) <= 1.3 && one_in(random, 3) {
            return if one_in(random, 3) { tight(random, &set) } else { set };
        }
    }
}

/// A short period with its largest frame more than once, over a task that waits for several of its jobs: the start frame tells.
fn tiny_rounds(random: &mut Random) -> Set {
    let (period, count) = (between(random, 2, 3), between(random, 3, 4));
    let frames = (0..count).map(|_| if one_in(random, 2) { period } else { 1 }).collect();
    let short = finished(random, period, frames, Finish::LATEST);
    let long = finished(random, 6, vec![1], Finish::LATEST);
    Set { policy: random.below(3) as u32, tasks: vec![short, long] }
}

/// Rather long periods and long locks, so that blocking and times go together.
fn tiny_task(random: &mut Random, most_frames: u32) -> Task {
    let least = if one_in(random, 3) { 1 } else { 4 };
    let period = between(random, least, 6);
    let most = between(random, 1, period);
    let largest = between(random, 1, most);
    let count = between(random, 1, most_frames);
    let frames = (0..count).map(|_| between(random, 1, largest)).collect();
    let finish = Finish::any(random);
    let task = finished(random, period, frames, finish);
    let lock = if one_in(random, 2) { task.largest_frame() } else { task.lock };
    Task { lock, ..task }
}

/// Sets of one task, of two, and so on, round after round; some at the limits of the numbers, some with tight deadlines.
pub fn sets_of_every_size(seed: u64, count: usize) -> impl Iterator<Item = Set> {
    let mut random = Random::new(seed);
    (0..count).map(move |i| {
        let tasks = i % MOST_TASKS + 1;
        let shape = Shape { tasks, ..shape(&mut random) };
        match i % 7 {
            0 => edge_set(&mut random),
            1 => tight_set(&mut random, shape),
            _ => set_of(&mut random, shape),
        }
    })
}

/// Sets that take the equation the most rounds: one climbs by a tick or so to a miss, one to a time that holds, one to such times with eight different deadlines.
pub fn costly_sets() -> [Set; 3] {
    let plain = |period: u32, frames: &[u32]| Task::with_one_deadline(period, period, 0, frames);
    let mut missing = vec![plain(1, &[1])];
    missing.extend((1..MOST_TASKS).map(|_| plain(MOST_TICKS, &[1; MOST_FRAMES])));
    let mut holding = vec![plain(2, &[2, 2, 2, 2, 2, 2, 2, 1]), plain(17, &[1]), plain(273, &[1])];
    holding.extend((3..MOST_TASKS).map(|_| plain(MOST_TICKS, &[1; MOST_FRAMES])));
    let different = holding.iter().map(with_different_deadlines).collect();
    [missing, holding, different].map(|tasks| Set { policy: 0, tasks })
}

/// A task of the longest period with a deadline at T, one a tick before it and so on, frame by frame; any other as it is.
pub fn with_different_deadlines(task: &Task) -> Task {
    let mut apart = task.clone();
    if task.period == MOST_TICKS {
        apart.deadlines = (0..task.frames.len() as u32).map(|k| MOST_TICKS - k).collect();
    }
    apart
}

/// The numbers of a sheet, each free to be wrong within its field.
#[derive(Clone, Debug)]
pub struct Draft {
    pub version: u32,
    /// The version whose fields the tasks have, whatever the header says.
    pub layout: u32,
    pub policy: u32,
    pub count: u32,
    pub spare: u32,
    pub tasks: Vec<DraftTask>,
    /// The last bits up to a whole byte, as far as there are any.
    pub fill: u8,
    /// Bytes between the last record and the check word.
    pub surplus: Vec<u8>,
}

#[derive(Clone, Debug)]
pub struct DraftTask {
    pub period: u32,
    pub lock: u32,
    pub frame_count: u32,
    pub frames: Vec<u32>,
    /// As many as frames; version 1 has a field for the first alone.
    pub deadlines: Vec<u32>,
}

impl DraftTask {
    fn fields(&self, layout: u32) -> Vec<(usize, u32)> {
        let mut fields = match layout {
            1 => vec![(20, self.period), (20, self.deadlines[0]), (20, self.lock), (4, self.frame_count)],
            _ => vec![(20, self.period), (20, self.lock), (4, self.frame_count)],
        };
        for (&frame, &deadline) in self.frames.iter().zip(&self.deadlines) {
            fields.push((20, frame));
            if layout != 1 {
                fields.push((20, deadline));
            }
        }
        fields
    }
}

impl Draft {
    pub fn of(version: u32, set: &Set) -> Self {
        let draft = |t: &Task| DraftTask {
            period: t.period,
            lock: t.lock,
            frame_count: t.frames.len() as u32,
            frames: t.frames.clone(),
            deadlines: t.deadlines.clone(),
        };
        let (count, tasks) = (set.tasks.len() as u32, set.tasks.iter().map(draft).collect());
        Draft { version, layout: version, policy: set.policy, count, spare: 0, tasks, fill: 0, surplus: vec![] }
    }

    /// Every field with its width.
    fn fields(&self) -> Vec<(usize, u32)> {
        let mut fields = vec![(4, self.version), (2, self.policy), (5, self.count), (5, self.spare)];
        fields.extend(self.tasks.iter().flat_map(|task| task.fields(self.layout)));
        fields
    }

    /// How many fill bits there are.
    pub fn fill_bits(&self) -> usize {
        (8 - self.fields().iter().map(|f| f.0).sum::<usize>() % 8) % 8
    }

    /// All that stands before the check word.
    pub fn body(&self) -> Vec<u8> {
        let mut body = sheet::packed(&self.fields());
        if let Some(last) = body.last_mut() {
            *last |= self.fill & ((1 << self.fill_bits()) - 1);
        }
        body.extend(&self.surplus);
        body
    }

    /// The sheet with a right check word.
    pub fn bytes(&self) -> Vec<u8> {
        check_word::sealed(&self.body())
    }
}

/// A sheet that is to be turned away, how it was damaged, and with which refusal.
#[derive(Clone, Debug)]
pub struct DamagedSheet {
    pub way: &'static str,
    pub bytes: Vec<u8>,
    pub refusal: Refusal,
}

/// A list that is to be turned away.
#[derive(Clone, Debug)]
pub struct DamagedList {
    pub way: &'static str,
    pub policy: u32,
    pub list: Vec<Record>,
    pub refusal: Refusal,
}

/// The admitted set's sheet, of a version that can hold it, with one thing wrong, in every way of the scope's table but 12, with a right check word where a later refusal is meant.
pub fn damaged_sheets(random: &mut Random, version: u32, set: &Set) -> Vec<DamagedSheet> {
    let mut damaged = Vec::new();
    let draft = Draft::of(version, set);
    wrong_lengths(random, &draft, &mut damaged);
    wrong_check_words(random, &draft, &mut damaged);
    wrong_headers(&draft, &mut damaged);
    wrong_frame_counts(&draft, &mut damaged);
    wrong_records(random, &draft, &mut damaged);
    wrong_fills(&draft, &mut damaged);
    wrong_tasks(random, version, set, &mut damaged);
    damaged
}

fn push(damaged: &mut Vec<DamagedSheet>, way: &'static str, bytes: Vec<u8>, refusal: Refusal) {
    damaged.push(DamagedSheet { way, bytes, refusal });
}

/// The draft with one change, sealed.
fn changed(draft: &Draft, change: impl FnOnce(&mut Draft)) -> Vec<u8> {
    let mut copy = draft.clone();
    change(&mut copy);
    copy.bytes()
}

fn wrong_lengths(random: &mut Random, draft: &Draft, damaged: &mut Vec<DamagedSheet>) {
    for length in 0..sheet::LEAST {
        push(damaged, "too short", draft.bytes()[..length].to_vec(), Refusal::Length);
        if let Some(body) = length.checked_sub(sheet::CHECK_BYTES) {
            push(damaged, "too short, check word right", check_word::sealed(&draft.body()[..body]), Refusal::Length);
        }
    }
    let beyond = random.below(2_000) as usize;
    for length in [sheet::GREATEST + 1, sheet::GREATEST + 2, sheet::GREATEST + 3 + beyond] {
        let mut body = draft.body();
        body.resize(length - sheet::CHECK_BYTES, 0);
        push(damaged, "too long, check word right", check_word::sealed(&body), Refusal::Length);
        push(damaged, "too long", random.bytes(length), Refusal::Length);
    }
}

/// Only strings whose check word is wrong indeed are kept.
fn wrong_check_words(random: &mut Random, draft: &Draft, damaged: &mut Vec<DamagedSheet>) {
    let (good, body) = (draft.bytes(), draft.body());
    let word = check_word::check_word(&body);
    let over_header = check_word::check_word(&body[..2]);
    let words = [!word, word.swap_bytes(), 0, 0xFFFF, over_header, word ^ 1, word ^ 0x8000, random.next() as u16];
    for other in words.into_iter().filter(|&other| other != word) {
        let bytes = [body.as_slice(), &other.to_be_bytes()].concat();
        push(damaged, "other check word", bytes, Refusal::CheckWord);
    }
    for at in 0..body.len() {
        let mut bytes = good.clone();
        bytes[at] ^= 1 << random.below(8);
        push(damaged, "changed bit", bytes, Refusal::CheckWord);
    }
    for length in sheet::LEAST..good.len() {
        let cut = good[..length].to_vec();
        if !check_word::is_sealed(&cut) {
            push(damaged, "truncated, check word lost", cut, Refusal::CheckWord);
        }
    }
}

fn wrong_headers(draft: &Draft, damaged: &mut Vec<DamagedSheet>) {
    for version in (0..16).filter(|v| !sheet::VERSIONS.contains(v)) {
        push(damaged, "version", changed(draft, |d| d.version = version), Refusal::Version);
    }
    push(damaged, "policy 3", changed(draft, |d| d.policy = 3), Refusal::Policy);
    for spare in 1..32 {
        push(damaged, "spare bits", changed(draft, |d| d.spare = spare), Refusal::SpareOrFillBit);
    }
    for count in [0].into_iter().chain(17..32) {
        push(damaged, "task count", changed(draft, |d| d.count = count), Refusal::TaskCount);
    }
}

fn wrong_frame_counts(draft: &Draft, damaged: &mut Vec<DamagedSheet>) {
    for task in 0..draft.tasks.len() {
        for count in [0].into_iter().chain(9..16) {
            let bytes = changed(draft, |d| d.tasks[task].frame_count = count);
            push(damaged, "frame count", bytes, Refusal::FrameCount(task));
        }
    }
}

fn wrong_records(random: &mut Random, draft: &Draft, damaged: &mut Vec<DamagedSheet>) {
    let body = draft.body();
    for length in sheet::LEAST - sheet::CHECK_BYTES..body.len() {
        push(damaged, "truncated", check_word::sealed(&body[..length]), Refusal::Records);
    }
    let room = (sheet::GREATEST - sheet::CHECK_BYTES).saturating_sub(body.len());
    for surplus in [1, 2, 3, 8, 18, room].into_iter().filter(|&n| (1..=room).contains(&n)) {
        let bytes = random.bytes(surplus);
        push(damaged, "bytes too many", changed(draft, |d| d.surplus = vec![0; surplus]), Refusal::Records);
        push(damaged, "bytes too many, not zero", changed(draft, |d| d.surplus = bytes), Refusal::Records);
        push(damaged, "bytes too many, fill set", changed(draft, |d| (d.surplus, d.fill) = (vec![0; surplus], 0xFF)), Refusal::Records);
    }
    for count in draft.count + 1..=MOST_TASKS as u32 {
        push(damaged, "task count above the records", changed(draft, |d| d.count = count), Refusal::Records);
    }
    for count in 1..draft.count {
        push(damaged, "task count below the records", changed(draft, |d| d.count = count), Refusal::Records);
    }
    let last = draft.tasks.len() - 1;
    for count in (1..=MOST_FRAMES as u32).filter(|&n| n != draft.tasks[last].frame_count) {
        let bytes = changed(draft, |d| d.tasks[last].frame_count = count);
        push(damaged, "last frame count other than the frames", bytes, Refusal::Records);
    }
}

fn wrong_fills(draft: &Draft, damaged: &mut Vec<DamagedSheet>) {
    for fill in 1..1u8 << draft.fill_bits() {
        push(damaged, "fill bits", changed(draft, |d| d.fill = fill), Refusal::SpareOrFillBit);
    }
}

/// The refusals 9, 10 and 11 of a list that can be told in the fields of a sheet of this version.
fn wrong_tasks(random: &mut Random, version: u32, set: &Set, damaged: &mut Vec<DamagedSheet>) {
    for (way, wrong, refusal) in wrong_sets(random, set) {
        let fits = |t: &Task| t.frames.iter().chain(&t.deadlines).chain([&t.period, &t.lock]).all(|&n| n <= MOST_TICKS);
        if wrong.tasks.iter().all(fits) && (version != 1 || wrong.has_one_deadline_each()) {
            push(damaged, way, Draft::of(version, &wrong).bytes(), refusal);
        }
    }
}

/// The set with one task wrong: 9, 10 and 11 in every way, numbers beyond 20 bits too.
pub fn wrong_sets(random: &mut Random, set: &Set) -> Vec<(&'static str, Set, Refusal)> {
    let mut wrong = Vec::new();
    for number in 0..set.tasks.len() {
        let good = &set.tasks[number];
        let mut all = wrong_ticks(good);
        all.extend(wrong_deadlines(good));
        all.extend(wrong_frames(good));
        let mut all: Vec<_> = all.into_iter().map(|(way, task)| (way, task, Refusal::NotWellFormed(number))).collect();
        all.extend(wrong_locks(good).into_iter().map(|(way, task)| (way, task, Refusal::Lock(number))));
        let (task, why) = not_monotonic(random, good);
        all.push(("not monotonic", task, Refusal::NotMonotonic(number, why)));
        for (way, task, refusal) in all {
            let mut set = set.clone();
            set.tasks[number] = task;
            wrong.push((way, set, refusal));
        }
    }
    wrong
}

/// T, D of all frames and Q at 0, out of range or in the wrong order.
fn wrong_ticks(good: &Task) -> Vec<(&'static str, Task)> {
    let mut wrong = vec![
        ("T 0", Task { period: 0, ..good.clone() }),
        ("D 0", good.due_by(0)),
        ("T below D", Task { period: good.latest_deadline() - 1, ..good.clone() }),
        ("D above T", good.due_by(good.period + 1)),
        ("D below a frame", good.due_by(good.largest_frame() - 1)),
        ("T and D 0", Task { period: 0, ..good.due_by(0) }),
    ];
    for beyond in [MOST_TICKS + 1, 1 << 31, u32::MAX] {
        wrong.push(("T beyond", Task { period: beyond, ..good.clone() }));
        wrong.push(("D beyond", good.due_by(beyond)));
        wrong.push(("T and D beyond", Task { period: beyond, ..good.due_by(beyond) }));
        wrong.push(("Q beyond", Task { lock: beyond, ..good.clone() }));
    }
    wrong
}

/// Each frame's deadline at 0, below the frame, above T or out of range, the others right.
fn wrong_deadlines(good: &Task) -> Vec<(&'static str, Task)> {
    let mut wrong = Vec::new();
    for frame in 0..good.frames.len() {
        let ways = [
            ("one D 0", 0),
            ("one D below its frame", good.frames[frame] - 1),
            ("one D above T", good.period + 1),
            ("one D beyond", MOST_TICKS + 1),
            ("one D far beyond", u32::MAX),
        ];
        for (way, deadline) in ways {
            let mut task = good.clone();
            task.deadlines[frame] = deadline;
            wrong.push((way, task));
        }
    }
    wrong
}

/// Each frame at 0, above its D or out of range.
fn wrong_frames(good: &Task) -> Vec<(&'static str, Task)> {
    let mut wrong = Vec::new();
    let with = |frame: usize, time: u32| {
        let mut task = good.clone();
        task.frames[frame] = time;
        task
    };
    for frame in 0..good.frames.len() {
        wrong.push(("frame 0", with(frame, 0)));
        wrong.push(("frame above D", with(frame, good.deadlines[frame] + 1)));
        wrong.push(("frame beyond", with(frame, MOST_TICKS + 1)));
        wrong.push(("frame far beyond", with(frame, u32::MAX)));
    }
    wrong
}

/// Q above the largest frame, while in range.
fn wrong_locks(good: &Task) -> Vec<(&'static str, Task)> {
    let largest = good.largest_frame();
    let locks = [("Q one above", largest + 1), ("Q greatest", MOST_TICKS)];
    let above = locks.into_iter().filter(|&(_, lock)| lock > largest && lock <= MOST_TICKS);
    above.map(|(way, lock)| (way, Task { lock, ..good.clone() })).collect()
}

/// The task with a frame list that has no start, and why; a deadline below 3 is too short for a list like that and is raised. One that is that of all frames stays so.
pub fn not_monotonic(random: &mut Random, good: &Task) -> (Task, NoStart) {
    let (deadline, period) = (good.smallest_deadline().max(3), good.period.max(3));
    loop {
        let count = between(random, 3, MOST_FRAMES as u32);
        let frames: Vec<u32> = (0..count).map(|_| between(random, 1, deadline)).collect();
        if let Err(why) = start_frame(&frames) {
            let lock = good.lock.min(*frames.iter().max().expect("no frame"));
            let latest = if good.has_one_deadline() { deadline } else { period };
            let deadlines = frames.iter().map(|_| between(random, deadline, latest)).collect();
            return (Task { period, lock, frames, deadlines }, why);
        }
    }
}

/// The admitted set's list with one thing wrong, in every way of the scope's table but 12.
pub fn damaged_lists(random: &mut Random, set: &Set) -> Vec<DamagedList> {
    let (policy, good) = (set.policy, set.list());
    let mut damaged = Vec::new();
    for policy in [3, 4, 1 << 16, u32::MAX] {
        damaged.push(DamagedList { way: "policy", policy, list: good.clone(), refusal: Refusal::Policy });
    }
    for length in [0, 17, 18, 31, 32, 33, 64, 256 + set.tasks.len()] {
        let list = good.iter().copied().cycle().take(length).collect();
        damaged.push(DamagedList { way: "task count", policy, list, refusal: Refusal::TaskCount });
    }
    for task in 0..good.len() {
        for frame_count in [0, 9, 10, 15, 16, 256, 1 << 16, 1 << 31, u32::MAX] {
            let mut list = good.clone();
            list[task].frame_count = frame_count;
            damaged.push(DamagedList { way: "frame count", policy, list, refusal: Refusal::FrameCount(task) });
        }
    }
    let wrong = wrong_sets(random, set);
    damaged.extend(wrong.into_iter().map(|(way, set, refusal)| DamagedList { way, policy, list: set.list(), refusal }));
    damaged
}

/// The list with anything in the slots that are not in use.
pub fn littered(random: &mut Random, mut list: Vec<Record>) -> Vec<Record> {
    for record in &mut list {
        let used = (record.frame_count as usize).min(MOST_FRAMES);
        record.frames[used..].fill_with(|| random.next() as u32);
        record.deadlines[used..].fill_with(|| random.next() as u32);
    }
    list
}

/// Every size of lent room from none to one past the need; below the need it is too small.
pub fn rooms(need: usize) -> std::ops::RangeInclusive<usize> {
    0..=need + 1
}

/// Lent room that fits most of the time.
pub fn likely_room(random: &mut Random, need: usize) -> usize {
    match random.below(6) {
        0 => random.below(need as u64) as usize,
        1 => need + random.below(5) as usize,
        _ => need,
    }
}

/// A sheet with a right check word and up to four fields of any value, so that several refusals contend.
pub fn muddled_sheet(random: &mut Random, set: &Set) -> Vec<u8> {
    let mut draft = Draft::of(version_for(random, set), set);
    for _ in 0..between(random, 1, 4) {
        muddle(random, &mut draft);
    }
    let mut body = draft.body();
    if one_in(random, 4) {
        body.truncate(random.below(body.len() as u64 + 1) as usize);
    }
    check_word::sealed(&body)
}

fn muddle(random: &mut Random, draft: &mut Draft) {
    match random.below(20) {
        0 => draft.version = random.below(16) as u32,
        1 => draft.policy = random.below(4) as u32,
        2 => draft.count = random.below(32) as u32,
        3 => draft.spare = random.below(32) as u32,
        4 => draft.fill = random.next() as u8,
        5 => draft.surplus = vec![0; random.below(12) as usize],
        _ => muddle_task(random, draft),
    }
}

fn muddle_task(random: &mut Random, draft: &mut Draft) {
    let number = random.below(draft.tasks.len() as u64) as usize;
    let layout = draft.layout;
    let task = &mut draft.tasks[number];
    let frame = random.below(task.frames.len() as u64) as usize;
    let near = [0, 1, task.period, task.deadlines[frame], task.frames[frame], task.lock, MOST_TICKS, random.below(1 << 20) as u32];
    let near = near[random.below(8) as usize];
    let ticks = (near + random.below(3) as u32).saturating_sub(1).min(MOST_TICKS);
    match random.below(6) {
        0 => task.period = ticks,
        1 => task.deadlines[if layout == 1 { 0 } else { frame }] = ticks,
        2 => task.lock = ticks,
        3 => task.frame_count = random.below(16) as u32,
        4 => task.frames[frame] = ticks,
        _ => shuffle(random, &mut task.frames),
    }
}

/// Random bytes with a right check word; mostly with a header that passes, so that the records are looked at.
pub fn random_sheet(random: &mut Random) -> Vec<u8> {
    let greatest = if one_in(random, 2) { 60 } else { sheet::GREATEST as u32 + 4 };
    let length = between(random, 0, greatest - sheet::CHECK_BYTES as u32) as usize;
    let mut body = random.bytes(length);
    if length >= 2 && !one_in(random, 4) {
        let count = between(random, 1, 3);
        let header = sheet::packed(&[(4, between(random, 1, 2)), (2, random.below(3) as u32), (5, count), (5, 0)]);
        body[..2].copy_from_slice(&header);
    }
    check_word::sealed(&body)
}
