//! Run scripts: the reader, the judge, the writer, the play of a script by the scheduler rules, and the worst run of a missed set as a script.
use crate::analysis::{self, Higher, Verdict};
use crate::check_word;
use crate::refusal::Refusal;
use crate::runs::{worst_first_frames, Complete, Job, Player};
use crate::sheet::{self, Fields, TICKS_WIDTH};
use crate::task::{Set, MOST_TASKS};

pub const FIRST_WIDTH: usize = 4;
pub const COUNT_WIDTH: usize = 24;
pub const TASK_WIDTH: usize = 4;
/// Task, tick, work and lock.
pub const ENTRY: usize = TASK_WIDTH + 3 * TICKS_WIDTH;

/// What a tick without a job shows, in place of a task number.
pub const IDLE: u8 = MOST_TASKS as u8;
/// What is added in a locked stretch, from its first tick on.
pub const LOCKED: u8 = 2 * MOST_TASKS as u8;

/// One release.
#[derive(Clone, Copy, Debug, PartialEq, Eq)]
pub struct Entry {
    pub task: u32,
    pub tick: u32,
    pub work: u32,
    /// Every unlocked pick of the job starts a stretch of this length; 0 or 1 means none.
    pub lock: u32,
}

#[derive(Clone, Debug, PartialEq, Eq)]
pub struct Script {
    /// By task number.
    pub first_frames: Vec<u32>,
    pub entries: Vec<Entry>,
}

/// The whole length of a script.
pub fn length(tasks: usize, entries: usize) -> usize {
    sheet::bytes_for(FIRST_WIDTH * tasks + COUNT_WIDTH + ENTRY * entries)
}

/// The script in the bytes, for so many tasks; 13 if length, fill or check word is wrong.
pub fn read(bytes: &[u8], tasks: usize) -> Result<Script, Refusal> {
    if bytes.len() < length(tasks, 0) || !check_word::is_sealed(bytes) {
        return Err(Refusal::Script);
    }
    let mut fields = Fields::of(bytes);
    let first_frames = (0..tasks).map(|_| fields.take(FIRST_WIDTH)).collect();
    let count = fields.take(COUNT_WIDTH) as usize;
    if bytes.len() != length(tasks, count) {
        return Err(Refusal::Script);
    }
    let entries = (0..count).map(|_| read_entry(&mut fields)).collect();
    let fill = fields.left();
    if fill > 0 && fields.take(fill) != 0 {
        return Err(Refusal::Script);
    }
    Ok(Script { first_frames, entries })
}

fn read_entry(fields: &mut Fields) -> Entry {
    Entry { task: fields.take(TASK_WIDTH), tick: fields.ticks(), work: fields.ticks(), lock: fields.ticks() }
}

/// Every field with its width.
pub fn fields(script: &Script) -> Vec<(usize, u32)> {
    let mut fields: Vec<(usize, u32)> = script.first_frames.iter().map(|&frame| (FIRST_WIDTH, frame)).collect();
    fields.push((COUNT_WIDTH, script.entries.len() as u32));
    for entry in &script.entries {
        fields.push((TASK_WIDTH, entry.task));
        fields.extend([entry.tick, entry.work, entry.lock].map(|n| (TICKS_WIDTH, n)));
    }
    fields
}

/// The bytes of a script whose numbers fit their fields; whether it keeps the rules is not asked.
pub fn write(script: &Script) -> Vec<u8> {
    check_word::sealed(&sheet::packed(&fields(script)))
}

/// 14 with the first item that is out of range, out of order or against a run rule.
pub fn judge(set: &Set, script: &Script) -> Result<(), Refusal> {
    let tasks = set.tasks.len();
    let no_frame = |task: usize| script.first_frames[task] as usize >= set.tasks[task].frames.len();
    if let Some(task) = (0..tasks).find(|&task| no_frame(task)) {
        return Err(Refusal::Item(task));
    }
    let mut releases = vec![Vec::new(); tasks];
    for (i, entry) in script.entries.iter().enumerate() {
        let last = i.checked_sub(1).map(|last| &script.entries[last]);
        let in_order = last.is_none_or(|last| (last.tick, last.task) < (entry.tick, entry.task));
        if !in_order || !keeps_rules(set, script, entry, &releases) {
            return Err(Refusal::Item(tasks + i));
        }
        releases[entry.task as usize].push(entry.tick);
    }
    Ok(())
}

/// A task of the set, a lock up to Q, T after the task's last release, work up to the frame; `releases` are the earlier ones of each task.
fn keeps_rules(set: &Set, script: &Script, entry: &Entry, releases: &[Vec<u32>]) -> bool {
    let number = entry.task as usize;
    let Some(task) = set.tasks.get(number) else { return false };
    let earlier = &releases[number];
    let frame = (script.first_frames[number] as usize + earlier.len()) % task.frames.len();
    let apart = earlier.last().is_none_or(|last| entry.tick >= last + task.period);
    entry.lock <= task.lock && apart && entry.work <= task.frames[frame]
}

/// A play from its first tick to its end.
#[derive(Clone, Debug, PartialEq, Eq)]
pub struct Play {
    /// The moment at which it ends.
    pub tick: u64,
    /// The task that misses then; none if all jobs are done.
    pub missed: Option<usize>,
    /// What each tick showed: the task number or `IDLE`, and `LOCKED` more in a stretch.
    pub shown: Vec<u8>,
    /// All jobs that are complete, in the order in which they were.
    pub complete: Vec<Complete>,
}

/// Plays a script that keeps the rules, up to the first miss or until all jobs are done.
pub fn play(set: &Set, script: &Script) -> Play {
    let mut player = Player::new(set, script.first_frames.iter().map(|&frame| frame as usize).collect());
    let (mut shown, mut next) = (Vec::new(), 0);
    loop {
        if let Some(missed) = player.missed.iter().map(|job| job.task).min() {
            return Play { tick: player.now(), missed: Some(missed), shown, complete: player.complete };
        }
        while script.entries.get(next).is_some_and(|entry| u64::from(entry.tick) == player.now()) {
            player.release(script.entries[next].task as usize, script.entries[next].work).expect("against a run rule");
            next += 1;
        }
        if next == script.entries.len() && player.running().is_none() {
            return Play { tick: player.now(), missed: None, shown, complete: player.complete };
        }
        let stretch = new_stretch(&player, script);
        shown.push(shows(&player, stretch));
        player.tick(stretch).expect("against a run rule");
    }
}

/// The stretch that starts with this tick, 0 for none: an unlocked pick starts one as long as its job's lock, from 2 on.
fn new_stretch(player: &Player, script: &Script) -> u32 {
    match player.running_job() {
        Some(job) if !player.in_stretch() => Some(lock_of(script, job)).filter(|&lock| lock >= 2).unwrap_or(0),
        _ => 0,
    }
}

/// The lock of the entry that released the job.
fn lock_of(script: &Script, job: Job) -> u32 {
    let key = |entry: &Entry| (u64::from(entry.tick), entry.task as usize);
    let at = script.entries.binary_search_by_key(&(job.release, job.task), key);
    script.entries[at.expect("a job that no entry released")].lock
}

fn shows(player: &Player, new_stretch: u32) -> u8 {
    let number = player.running().map_or(IDLE, |task| task as u8);
    number + if player.in_stretch() || new_stretch > 0 { LOCKED } else { 0 }
}

/// The first frame of a task without a response time within its deadline, by the definition and whatever its task's slots hold.
pub fn first_frame_without(set: &Set, task: usize) -> Option<usize> {
    let order = analysis::order(set);
    let place = order.iter().position(|&i| i == task).expect("no such task");
    let higher: Vec<Higher> = order[..place].iter().map(|&i| Higher::new(&set.tasks[i])).collect();
    let blocking = analysis::blocking(set, &order[place + 1..]);
    let task = &set.tasks[task];
    let has_none = |frame: &usize| analysis::response_time(blocking, task.frames[*frame], &higher, task.deadlines[*frame]).is_none();
    (0..task.frames.len()).find(has_none)
}

/// The worst run of the named task's first frame without a response time; none if the set holds.
pub fn worst(set: &Set) -> Option<Script> {
    match analysis::analyse(set).verdict {
        Verdict::Holds => None,
        Verdict::Missed { task, .. } => Some(worst_of(set, task, first_frame_without(set, task).expect("the task passes"))),
    }
}

/// The worst run of a frame: up to its own deadline.
pub fn worst_of(set: &Set, number: usize, frame: usize) -> Script {
    let order = analysis::order(set);
    let place = order.iter().position(|&i| i == number).expect("no such task");
    let (higher, lower) = (&order[..place], &order[place + 1..]);
    let blocker = analysis::blocker(set, lower);
    let first_frames = worst_first_frames(set, (number, frame), higher, blocker);
    let mut entries = Vec::new();
    if let Some(blocker) = blocker {
        let lock = set.tasks[blocker].lock;
        entries.push(Entry { task: blocker as u32, tick: 0, work: lock, lock });
    }
    let task = &set.tasks[number];
    entries.push(Entry { task: number as u32, tick: 1, work: task.frames[frame], lock: 0 });
    for &i in higher {
        let task_above = &set.tasks[i];
        let works = task_above.frames.iter().cycle().skip(first_frames[i]);
        let ticks = (1..1 + task.deadlines[frame]).step_by(task_above.period as usize);
        entries.extend(ticks.zip(works).map(|(tick, &work)| Entry { task: i as u32, tick, work, lock: 0 }));
    }
    entries.sort_by_key(|entry| (entry.tick, entry.task));
    Script { first_frames: first_frames.into_iter().map(|frame| frame as u32).collect(), entries }
}

/// The play of a script with a sheet: the sheet's refusals, then 13, then 14.
pub fn play_sheet(sheet: &[u8], script: &[u8]) -> Result<Play, Refusal> {
    let set = sheet::read(sheet)?;
    let script = read(script, set.tasks.len())?;
    judge(&set, &script)?;
    Ok(play(&set, &script))
}

/// The play with what each tick shows, in lent bytes; bytes past them stay as they were. Last 12.
pub fn trace_into(sheet: &[u8], script: &[u8], ticks: &mut [u8]) -> Result<Play, Refusal> {
    let play = play_sheet(sheet, script)?;
    let room = ticks.get_mut(..play.shown.len()).ok_or(Refusal::Room)?;
    room.copy_from_slice(&play.shown);
    Ok(play)
}

/// Writes the worst script of a missed set and returns the bytes written: 0 of a set that holds, whatever the room. Last 12.
pub fn worst_into(sheet: &[u8], buffer: &mut [u8]) -> Result<usize, Refusal> {
    let Some(script) = worst(&sheet::read(sheet)?) else { return Ok(0) };
    let need = length(script.first_frames.len(), script.entries.len());
    let room = buffer.get_mut(..need).ok_or(Refusal::Room)?;
    room.copy_from_slice(&write(&script));
    Ok(need)
}
