//! The sheet in both its versions: its reader, with every refusal in the scope's order, its writer and its converter.
use crate::refusal::Refusal;
use crate::task::{admit_list, admit_tasks, Record, Set, Task};
use crate::task::{DEADLINE_MONOTONIC, LISTED, MOST_FRAMES, MOST_TASKS, RATE_MONOTONIC};
use crate::{bits, check_word};

/// One deadline for all frames of a task, and one for each frame.
pub const VERSIONS: [u32; 2] = [1, 2];
pub const VERSION_WIDTH: usize = 4;
pub const POLICY_WIDTH: usize = 2;
pub const COUNT_WIDTH: usize = 5;
pub const SPARE_WIDTH: usize = 5;
pub const TICKS_WIDTH: usize = 20;
pub const FRAME_COUNT_WIDTH: usize = 4;
pub const HEADER: usize = VERSION_WIDTH + POLICY_WIDTH + COUNT_WIDTH + SPARE_WIDTH;
pub const CHECK_BYTES: usize = 2;
/// In both versions.
pub const LEAST: usize = bytes_for(HEADER + task_bits(1, 1));
/// In version 2.
pub const GREATEST: usize = bytes_for(HEADER + MOST_TASKS * task_bits(2, MOST_FRAMES));

/// T, Q and the frame count, and in version 1 the deadline.
pub const fn fixed_bits(version: u32) -> usize {
    let ticks = if version == 1 { 3 } else { 2 };
    ticks * TICKS_WIDTH + FRAME_COUNT_WIDTH
}

/// The frames' times, and in version 2 their deadlines.
pub const fn frame_bits(version: u32, frames: usize) -> usize {
    let ticks = if version == 1 { 1 } else { 2 };
    frames * ticks * TICKS_WIDTH
}

const fn task_bits(version: u32, frames: usize) -> usize {
    fixed_bits(version) + frame_bits(version, frames)
}

/// The length of a file whose fields take so many bits, with fill and check word.
pub const fn bytes_for(bits: usize) -> usize {
    bits.div_ceil(8) + CHECK_BYTES
}

/// Takes field after field from the bytes before the check word.
pub struct Fields<'a> {
    bytes: &'a [u8],
    at: usize,
}

impl<'a> Fields<'a> {
    /// From the first bit on; the caller has made sure that there is a check word.
    pub fn of(bytes: &'a [u8]) -> Self {
        Fields { bytes: &bytes[..bytes.len() - CHECK_BYTES], at: 0 }
    }

    pub fn left(&self) -> usize {
        8 * self.bytes.len() - self.at
    }

    /// The next field; the caller has made sure that it is there.
    pub fn take(&mut self, width: usize) -> u32 {
        let value = bits::take(self.bytes, self.at, width).expect("a field past the end");
        self.at += width;
        value
    }

    pub fn ticks(&mut self) -> u32 {
        self.take(TICKS_WIDTH)
    }
}

/// The set in the sheet, or the first refusal in the scope's order (all but 12, which depends on the room).
pub fn read(bytes: &[u8]) -> Result<Set, Refusal> {
    read_versions(&VERSIONS, bytes).map(|(_, set)| set)
}

/// The version and the set of a sheet of one of these versions; 3 stands for every other.
pub fn read_versions(versions: &[u32], bytes: &[u8]) -> Result<(u32, Set), Refusal> {
    if !(LEAST..=GREATEST).contains(&bytes.len()) {
        return Err(Refusal::Length);
    }
    if !check_word::is_sealed(bytes) {
        return Err(Refusal::CheckWord);
    }
    let mut fields = Fields::of(bytes);
    let (version, policy, count) = read_header(versions, &mut fields)?;
    let tasks = (0..count).map(|i| read_task(version, &mut fields, i)).collect::<Result<Vec<Task>, Refusal>>()?;
    read_fill(&mut fields)?;
    admit_tasks(&tasks)?;
    Ok((version, Set { policy, tasks }))
}

/// 3, 4, 5 for the spare bits, 6.
fn read_header(versions: &[u32], fields: &mut Fields) -> Result<(u32, u32, usize), Refusal> {
    let version = fields.take(VERSION_WIDTH);
    let policy = fields.take(POLICY_WIDTH);
    let count = fields.take(COUNT_WIDTH) as usize;
    let spare = fields.take(SPARE_WIDTH);
    if !versions.contains(&version) {
        return Err(Refusal::Version);
    }
    if ![LISTED, RATE_MONOTONIC, DEADLINE_MONOTONIC].contains(&policy) {
        return Err(Refusal::Policy);
    }
    if spare != 0 {
        return Err(Refusal::SpareOrFillBit);
    }
    if count == 0 || count > MOST_TASKS {
        return Err(Refusal::TaskCount);
    }
    Ok((version, policy, count))
}

/// 8 if the fixed bits are not all there, 7, 8 if the frames are not.
fn read_task(version: u32, fields: &mut Fields, number: usize) -> Result<Task, Refusal> {
    if fields.left() < fixed_bits(version) {
        return Err(Refusal::Records);
    }
    let period = fields.ticks();
    let deadline = if version == 1 { Some(fields.ticks()) } else { None };
    let lock = fields.ticks();
    let frame_count = fields.take(FRAME_COUNT_WIDTH) as usize;
    if frame_count == 0 || frame_count > MOST_FRAMES {
        return Err(Refusal::FrameCount(number));
    }
    if fields.left() < frame_bits(version, frame_count) {
        return Err(Refusal::Records);
    }
    let mut frame = || {
        let time = fields.ticks();
        (time, deadline.unwrap_or_else(|| fields.ticks()))
    };
    let (frames, deadlines) = (0..frame_count).map(|_| frame()).unzip();
    Ok(Task { period, lock, frames, deadlines })
}

/// 8 for bits left, 5 for fill bits.
fn read_fill(fields: &mut Fields) -> Result<(), Refusal> {
    let left = fields.left();
    if left >= 8 {
        return Err(Refusal::Records);
    }
    if left > 0 && fields.take(left) != 0 {
        return Err(Refusal::SpareOrFillBit);
    }
    Ok(())
}

/// Reads into a lent list and returns the version, the policy and the task count; surplus records keep their content.
pub fn read_into(bytes: &[u8], list: &mut [Record]) -> Result<(u32, u32, usize), Refusal> {
    let (version, set) = read_versions(&VERSIONS, bytes)?;
    let count = set.tasks.len();
    let room = list.get_mut(..count).ok_or(Refusal::Room)?;
    room.copy_from_slice(&set.list());
    Ok((version, set.policy, count))
}

/// The whole length of the set's sheet of this version.
pub fn length(version: u32, set: &Set) -> usize {
    bytes_for(HEADER + set.tasks.iter().map(|t| task_bits(version, t.frames.len())).sum::<usize>())
}

/// The sheet of this version of a set that it can hold and whose numbers fit their fields; whether the set is admitted is not asked.
pub fn write(version: u32, set: &Set) -> Vec<u8> {
    assert!(version != 1 || set.has_one_deadline_each(), "version 1 cannot hold {set:?}");
    let mut fields = vec![(VERSION_WIDTH, version), (POLICY_WIDTH, set.policy), (COUNT_WIDTH, set.tasks.len() as u32), (SPARE_WIDTH, 0)];
    fields.extend(set.tasks.iter().flat_map(|task| task_fields(version, task)));
    check_word::sealed(&packed(&fields))
}

/// The fields of a task, each with its width.
fn task_fields(version: u32, task: &Task) -> Vec<(usize, u32)> {
    let ticks = |n: u32| (TICKS_WIDTH, n);
    let count = (FRAME_COUNT_WIDTH, task.frames.len() as u32);
    if version == 1 {
        let fixed = [ticks(task.period), ticks(task.deadlines[0]), ticks(task.lock), count];
        return fixed.into_iter().chain(task.frames.iter().map(|&c| ticks(c))).collect();
    }
    let frames = task.frames.iter().zip(&task.deadlines).flat_map(|(&c, &d)| [ticks(c), ticks(d)]);
    [ticks(task.period), ticks(task.lock), count].into_iter().chain(frames).collect()
}

/// Fields of the given widths without gaps, then zero bits up to a whole byte.
pub fn packed(fields: &[(usize, u32)]) -> Vec<u8> {
    let mut bytes = vec![0; fields.iter().map(|f| f.0).sum::<usize>().div_ceil(8)];
    let mut at = 0;
    for &(width, value) in fields {
        assert!(bits::put(&mut bytes, at, width, value), "{value} does not fit {width} bits");
        at += width;
    }
    bytes
}

/// Writes a lent list as a sheet of the version told and returns the bytes written: 3 first, then the list's own, 17 and 12.
pub fn write_into(version: u32, policy: u32, list: &[Record], buffer: &mut [u8]) -> Result<usize, Refusal> {
    known(version)?;
    lay(&written(version, &admit_list(policy, list)?)?, buffer)
}

/// Converts a sheet of the other version to the version told and returns the bytes written: 3 first, then the sheet's own, 17 and 12.
pub fn convert_into(version: u32, bytes: &[u8], buffer: &mut [u8]) -> Result<usize, Refusal> {
    lay(&convert(version, bytes)?, buffer)
}

/// The sheet, which is of the other version, in the version told.
pub fn convert(version: u32, bytes: &[u8]) -> Result<Vec<u8>, Refusal> {
    known(version)?;
    let others: Vec<u32> = VERSIONS.into_iter().filter(|&other| other != version).collect();
    let (_, set) = read_versions(&others, bytes)?;
    written(version, &set)
}

/// 3 for a version that is told.
fn known(version: u32) -> Result<(), Refusal> {
    VERSIONS.contains(&version).then_some(()).ok_or(Refusal::Version)
}

/// The sheet of an admitted set; 17 if the version cannot hold it.
fn written(version: u32, set: &Set) -> Result<Vec<u8>, Refusal> {
    if version == 1 && !set.has_one_deadline_each() {
        return Err(Refusal::Deadlines);
    }
    Ok(write(version, set))
}

/// Puts a sheet into lent room; surplus room keeps its content, and too little of it nothing is written to.
fn lay(sheet: &[u8], buffer: &mut [u8]) -> Result<usize, Refusal> {
    let room = buffer.get_mut(..sheet.len()).ok_or(Refusal::Room)?;
    room.copy_from_slice(sheet);
    Ok(sheet.len())
}
