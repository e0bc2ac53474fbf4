//! The fields of a sheet as they stand, for words about a refused one. Nothing is decided here.
use crate::set::{Task, BY_FRAME, GREATEST_SHEET, LEAST_SHEET, MOST_FRAMES, ONE_DEADLINE};

pub const CHECK_BYTES: usize = 2;
const TICKS_BITS: usize = 20;
const COUNT_BITS: usize = 4;

/// Where the records of a version have their deadlines.
#[derive(Clone, Copy, Debug, PartialEq, Eq)]
pub enum Layout {
    /// Before the lock, one for all frames.
    InTheRecord,
    /// Behind each frame time.
    BehindEachFrame,
}

#[derive(Clone, Debug)]
pub struct SheetBits {
    pub stated_word: u16,
    /// What the bytes before the check word give.
    pub computed_word: u16,
    pub version: u32,
    pub policy: u32,
    pub task_count: u32,
    pub spare: String,
    pub records: Vec<RecordBits>,
    pub end: End,
}

#[derive(Clone, Debug)]
pub struct RecordBits {
    pub frame_count: u32,
    /// The deadline before the lock, where the version has one there.
    pub deadline: Option<u32>,
    /// With the frames that are there.
    pub task: Task,
}

/// Where reading stopped.
#[derive(Clone, Debug, PartialEq, Eq)]
pub enum End {
    /// After the last record, with these bits behind it.
    Left(String),
    /// The fixed bits of the next record are not all there.
    FixedCut(Cut),
    /// The frames of the last record are not all there.
    FramesCut(Cut),
    /// The last record's frame count cannot be one, so that where it ends is not known.
    FrameCount,
    /// The records of this version are not known.
    Version,
}

/// How many bits are needed, and how many are there.
#[derive(Clone, Copy, Debug, PartialEq, Eq)]
pub struct Cut {
    pub needed: usize,
    pub there: usize,
}

impl Layout {
    pub fn of(version: u32) -> Option<Self> {
        match version {
            ONE_DEADLINE => Some(Layout::InTheRecord),
            BY_FRAME => Some(Layout::BehindEachFrame),
            _ => None,
        }
    }

    /// The bits of a record before its frames.
    fn fixed_bits(self) -> usize {
        match self {
            Layout::InTheRecord => 3 * TICKS_BITS + COUNT_BITS,
            Layout::BehindEachFrame => 2 * TICKS_BITS + COUNT_BITS,
        }
    }

    /// The bits of a frame.
    fn frame_bits(self) -> usize {
        match self {
            Layout::InTheRecord => TICKS_BITS,
            Layout::BehindEachFrame => 2 * TICKS_BITS,
        }
    }
}

impl RecordBits {
    pub fn frame_count_is_allowed(&self) -> bool {
        (1..=MOST_FRAMES as u32).contains(&self.frame_count)
    }
}

/// Takes field after field from the bytes before the check word.
struct Bits<'a> {
    bytes: &'a [u8],
    at: usize,
}

impl Bits<'_> {
    fn left(&self) -> usize {
        8 * self.bytes.len() - self.at
    }

    fn next(&mut self) -> u32 {
        let bit = self.bytes[self.at / 8] >> (7 - self.at % 8) & 1;
        self.at += 1;
        u32::from(bit)
    }

    /// The next field; the caller has made sure that it is there.
    fn take(&mut self, width: usize) -> u32 {
        (0..width).fold(0, |value, _| value << 1 | self.next())
    }

    fn ticks(&mut self) -> u32 {
        self.take(TICKS_BITS)
    }

    /// The next bits as digits.
    fn digits(&mut self, width: usize) -> String {
        (0..width).map(|_| if self.next() == 1 { '1' } else { '0' }).collect()
    }
}

/// The fields of a string that is as long as a sheet can be.
pub fn read(sheet: &[u8]) -> Option<SheetBits> {
    if !(LEAST_SHEET..=GREATEST_SHEET).contains(&sheet.len()) {
        return None;
    }
    let (body, word) = sheet.split_last_chunk::<CHECK_BYTES>()?;
    let mut bits = Bits { bytes: body, at: 0 };
    let (version, policy, task_count, spare) = (bits.take(4), bits.take(2), bits.take(5), bits.digits(5));
    let (records, end) = match Layout::of(version) {
        Some(layout) => read_records(&mut bits, layout, task_count),
        None => (Vec::new(), End::Version),
    };
    let stated_word = u16::from_be_bytes(*word);
    Some(SheetBits { stated_word, computed_word: check_word(body), version, policy, task_count, spare, records, end })
}

/// The records as far as it is known where each starts.
fn read_records(bits: &mut Bits, layout: Layout, task_count: u32) -> (Vec<RecordBits>, End) {
    let mut records = Vec::new();
    for _ in 0..task_count {
        let fixed = Cut { needed: layout.fixed_bits(), there: bits.left() };
        if fixed.there < fixed.needed {
            return (records, End::FixedCut(fixed));
        }
        let (record, frames) = read_record(bits, layout);
        let allowed = record.frame_count_is_allowed();
        records.push(record);
        if !allowed {
            return (records, End::FrameCount);
        }
        if frames.there < frames.needed {
            return (records, End::FramesCut(frames));
        }
    }
    let left = bits.left();
    (records, End::Left(bits.digits(left)))
}

/// A record whose fixed bits are there with the frames that are, and the bits for its frames.
fn read_record(bits: &mut Bits, layout: Layout) -> (RecordBits, Cut) {
    let period = bits.ticks();
    let deadline = (layout == Layout::InTheRecord).then(|| bits.ticks());
    let (lock, frame_count) = (bits.ticks(), bits.take(COUNT_BITS));
    let cut = Cut { needed: frame_count as usize * layout.frame_bits(), there: bits.left() };
    let mut task = Task { period, lock, ..Task::default() };
    for _ in 0..cut.there.min(cut.needed) / layout.frame_bits() {
        task.frames.push(bits.ticks());
        task.deadlines.push(deadline.unwrap_or_else(|| bits.ticks()));
    }
    (RecordBits { frame_count, deadline, task }, cut)
}

/// The check word bit by bit: of a sheet to tell what it should have been, of a script that the command makes to seal it.
pub fn check_word(bytes: &[u8]) -> u16 {
    let shift = |word: u16| if word & 0x8000 != 0 { word << 1 ^ 0x1021 } else { word << 1 };
    bytes.iter().fold(0xFFFF, |word, &byte| (0..8).fold(word ^ u16::from(byte) << 8, |word, _| shift(word)))
}

#[cfg(test)]
mod tests {
    use super::*;

    #[test]
    fn the_check_word_is_the_published_one() {
        assert_eq!(check_word(b"123456789"), 0x29B1);
    }
}
