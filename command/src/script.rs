//! The bytes of a run script, field by field: a first frame for each task, the count of the entries, the entries, fill and check word.
//! Every field is a whole number of hexadecimal digits. Nothing is decided here.
use crate::set::MOST_TASKS;
use crate::sheet_bits::{check_word, CHECK_BYTES};

const FRAME_DIGITS: usize = 1;
const COUNT_DIGITS: usize = 6;
const TASK_DIGITS: usize = 1;
const TICKS_DIGITS: usize = 5;
const ENTRY_DIGITS: usize = TASK_DIGITS + 3 * TICKS_DIGITS;

/// The largest first frame or task that a digit can say.
pub const MOST_IN_A_DIGIT: u32 = 15;

/// The most entries that the count can say.
pub const MOST_ENTRIES: usize = (1 << (4 * COUNT_DIGITS)) - 1;

/// The longest script.
pub const MOST_BYTES: usize = length(MOST_TASKS, MOST_ENTRIES);

/// One release.
#[derive(Clone, Copy, Debug, PartialEq, Eq)]
pub struct Entry {
    pub task: u32,
    pub tick: u32,
    pub work: u32,
    pub lock: u32,
}

/// The bytes of a script for so many tasks with so many entries.
pub const fn length(tasks: usize, entries: usize) -> usize {
    (FRAME_DIGITS * tasks + COUNT_DIGITS + ENTRY_DIGITS * entries).div_ceil(2) + CHECK_BYTES
}

/// The script of fields that fit, whatever they say.
pub fn write(first_frames: &[u32], entries: &[Entry]) -> Vec<u8> {
    let mut digits = Digits { bytes: Vec::with_capacity(length(first_frames.len(), entries.len())), half: false };
    first_frames.iter().for_each(|&frame| digits.put(FRAME_DIGITS, frame));
    digits.put(COUNT_DIGITS, entries.len() as u32);
    for entry in entries {
        digits.put(TASK_DIGITS, entry.task);
        [entry.tick, entry.work, entry.lock].into_iter().for_each(|ticks| digits.put(TICKS_DIGITS, ticks));
    }
    let word = check_word(&digits.bytes);
    digits.bytes.extend(word.to_be_bytes());
    digits.bytes
}

/// Digits put one after the other; the lower half of the last byte may be free, and is then 0.
struct Digits {
    bytes: Vec<u8>,
    half: bool,
}

impl Digits {
    fn put(&mut self, width: usize, value: u32) {
        for digit in (0..width).rev() {
            let digit = (value >> (4 * digit) & 15) as u8;
            match self.bytes.last_mut() {
                Some(last) if self.half => *last |= digit,
                _ => self.bytes.push(digit << 4),
            }
            self.half = !self.half;
        }
    }
}

/// The fields of a script for so many tasks, as far as they are there.
#[derive(Clone, Copy, Debug)]
pub struct Script<'a> {
    body: &'a [u8],
    word: u16,
    tasks: usize,
}

impl<'a> Script<'a> {
    /// A string that is at least as long as the shortest script for so many tasks.
    pub fn of(bytes: &'a [u8], tasks: usize) -> Option<Self> {
        let (body, word) = bytes.split_last_chunk::<CHECK_BYTES>()?;
        (bytes.len() >= length(tasks, 0)).then_some(Script { body, word: u16::from_be_bytes(*word), tasks })
    }

    fn digit(&self, at: usize) -> u32 {
        let byte = self.body[at / 2];
        u32::from(if at.is_multiple_of(2) { byte >> 4 } else { byte & 15 })
    }

    fn field(&self, at: usize, width: usize) -> u32 {
        (at..at + width).fold(0, |value, at| value << 4 | self.digit(at))
    }

    pub fn tasks(&self) -> usize {
        self.tasks
    }

    pub fn first_frame(&self, task: usize) -> u32 {
        self.field(FRAME_DIGITS * task, FRAME_DIGITS)
    }

    pub fn first_frames(&self) -> Vec<u32> {
        (0..self.tasks).map(|task| self.first_frame(task)).collect()
    }

    /// The count of the entries, as it stands.
    pub fn count(&self) -> usize {
        self.field(FRAME_DIGITS * self.tasks, COUNT_DIGITS) as usize
    }

    fn entries_at(&self) -> usize {
        FRAME_DIGITS * self.tasks + COUNT_DIGITS
    }

    /// How many of the entries that the count says are there.
    pub fn entries_there(&self) -> usize {
        self.count().min((2 * self.body.len() - self.entries_at()) / ENTRY_DIGITS)
    }

    /// An entry that is there.
    pub fn entry(&self, number: usize) -> Entry {
        let at = self.entries_at() + ENTRY_DIGITS * number;
        let ticks = |place: usize| self.field(at + TASK_DIGITS + TICKS_DIGITS * place, TICKS_DIGITS);
        Entry { task: self.field(at, TASK_DIGITS), tick: ticks(0), work: ticks(1), lock: ticks(2) }
    }

    /// The entries that are there.
    pub fn entries(&self) -> impl Iterator<Item = Entry> + use<'a> {
        let script = *self;
        (0..script.entries_there()).map(move |number| script.entry(number))
    }

    /// The bits behind the last entry, where they are a fill and no more: none or four.
    pub fn fill(&self) -> Option<String> {
        let end = self.entries_at() + ENTRY_DIGITS * self.count();
        match (2 * self.body.len()).checked_sub(end)? {
            0 => Some(String::new()),
            1 => Some(format!("{:04b}", self.digit(end))),
            _ => None,
        }
    }

    pub fn stated_word(&self) -> u16 {
        self.word
    }

    /// What the bytes before the check word give.
    pub fn computed_word(&self) -> u16 {
        check_word(self.body)
    }
}

#[cfg(test)]
mod tests {
    use super::*;

    const ENTRIES: [Entry; 2] = [Entry { task: 1, tick: 0, work: 4, lock: 4 }, Entry { task: 0, tick: 1, work: 2, lock: 0 }];

    /// Two tasks make whole bytes, three leave a fill of four bits.
    #[test]
    fn written_and_read() {
        for first_frames in [[0, 0].as_slice(), &[7, 0, 15], &[3]] {
            let bytes = write(first_frames, &ENTRIES);
            let script = Script::of(&bytes, first_frames.len()).expect("a script");
            assert_eq!(bytes.len(), length(first_frames.len(), 2));
            assert_eq!((script.first_frames(), script.count(), script.entries_there()), (first_frames.to_vec(), 2, 2));
            assert_eq!(script.entries().collect::<Vec<_>>(), ENTRIES);
            assert_eq!(script.fill(), Some("0000"[..4 * (first_frames.len() % 2)].to_string()));
            assert_eq!(script.stated_word(), script.computed_word());
        }
    }

    #[test]
    fn the_widest_fields() {
        let widest = Entry { task: 15, tick: 1_048_575, work: 1_048_575, lock: 1_048_575 };
        let bytes = write(&[15; 16], &[widest]);
        let script = Script::of(&bytes, 16).expect("a script");
        assert_eq!((script.first_frame(15), script.entry(0)), (15, widest));
        assert_eq!(MOST_BYTES, 8 + 3 + 8 * 16_777_215 + 2);
    }

    #[test]
    fn what_is_there_of_a_cut_one() {
        let bytes = write(&[0, 0], &ENTRIES);
        for cut in 1..=16 {
            let script = Script::of(&bytes[..bytes.len() - cut], 2).expect("the start of a script");
            assert_eq!((script.count(), script.entries_there(), script.fill()), (2, if cut <= 8 { 1 } else { 0 }, None), "{cut}");
        }
        assert!(Script::of(&bytes[..5], 2).is_none() && Script::of(&bytes[..6], 2).is_some() && Script::of(&[], 1).is_none());
        let long = [bytes.as_slice(), &[0]].concat();
        assert_eq!(Script::of(&long, 2).expect("a script").fill(), None);
    }
}
