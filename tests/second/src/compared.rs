//! Calls that lend memory, by the proved code and by the second reading: the same number and the same content afterwards.
use crate::random::Random;
use crate::refusal::Refusal;
use crate::task::{Record, MOST_TASKS};
use crate::{analysis, answers, bits, proved, report, sheet};
use std::collections::{BTreeMap, BTreeSet};
use std::fmt::Debug;

/// Memory before and after what is lent, which no call may touch.
const GUARD: usize = 3;

/// What an entry can answer for each version, told or a sheet's, 0 for any other and for none: the refusals, 0 for none.
pub type Reachable<'a> = [(u32, &'a [u64])];

const READ: [u64; 12] = [0, 1, 2, 4, 5, 6, 7, 8, 9, 10, 11, 12];

/// Of an entry that reads a sheet, by the sheet's version.
pub const OF_SHEETS: [(u32, &[u64]); 3] = [(0, &[1, 2, 3]), (1, &READ), (2, &READ)];

/// Of the analysis of a list, which is told no version.
pub const OF_LISTS: [(u32, &[u64]); 1] = [(0, &[0, 4, 6, 7, 9, 10, 11, 12])];

/// Of the writer, by the version that it is told.
pub const OF_WRITTEN: [(u32, &[u64]); 3] = [(0, &[3]), (1, &[0, 4, 6, 7, 9, 10, 11, 12, 17]), (2, &[0, 4, 6, 7, 9, 10, 11, 12])];

/// Of the converter, by the version that it is told.
pub const OF_CONVERTED: [(u32, &[u64]); 3] =
    [(0, &[3]), (1, &[0, 1, 2, 3, 4, 5, 6, 7, 8, 9, 10, 11, 12, 17]), (2, &[0, 1, 2, 3, 4, 5, 6, 7, 8, 9, 10, 11, 12])];

/// The version in a sheet's header if it is one that there is, else 0.
pub fn version_of(bytes: &[u8]) -> u32 {
    known(bits::take(bytes, 0, sheet::VERSION_WIDTH).unwrap_or(0))
}

/// The version if it is one that there is, else 0.
pub fn known(version: u32) -> u32 {
    Some(version).filter(|v| sheet::VERSIONS.contains(v)).unwrap_or(0)
}

/// The comparisons made with one entry.
pub struct Compared {
    random: Random,
    /// By version and refusal, as in `Reachable`.
    counts: BTreeMap<(u32, u64), u64>,
    /// Refusals with their details.
    refusals: BTreeSet<(u64, u64)>,
}

impl Compared {
    pub fn new(seed: u64) -> Self {
        Compared { random: Random::new(seed), counts: BTreeMap::new(), refusals: BTreeSet::new() }
    }

    fn byte_room(&mut self, room: usize) -> Vec<u8> {
        self.random.bytes(GUARD + room + GUARD)
    }

    fn time_room(&mut self, room: usize) -> Vec<u32> {
        (0..GUARD + room + GUARD).map(|_| self.random.next() as u32).collect()
    }

    fn record_room(&mut self, room: usize) -> Vec<Record> {
        let mut any = || self.random.next() as u32;
        let mut record =
            || Record { period: any(), lock: any(), frame_count: any(), frames: [(); 8].map(|_| any()), deadlines: [(); 8].map(|_| any()) };
        (0..GUARD + room + GUARD).map(|_| record()).collect()
    }

    /// The same number and the same content, in the lent room and around it; a refused call changes nothing.
    fn compare<T: Clone + PartialEq + Debug>(
        &mut self,
        version: u32,
        before: &[T],
        second: impl FnOnce(&mut [T]) -> u64,
        proved: impl FnOnce(&mut [T]) -> u64,
    ) -> u64 {
        let (mut ours, mut theirs) = (before.to_vec(), before.to_vec());
        let lent = GUARD..before.len() - GUARD;
        let expected = second(&mut theirs[lent.clone()]);
        let answer = proved(&mut ours[lent]);
        assert_eq!(answer, expected);
        assert_eq!(ours, theirs);
        let refusal = answer % 256;
        assert!(refusal == 0 || ours == before, "refusal {refusal} changed something");
        *self.counts.entry((version, refusal)).or_insert(0) += 1;
        if refusal > 0 {
            self.refusals.insert((refusal, answer / 256));
        }
        answer
    }

    pub fn read_list(&mut self, bytes: &[u8], room: usize) -> u64 {
        let before = self.record_room(room);
        let second = |list: &mut [Record]| answers::number(sheet::read_into(bytes, list), answers::read);
        self.compare(version_of(bytes), &before, second, |list| proved::read_list(bytes, list))
    }

    pub fn write_list(&mut self, version: u32, policy: u32, list: &[Record], room: usize) -> u64 {
        let before = self.byte_room(room);
        let second = |buffer: &mut [u8]| answers::number(sheet::write_into(version, policy, list, buffer), |bytes| bytes as u64);
        self.compare(known(version), &before, second, |buffer| proved::write_list(version, policy, list, buffer))
    }

    pub fn convert(&mut self, version: u32, bytes: &[u8], room: usize) -> u64 {
        let before = self.byte_room(room);
        let second = |buffer: &mut [u8]| answers::number(sheet::convert_into(version, bytes, buffer), |bytes| bytes as u64);
        self.compare(known(version), &before, second, |buffer| proved::convert(version, bytes, buffer))
    }

    pub fn analyse_list(&mut self, policy: u32, list: &[Record], room: usize) -> u64 {
        let before = self.time_room(room);
        let detail = |verdict| answers::analysed(verdict, list.len());
        let second = |times: &mut [u32]| answers::number(analysis::analyse_list(policy, list, times), detail);
        self.compare(0, &before, second, |times| proved::analyse_list(policy, list, times))
    }

    pub fn analyse_sheet(&mut self, bytes: &[u8], room: usize) -> u64 {
        let before = self.time_room(room);
        let detail = |verdict| answers::analysed(verdict, sheet::read(bytes).map_or(0, |set| set.tasks.len()));
        let second = |times: &mut [u32]| answers::number(analysis::analyse_sheet(bytes, times), detail);
        self.compare(version_of(bytes), &before, second, |times| proved::analyse_sheet(bytes, times))
    }

    pub fn report(&mut self, bytes: &[u8], room: usize) -> u64 {
        let before = self.byte_room(room);
        let second = |text: &mut [u8]| answers::number(report::report_into(bytes, text), |length| length as u64);
        self.compare(version_of(bytes), &before, second, |text| proved::report(bytes, text))
    }

    pub fn total(&self) -> u64 {
        self.counts.values().sum()
    }

    /// Prints the counts; every refusal that the entry can give must have come for each version, and those with a task number for every task.
    pub fn finish(&self, what: &str, reachable: &Reachable) {
        println!("{what}: {} comparisons, by version and refusal: {:?}", self.total(), self.counts);
        let all = reachable.iter().flat_map(|&(version, refusals)| refusals.iter().map(move |&refusal| (version, refusal)));
        assert_eq!(self.counts.keys().copied().collect::<Vec<(u32, u64)>>(), all.collect::<Vec<(u32, u64)>>());
        let names_task = |number: u64| [7, 9, 10, 11].contains(&number);
        let given: BTreeSet<u64> = self.counts.keys().map(|key| key.1).collect();
        for refusal in given.into_iter().filter(|&n| names_task(n)) {
            let tasks: BTreeSet<u64> = self.refusals.iter().filter(|r| r.0 == refusal).map(|r| r.1 % 256).collect();
            assert_eq!(tasks.len(), MOST_TASKS, "refusal {refusal}");
        }
        assert!(self.refusals.iter().all(|&(n, detail)| names_task(n) || detail == 0));
    }
}

/// Whether the answer is the refusal for too little room.
pub fn no_room(answer: u64) -> bool {
    answer == answers::refused(Refusal::Room)
}

/// The kind of an analysis that was not refused.
pub fn verdict(answer: u64) -> &'static str {
    match answer >> 8 & 0xFFFF {
        0 => "holds",
        outcome if (outcome - 1) % 17 == 16 => "missed, no blocker",
        _ => "missed, blocker",
    }
}
