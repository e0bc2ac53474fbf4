//! Sums of frames, going round, and what they decide: the start frame, or why there is none.
use crate::library::NoStart;
use crate::set::Task;

/// So many frames from this one on, going round.
pub fn taken(frames: &[u32], from: usize, length: usize) -> Vec<u32> {
    frames.iter().cycle().skip(from).take(length).copied().collect()
}

pub fn sum_from(frames: &[u32], from: usize, length: usize) -> u64 {
    frames.iter().cycle().skip(from).take(length).map(|&frame| u64::from(frame)).sum()
}

/// The lowest-numbered frame whose sums are, at each length, at least those from any other frame.
pub fn start_frame(frames: &[u32]) -> Option<usize> {
    let all = 0..frames.len();
    let beats = |start: usize, other: usize| (1..=frames.len()).all(|n| sum_from(frames, start, n) >= sum_from(frames, other, n));
    all.clone().find(|&start| all.clone().all(|other| beats(start, other)))
}

/// Why no frame can be the start frame; nothing where one can, be it another than the first largest.
pub fn no_start(task: &Task) -> Option<NoStart> {
    if start_frame(&task.frames).is_some() {
        return None;
    }
    let (frame, _) = task.largest_frame()?;
    (1..=task.frames.len()).find_map(|length| {
        let sum = |from| sum_from(&task.frames, from, length);
        let other_frame = (0..task.frames.len()).find(|&other| sum(other) > sum(frame))?;
        Some(NoStart { frame, length, other_frame })
    })
}

#[cfg(test)]
mod tests {
    use super::*;

    fn reason(frames: &[u32]) -> Option<(usize, usize, usize)> {
        let task = Task { period: 10, lock: 0, frames: frames.to_vec(), deadlines: vec![10; frames.len()] };
        no_start(&task).map(|NoStart { frame, length, other_frame }| (frame, length, other_frame))
    }

    #[test]
    fn sums_go_round() {
        assert_eq!(taken(&[1, 2, 3], 2, 2), [3, 1]);
        assert_eq!(sum_from(&[1, 2, 3], 2, 2), 4);
        assert_eq!(sum_from(&[1_048_575; 8], 7, 8), 8 * 1_048_575);
    }

    /// Cases B, J and K, one frame, equal ones, and falling ones: there is a start frame, and so no reason.
    #[test]
    fn a_start_frame_leaves_no_reason() {
        let lists =
            [([2, 1].as_slice(), 0), (&[3, 2, 1, 5], 3), (&[3, 1, 3, 2], 2), (&[7], 0), (&[4; 8], 0), (&[2, 1, 1, 9, 8, 5, 3, 3], 3)];
        for (frames, start) in lists {
            assert_eq!((start_frame(frames), reason(frames)), (Some(start), None), "{frames:?}");
        }
    }

    /// The largest frame at every place, the first of several, and the other frame before and behind it.
    #[test]
    fn reasons() {
        let lists = [
            ([1, 2, 3].as_slice(), (2, 2, 1)),
            (&[3, 1, 2], (0, 2, 2)),
            (&[2, 3, 1], (1, 2, 0)),
            (&[9, 1, 8, 8], (0, 2, 2)),
            (&[5, 1, 5, 1, 3], (0, 2, 4)),
            (&[9, 2, 1, 5, 5, 5], (0, 2, 5)),
            (&[9, 8, 1, 8, 8, 8], (0, 3, 3)),
            (&[2, 1, 2, 3, 2, 2, 3, 2], (3, 7, 2)),
        ];
        for (frames, expected) in lists {
            assert_eq!((start_frame(frames), reason(frames)), (None, Some(expected)), "{frames:?}");
        }
    }

    /// 3, then 2 and 2 and so on, then 1 and 2: all but the last frame make less than all but the 1.
    #[test]
    fn reasons_of_every_length() {
        for length in 2..=7 {
            let frames = [[3].as_slice(), &vec![2; length - 2], &[1, 2]].concat();
            assert_eq!(reason(&frames), Some((0, length, length)), "{frames:?}");
        }
    }
}
