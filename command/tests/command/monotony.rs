//! Frames without a start frame: what is said of refusal 11.
use crate::json::{self, Value};
use crate::running::{run, run_with, shipped_one, Folder, ROOT};
use second::generate::Draft;
use second::random::Random;
use second::task::{start_frame, Set, Task};

const CASE_I: &str =
    "frames 1 2 3 have no start frame: the largest is frame 2 (3 ticks); two frames from it on, going round, make 3 + 1 = 4, two from frame 1 \
     on make 2 + 3 = 5";
const ADVICE: &str =
    "Change the order of the frames, or raise frame 0 from 1 to 2 and ask again. A list that never rises in a round from one of its largest frames \
     on has a start frame. Frames count from 0; docs/SHEET.md shows how a list is mended.";

/// The sheet of a set with these frames, a task for each list, which is written whatever they are.
fn sheet(lists: &[&[u32]]) -> Vec<u8> {
    let task = |frames: &&[u32]| Task::with_one_deadline(1_048_575, 1_048_575, 0, frames);
    Draft::of(1, &Set { policy: 0, tasks: lists.iter().map(task).collect() }).bytes()
}

fn object(verb: &str, sheet: &[u8]) -> Value {
    json::object(run_with(&[verb, "--json"], sheet).done(2).trim_end())
}

/// What `explain` says of a sheet of one task with these frames.
fn fault(frames: &[u32]) -> String {
    object("explain", &sheet(&[frames])).get("fault").text().to_string()
}

/// Frame, length and other frame.
fn reason_in(object: &Value) -> [u64; 3] {
    let reason = object.get("reason");
    assert_eq!(reason.keys(), ["frame", "length", "other_frame"]);
    ["frame", "length", "other_frame"].map(|key| reason.get(key).number())
}

/// The same by the second reading; none where some frame qualifies as the start.
fn reason_of(frames: &[u32]) -> Option<[u64; 3]> {
    start_frame(frames).err().map(|why| [why.frame, why.length, why.other].map(|n| n as u64))
}

#[test]
fn case_i_is_explained_word_for_word() {
    let ran = run_with(&["explain"], &std::fs::read(shipped_one("i")).unwrap());
    assert_eq!(ran.done(2), format!("-: refused 11 (task 0): not accumulatively monotonic\ntask 0: {CASE_I}\n{ADVICE}\n"));
}

#[test]
fn case_i_is_marked_word_for_word() {
    let ran = run(&["show", &shipped_one("i")]);
    let marked: Vec<&str> = ran.done(2).lines().filter(|line| line.contains("<==")).collect();
    assert_eq!(marked, [format!("0         10        10     0  1 2 3   # <== {CASE_I}")]);
}

#[test]
fn case_i_is_not_composed_word_for_word() {
    let table = b"policy listed\ntask period deadline lock frames\n0 10 10 0 1 2 3\n";
    assert_eq!(run_with(&["compose"], table).failed(2), format!("-:3: refused 11 (task 0): {CASE_I}. {ADVICE}\n"));
}

#[test]
fn case_i_in_json_word_for_word() {
    let bytes = std::fs::read(shipped_one("i")).unwrap();
    let json = |verb: &str| run_with(&[verb, "--json"], &bytes).done(2).to_string();
    let checked =
        "{\"file\":\"-\",\"verdict\":\"refused\",\"refusal\":11,\"task\":0,\"reason\":{\"frame\":2,\"length\":2,\"other_frame\":1},\
                   \"words\":\"not accumulatively monotonic\"";
    assert_eq!(json("check"), format!("{checked}}}\n"));
    let explained = format!("{checked},\"fault\":\"{CASE_I}\",\"advice\":\"{ADVICE}\"");
    assert_eq!(json("explain"), format!("{explained}}}\n"));
    let fields = "\"admitted\":false,\"length\":20,\"check_word\":\"B05E\",\"computed_check_word\":\"B05E\",\"version\":1,\"policy\":0,\
                  \"policy_name\":\"listed\",\"tasks\":1,\"spare\":\"00000\"";
    let list =
        "\"list\":[{\"task\":0,\"period\":10,\"deadline\":10,\"lock\":0,\"frames\":[1,2,3],\"deadlines\":[10,10,10],\"frame_count\":3}]";
    assert_eq!(json("show"), format!("{explained},{fields},{list}}}\n"));
}

/// The largest frame is not frame 0, and a sum goes on at frame 0: the largest frame's, then the other one's.
#[test]
fn sums_that_go_round() {
    assert_eq!(
        fault(&[2, 1, 4, 4, 5]),
        "frames 2 1 4 4 5 have no start frame: the largest is frame 4 (5 ticks); two frames from it on, going round, make 5 + 2 = 7, two from \
         frame 2 on make 4 + 4 = 8"
    );
    assert_eq!(
        fault(&[3, 1, 1, 4, 2, 4]),
        "frames 3 1 1 4 2 4 have no start frame: the first of the largest is frame 3 (4 ticks); two frames from it on, going round, make \
         4 + 2 = 6, two from frame 5 on make 4 + 3 = 7"
    );
}

/// The first of several largest frames is compared, and the lowest-numbered of several others named.
#[test]
fn several_frames_that_are_largest() {
    assert_eq!(
        fault(&[5, 1, 5, 1, 3]),
        "frames 5 1 5 1 3 have no start frame: the first of the largest is frame 0 (5 ticks); two frames from it on, going round, make 5 + 1 = 6, \
         two from frame 4 on make 3 + 5 = 8"
    );
    assert_eq!(
        fault(&[1_048_575, 1, 1_048_574, 1_048_574, 1, 1_048_574, 1_048_574, 1]),
        "frames 1048575 1 1048574 1048574 1 1048574 1048574 1 have no start frame: the largest is frame 0 (1048575 ticks); two frames from it on, \
         going round, make 1048575 + 1 = 1048576, two from frame 2 on make 1048574 + 1048574 = 2097148"
    );
}

#[test]
fn lengths_from_two_to_seven() {
    for (length, word) in (2..).zip(["two", "three", "four", "five", "six", "seven"]) {
        let frames = [[3].as_slice(), &vec![2; length - 2], &[1, 2]].concat();
        let sheet = sheet(&[&frames]);
        assert_eq!(reason_in(&object("check", &sheet)), [0, length as u64, length as u64]);
        assert!(fault(&frames).contains(&format!("; {word} frames from it on, going round, make 3 + ")), "{}", fault(&frames));
        assert!(fault(&frames).contains(&format!(", {word} from frame {length} on make 2 + 3")), "{}", fault(&frames));
    }
}

/// Of several tasks the first without a start frame, and its own reason.
#[test]
fn the_reason_is_that_of_the_named_task() {
    let object = object("check", &sheet(&[&[4, 3], &[3, 1, 3, 2], &[2, 3, 1], &[1, 2, 3]]));
    assert_eq!((object.get("task").number(), reason_in(&object)), (2, [1, 2, 0]));
    let table = "policy 1\ntask period deadline lock frames\n0 9 9 0 4 3\n1 9 9 0 2 3 1\n";
    let words = "-:4: refused 11 (task 1): frames 2 3 1 have no start frame: the largest is frame 1 (3 ticks); two frames from it on, going round, \
                 make 3 + 1 = 4, two from frame 0 on make 2 + 3 = 5. Change ";
    assert!(run_with(&["compose"], table.as_bytes()).failed(2).starts_with(words));
}

/// Case K: the first largest frame does not qualify and another does, so that nothing is refused.
#[test]
fn case_k_composes() {
    let table = b"policy listed\ntask period deadline lock frames\n0 4 4 0 3 1 3 2\n1 20 20 0 2\n";
    let composed = run_with(&["compose"], table);
    assert_eq!((composed.status, &composed.out, composed.err.as_str()), (0, &std::fs::read(shipped_one("k")).unwrap(), ""));
    assert_eq!(run_with(&["check", "-q"], &composed.out).done(0), "");
}

/// A text without its line breaks and indents.
fn flat(text: &str) -> String {
    text.split_whitespace().collect::<Vec<_>>().join(" ")
}

/// The list that docs/SHEET.md mends is refused with the words that stand there, twice, and then made.
#[test]
fn the_mended_list_of_the_sheet_paper() {
    let paper = flat(&std::fs::read_to_string(format!("{ROOT}/docs/SHEET.md")).unwrap());
    let composed =
        |frames: &str| run_with(&["compose"], format!("policy 0\ntask period deadline lock frames\n0 20 20 0 {frames}\n").as_bytes());
    for frames in ["2 2 3 5", "3 2 3 5"] {
        let ran = composed(frames);
        let (words, _) = ran.failed(2).split_once("Change the order ").expect("advice");
        assert!(paper.contains(&words.replacen("-:3:", "t.table:3:", 1)), "{words}");
    }
    for frames in ["3 3 3 5", "5 3 2 2", "3 3 3"] {
        assert!(paper.contains(frames));
        assert_eq!(composed(frames).status, 0, "{frames}");
    }
}

/// What the README has of case I is what is said of it.
#[test]
fn the_words_of_the_readme() {
    let readme = std::fs::read_to_string(format!("{ROOT}/README.md")).unwrap();
    assert!(readme.contains(&format!("    task 0: {CASE_I}\n    {ADVICE}\n")));
}

/// Every list of up to four frames with times up to 4, and as many random ones of up to eight: the reason of each, or none.
#[test]
fn reasons_of_a_thousand_lists() {
    let mut random = Random::new(501);
    let short =
        (1..=4).flat_map(|count| (0..4u32.pow(count)).map(move |n| (0..count).map(|i| n / 4u32.pow(i) % 4 + 1).collect::<Vec<u32>>()));
    let mut lists: Vec<Vec<u32>> = short.collect();
    while lists.len() < 1_000 {
        let (count, most) = (3 + random.below(6), 2 + random.below(9));
        lists.push((0..count).map(|_| 1 + random.below(most) as u32).collect());
    }
    let folder = Folder::new("monotony");
    let file = |(i, frames): (usize, &Vec<u32>)| folder.file(format!("{i}.sheet"), &sheet(&[frames])).display().to_string();
    let words: Vec<String> = ["check".to_string(), "--json".to_string()].into_iter().chain(lists.iter().enumerate().map(file)).collect();
    let objects = json::lines(run(&words).done(2));
    assert_eq!(objects.len(), lists.len());
    let mut met = [0; 8];
    for (frames, object) in lists.iter().zip(&objects) {
        assert_eq!(object.find("reason").map(|_| reason_in(object)), reason_of(frames), "{frames:?}");
        assert_eq!(object.find("refusal").map(Value::number), reason_of(frames).map(|_| 11), "{frames:?}");
        met[reason_of(frames).map_or(0, |[_, length, _]| length as usize)] += 1;
    }
    assert!(met[0] > 50 && met[2..].iter().all(|&lists| lists > 0) && met[1] == 0, "{met:?}");
}

/// A sum as the words have it: its terms, which add up to it.
fn terms(words: &str) -> Vec<u32> {
    let (terms, sum) = words.split_once(" = ").expect("a sum");
    let terms: Vec<u32> = terms.split(" + ").map(|term| term.parse().expect("a number")).collect();
    assert_eq!(terms.iter().sum::<u32>().to_string(), sum, "{words}");
    terms
}

/// The sums in the words are those of the frames that the reason names, and the other one is greater.
#[test]
fn the_words_say_the_reason() {
    let mut random = Random::new(502);
    let mut said = 0;
    while said < 200 {
        let frames: Vec<u32> = (0..3 + random.below(6)).map(|_| 1 + random.below(12) as u32).collect();
        let Some([frame, length, other_frame]) = reason_of(&frames) else { continue };
        let words = fault(&frames);
        let (head, sums) = words.split_once(" frames from it on, going round, make ").expect("the first sum");
        let (first, second) = sums.split_once(", ").expect("two sums");
        let (named, second) = second.split_once(" on make ").expect("the second sum");
        let taken = |from: u64| frames.iter().cycle().skip(from as usize).take(length as usize).copied().collect::<Vec<u32>>();
        assert!(head.contains(&format!(" frame {frame} ({} ticks); ", frames[frame as usize])), "{words}");
        assert!(named.ends_with(&format!(" from frame {other_frame}")), "{words}");
        assert_eq!((terms(first), terms(second)), (taken(frame), taken(other_frame)), "{words}");
        assert!(terms(first).iter().sum::<u32>() < terms(second).iter().sum::<u32>(), "{words}");
        said += 1;
    }
}

/// Whether no time is above the one before, in a round from one of the largest frames on.
fn never_rises(frames: &[u32]) -> bool {
    let round = |from: usize| frames.iter().cycle().skip(from).take(frames.len()).copied().collect::<Vec<u32>>();
    (0..frames.len()).any(|from| round(from).windows(2).all(|pair| pair[0] >= pair[1]))
}

/// The frame that the advice raises, and to what.
fn advised(frames: &[u32]) -> (usize, u32) {
    let object = object("explain", &sheet(&[frames]));
    let (_, raised) = object.get("advice").text().split_once(", or raise frame ").expect("a frame");
    let (numbers, _) = raised.split_once(" and ask again").expect("a time");
    let numbers: Vec<u32> = numbers.replace(" from ", " ").replace(" to ", " ").split(' ').map(|n| n.parse().expect("a number")).collect();
    assert_eq!(frames[numbers[0] as usize], numbers[1]);
    (numbers[0] as usize, numbers[2])
}

/// A frame that would be raised above its own deadline needs a longer one, and no other.
#[test]
fn the_advice_minds_the_deadline() {
    let advice = |deadlines: [u32; 3]| {
        let task = Task { period: 10, lock: 0, frames: vec![1, 2, 3], deadlines: deadlines.to_vec() };
        object("explain", &Draft::of(2, &Set { policy: 0, tasks: vec![task] }).bytes()).get("advice").text().to_string()
    };
    assert_eq!(advice([2, 9, 3]), ADVICE);
    let longer = "or raise frame 0 from 1 to 2, its deadline from 1 to 2, and ask again. ";
    assert_eq!(advice([1, 9, 3]), ADVICE.replace("or raise frame 0 from 1 to 2 and ask again. ", longer));
    let mended = run_with(&["compose"], b"policy 0\ntask period deadline lock frames\n0 10 - 0 2/2 2/9 3/3\n");
    assert_eq!(mended.status, 0, "{}", mended.err);
}

/// What the advice says: a list that never rises is made, and one that is refused is made after some frames were raised, none above the
/// largest.
#[test]
fn the_advice_mends() {
    let mut random = Random::new(503);
    let (mut falling, mut mended) = (0, 0);
    while falling < 100 || mended < 100 {
        let mut frames: Vec<u32> = (0..1 + random.below(8)).map(|_| 1 + random.below(9) as u32).collect();
        let largest = *frames.iter().max().expect("a frame");
        falling += u32::from(never_rises(&frames));
        assert!(!never_rises(&frames) || reason_of(&frames).is_none(), "{frames:?}");
        while reason_of(&frames).is_some() {
            let (frame, time) = advised(&frames);
            assert!(frames[frame] < time && time <= largest, "{frames:?}");
            frames[frame] = time;
            mended += 1;
        }
        assert_eq!(run_with(&["check", "-q"], &sheet(&[&frames])).status, 0, "{frames:?}");
    }
}
