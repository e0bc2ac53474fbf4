//! `draw`: a picture for every run, whole, small and free of scripts and links.
use crate::running::{run, shell, shipped_one, shipped_script, Folder, Ran, ROOT};
use crate::runs::{busy_set, kept, made, two_misses};
use second::generate::sheet_of;
use second::random::Random;
use second::scripts;
use std::path::Path;

/// The tags are closed in their order, and there is nothing but shapes and texts.
fn is_plain_svg(picture: &str) {
    assert!(picture.starts_with("<svg xmlns=\"http://www.w3.org/2000/svg\" ") && picture.ends_with("</svg>\n"));
    let mut open: Vec<&str> = Vec::new();
    for tag in picture.split('<').skip(1).map(|rest| rest.split('>').next().expect("a tag")) {
        let name = tag.trim_start_matches('/').split([' ', '/']).next().unwrap();
        assert!(["svg", "title", "g", "rect", "path", "text"].contains(&name), "{tag}");
        match (tag.starts_with('/'), tag.ends_with('/')) {
            (true, _) => assert_eq!(open.pop(), Some(name)),
            (false, true) => {}
            (false, false) => open.push(name),
        }
    }
    assert!(open.is_empty());
    assert!(!picture.contains("href") && !picture.contains("url(") && !picture.contains("NaN") && !picture.contains("inf"));
}

/// The colours of a stretch's first tick and of its others, of running and of waiting, and of misses and strokes.
const STARTS: &str = "#5c1a00";
const LOCKED: &str = "#c4520f";
const RUNS: &str = "#7fb2e5";
const WAITS: &str = "#e8e8e8";
const MISS: &str = "#d4002a";
const STROKE: &str = "#666";

/// The shapes of the groups that have a colour, but for those of the legend, which come last.
fn shapes<'a>(picture: &'a str, colour: &str) -> Vec<&'a str> {
    let (panels, _) = picture.split_once(">runs</text>").expect("a legend");
    let groups = panels.split("<g ").filter(|group| group.split('>').next().is_some_and(|head| head.contains(&format!("=\"{colour}\""))));
    let mut shapes: Vec<&str> = groups.flat_map(|group| group.split("</g>").next().unwrap().lines().skip(1)).collect();
    shapes.retain(|shape| shape.starts_with("<rect") || shape.starts_with("<path"));
    if colour == RUNS {
        // the legend's first sign stands before its words
        shapes.pop();
    }
    shapes
}

/// The words of a picture.
fn texts(picture: &str) -> Vec<&str> {
    picture.split("<text ").skip(1).map(|text| text.split('>').nth(1).unwrap().split('<').next().unwrap()).collect()
}

fn drawn(ran: &Ran, status: i32) -> &str {
    assert_eq!(ran.status, status, "{}", ran.err);
    is_plain_svg(ran.text());
    ran.text()
}

#[test]
fn the_worst_run_of_case_g() {
    let ran = shell(Path::new(ROOT), "\"$0\" draw sheets/g.sheet");
    let picture = drawn(&ran, 1);
    for words in [
        "sheets/g.sheet: missed, 2 tasks: task 0 misses, blocker 1",
        "Policy 0, listed: task 0 has the highest priority",
        "The worst run of task 0, frame 0: task 0 misses at 5, the end of tick 4.",
        "released at 1, frame 0, due at 1 + 4 = 5",
        ">task 0 misses at 5<",
        "T 20  D 20  Q 4",
    ] {
        assert!(picture.contains(words), "{words}");
    }
    assert_eq!(
        ran.err,
        "standard output: the worst run of task 0, frame 0, all of it, ticks 0 to 4: task 0 misses at 5, the end of tick 4\n"
    );
    // the boxes: one tick of task 0, four locked ones of task 1
    assert!(picture.contains("<rect x=\"350\" y=\"154\" width=\"40\" height=\"18\"/>"), "{picture}");
    assert!(picture.contains("<rect x=\"190\" y=\"198\" width=\"160\" height=\"18\"/>"), "{picture}");
    assert_eq!(shapes(picture, STARTS), ["<rect x=\"190\" y=\"198\" width=\"40\" height=\"18\"/>"]);
    let script = run(&["draw", &shipped_one("g"), &shipped_script("g-worst")]);
    assert!(drawn(&script, 1).contains("g-worst.script: task 0 misses at 5"));
}

#[test]
fn a_run_without_a_miss() {
    let ran = shell(Path::new(ROOT), "\"$0\" draw sheets/f.sheet scripts/f-exactly-4.script");
    let picture = drawn(&ran, 0);
    assert!(picture.contains("sheets/f.sheet: holds, 2 tasks") && picture.contains("no job misses; all 2 jobs are done at 7"));
    assert!(!picture.contains("misses at"));
}

#[test]
fn nothing_is_drawn_of_a_set_that_holds_or_is_refused() {
    let folder = Folder::new("draw-none");
    for (words, status, said) in [
        (format!("'{}'", shipped_one("f")), 0, "holds, 2 tasks\nNo job misses, in any run"),
        (format!("'{}'", shipped_one("i")), 2, "refused 11 (task 0)"),
        (format!("'{}' '{}'", shipped_one("f"), shipped_script("g-worst")), 2, "refused 14 (item 2)"),
        (format!("'{}' /dev/null", shipped_one("f")), 2, "refused 13: "),
    ] {
        assert!(shell(&folder.0, &format!("\"$0\" draw {words} -o p")).done(status).contains(said), "{words}");
        assert!(shell(&folder.0, &format!("\"$0\" draw {words}")).failed(status).contains(said), "{words}");
        assert!(folder.names().is_empty());
    }
}

#[test]
fn a_part_of_a_run() {
    let two = ["scripts/two-locks.sheet", "scripts/two-locks.script"].join(" ");
    let draw = |options: &str| shell(Path::new(ROOT), &format!("\"$0\" draw {two} {options}"));
    assert!(drawn(&draw("--from 2 --to 6"), 0).contains("Shown: ticks 2 to 5 of 0 to 11."));
    assert!(drawn(&draw("--from 11"), 0).contains("Shown: ticks 11 to 11 of 0 to 11."));
    assert!(drawn(&draw("--to 500"), 0).contains("Shown: all of it, ticks 0 to 11."));
    for (options, words) in [
        ("--from 12", "--from 12 is not before the end of the run, 12: its ticks are 0 to 11"),
        ("--from 5 --to 5", "--from 5 is not before --to 5"),
        ("--to 0", "--from 0 is not before --to 0"),
        ("--from x", "--from needs a number of ticks, which x is not"),
    ] {
        assert!(draw(options).failed(3).contains(words), "{options}");
    }
    // what the arguments contradict hangs on no file
    for sheet in ["sheets/f.sheet", "sheets/i.sheet", "no-such-sheet"] {
        let ran = shell(Path::new(ROOT), &format!("\"$0\" draw {sheet} --from 3 --to 2"));
        assert!(ran.failed(3).contains("--from 3 is not before --to 2"), "{sheet}");
    }
    // the miss is marked where it is shown
    let g = |options: &str| shell(Path::new(ROOT), &format!("\"$0\" draw sheets/g.sheet {options}"));
    assert!(drawn(&g("--from 4"), 1).contains(">task 0 misses at 5<") && !drawn(&g("--to 4"), 1).contains(">task 0 misses at 5<"));
}

/// Sixteen tasks and two hundred thousand ticks stay readable: shares, the end once more, a small file.
#[test]
fn a_long_run_of_many_tasks() {
    let folder = Folder::new("draw-long");
    let rows: String = (0..15).map(|task| format!("{task} {0} {0} 0 2\n", 97 + 10 * task)).collect();
    folder.file("t", format!("policy 0\ntask period deadline lock frames\n{rows}15 200000 200000 0 185000\n").as_bytes());
    assert_eq!(shell(&folder.0, "\"$0\" compose t -o s").done(0), "");
    let ran = shell(&folder.0, "\"$0\" draw s");
    let picture = drawn(&ran, 1);
    assert!(picture.contains("The last 60 ticks of it, enlarged") && picture.contains("its share of the pixel's ticks"));
    println!("200,000 ticks of sixteen tasks: {} bytes", picture.len());
    assert!(picture.len() < 1_000_000);
}

/// The largest: periods of 1, so that every tick has every release.
#[test]
fn the_fullest_picture_is_small() {
    let folder = Folder::new("draw-full");
    let rows: String = (0..16).map(|task| format!("{task} 1 1 0 1\n")).collect();
    folder.file("t", format!("policy 0\ntask period deadline lock frames\n{rows}").as_bytes());
    assert_eq!(shell(&folder.0, "\"$0\" compose t -o s").done(0), "");
    let entries: String =
        (0..3_000).flat_map(|tick| (0..16).map(move |task| format!("{task} {tick} {} 0\n", u32::from(task == 0)))).collect();
    let frames = " 0".repeat(16);
    folder.file("r.text", format!("first-frames{frames}\ntask tick work lock\n{entries}").as_bytes());
    assert_eq!(shell(&folder.0, "\"$0\" script compose s r.text -o r").done(0), "");
    for options in ["", "--to 1120", "--from 1500 --to 1520"] {
        let ran = shell(&folder.0, &format!("\"$0\" draw s r {options}"));
        let picture = drawn(&ran, 0);
        println!("sixteen releases a tick {options}: {} bytes", picture.len());
        assert!(picture.len() < 2_000_000);
    }
}

#[test]
fn random_runs_give_whole_pictures() {
    let mut random = Random::new(507);
    let folder = Folder::new("draw-random");
    for _ in 0..150 {
        let set = busy_set(&mut random);
        let script = kept(&mut random, &set, 25);
        let (sheet_bytes, bytes) = (sheet_of(&mut random, &set), scripts::write(&script));
        let play = scripts::play_sheet(&sheet_bytes, &bytes).expect("a script that keeps the rules");
        folder.file("s", &sheet_bytes);
        folder.file("r", &bytes);
        let ran = shell(&folder.0, "\"$0\" draw s r");
        match play.tick {
            0 => assert!(drawn(&ran, 0).contains(">no tick is played<")),
            _ => assert_eq!(drawn(&ran, play.missed.is_some().into()).contains("misses at"), play.missed.is_some()),
        }
    }
}

/// A name with marks of XML, and a file that is there already.
#[test]
fn odd_names_and_files() {
    let folder = Folder::new("draw-names");
    folder.file("<g>&\"", &std::fs::read(shipped_one("g")).unwrap());
    let ran = shell(&folder.0, "\"$0\" draw '<g>&\"' -o p.svg");
    assert!(ran.done(1).starts_with("p.svg: the worst run of task 0, frame 0, all of it, ticks 0 to 4: "));
    let picture = std::fs::read_to_string(folder.0.join("p.svg")).unwrap();
    is_plain_svg(&picture);
    assert!(picture.contains("&lt;g&gt;&amp;"));
    assert!(shell(&folder.0, "\"$0\" draw '<g>&\"' -o '<g>&\"'").failed(3).contains("this is the sheet itself"));
    folder.file("r", &std::fs::read(shipped_script("g-worst")).unwrap());
    assert!(shell(&folder.0, "\"$0\" draw '<g>&\"' r -o r").failed(3).contains("this is the script itself"));
    assert!(shell(&folder.0, "\"$0\" draw no-such-sheet").failed(3).contains("no-such-sheet: No such file"));
    assert!(shell(&folder.0, "\"$0\" draw '<g>&\"' no-such-script").failed(3).contains("no-such-script: No such file"));
}

/// A stretch that starts anew where another ends is seen, in `scripts/f-exactly-4.script` after a pause and in another run at once.
#[test]
fn stretches_that_start_anew() {
    let ran = shell(Path::new(ROOT), "\"$0\" draw sheets/f.sheet scripts/f-exactly-4.script");
    let box_at = |x: u32, ticks: u32| format!("<rect x=\"{x}\" y=\"202\" width=\"{}\" height=\"18\"/>", 40 * ticks);
    assert_eq!(shapes(drawn(&ran, 0), STARTS), [box_at(190, 1), box_at(390, 1)]);
    assert_eq!(shapes(ran.text(), LOCKED), [box_at(190, 3), box_at(390, 2)]);
    let folder = made("draw-anew", "0 20 20 3 7\n", "0", "0 0 7 3\n");
    let ran = shell(&folder.0, "\"$0\" draw s r");
    assert_eq!((shapes(drawn(&ran, 0), STARTS).len(), shapes(ran.text(), LOCKED).len()), (3, 3));
    // a part that begins inside a stretch does not start one
    let ran = shell(&folder.0, "\"$0\" draw s r --from 1");
    assert_eq!((shapes(drawn(&ran, 0), STARTS).len(), shapes(ran.text(), LOCKED).len()), (2, 3));
    assert!(ran.text().contains(">starts a locked stretch<") && ran.text().contains(">goes on in it<"));
}

#[test]
fn a_second_miss_has_its_own_cross() {
    let folder = two_misses("draw-two-misses");
    let ran = shell(&folder.0, "\"$0\" draw s r");
    let picture = drawn(&ran, 1);
    let words = "Task 2 misses at the same moment, by the script and the ticks.";
    assert!(picture.contains(words) && picture.contains(">task 1 misses at 8, task 2 too<"));
    assert!(picture.contains(">misses at the same moment; the play names the lowest task number<"));
    assert!(shell(&folder.0, "\"$0\" draw s r -o p").done(1).ends_with(&format!("the end of tick 7. {words}\n")));
    // a dashed line, the cross of task 1, and that of task 2 a lane below
    let marks = shapes(picture, MISS);
    let crosses: Vec<&str> = marks[1..].iter().map(|path| path.split(['M', 'l']).nth(1).unwrap()).collect();
    assert_eq!((marks.len(), crosses.as_slice()), (3, ["516 219", "516 263"].as_slice()), "{marks:?}");
    // where the miss is not shown there is no sign of it
    let part = shell(&folder.0, "\"$0\" draw s r --to 7");
    assert!(shapes(drawn(&part, 1), MISS).is_empty() && !part.text().contains(">misses at the same moment"));
}

/// Eight ticks are a pixel: of those that each pixel has two are locked, one of which starts its stretch.
#[test]
fn a_share_has_its_height() {
    let entries: String = (0..1120).map(|job| format!("0 {} 2 2\n", 8 * job)).collect();
    let folder = made("draw-shares", "0 8 8 2 2\n1 9000 9000 0 10\n", "0 0", &format!("{entries}1 8959 1 0\n"));
    let ran = shell(&folder.0, "\"$0\" draw s r --to 8960");
    let picture = drawn(&ran, 0);
    let share = |height: f64| format!("<path d=\"M190 154V{}H1310V154Z\"/>", 154.0 - height);
    assert_eq!(shapes(picture, LOCKED)[0], share(18.0 / 4.0));
    assert_eq!(shapes(picture, STARTS)[0], share(2.3));
    assert!(picture.contains(">under a lane: at least one such tick<") && picture.contains("a share of less than a line cannot be seen"));
}

/// One locked tick, and one that runs, of a hundred thousand: the share cannot be seen, the line under the lane can.
#[test]
fn a_single_tick_is_not_overlooked() {
    let tasks = "0 1048575 1048575 0 100000\n1 1048575 300000 2 100000\n2 1048575 300000 0 1\n";
    let folder = made("draw-single", tasks, "0 0 0", "0 0 50000 0\n1 0 1 2\n2 60000 1 0\n0 1048575 1 0\n");
    let ran = shell(&folder.0, "\"$0\" draw s r --to 100000");
    let picture = drawn(&ran, 0);
    // pixel 560 of the plot has 89 ticks; the line is half a pixel wider on both sides
    let [share, under] = ["<path d=\"M750 198V197.8H751V198Z\"/>", "<path d=\"M749.5 200.5h2v3.5h-2z\"/>"];
    assert_eq!(shapes(picture, LOCKED), [share, under]);
    let line = |fill: &str, y: &str| shapes(picture, fill).iter().filter(|path| path.contains(&format!(" {y}h"))).count();
    assert_eq!((line(RUNS, "244.5"), line(WAITS, "200.5")), (1, 1));
    assert!(shapes(picture, RUNS).iter().any(|path| path.starts_with("<path d=\"M862 244.5h1v3.5h-1z\"")));
}

/// Strokes where arrows have no room, in pictures whose ticks are wider than a pixel and in those whose are not.
#[test]
fn every_mark_stands_in_the_legend() {
    let entries: String = (0..700).map(|job| format!("0 {} 2 0\n", 3 * job)).collect();
    let folder = made("draw-legend", "0 3 3 0 2\n1 30 30 0 9\n", "0 0", &entries);
    for (options, strokes, parted) in [("", true, true), ("--to 600", true, false), ("--to 300", false, false), ("--to 60", false, true)] {
        let ran = shell(&folder.0, &format!("\"$0\" draw s r {options}"));
        let picture = drawn(&ran, 0);
        let has = |words: &str| texts(picture).iter().any(|text| text.contains(words));
        assert_eq!(
            (shapes(picture, STROKE).is_empty(), has("releases too close for arrows, above the lane")),
            (!strokes, strokes),
            "{options}"
        );
        assert_eq!((shapes(picture, "#fff").is_empty(), has("White lines part the ticks of a box.")), (!parted, parted), "{options}");
        assert!(has("Pale lines stand at numbered moments.") && !has("miss: "));
    }
    let g = shell(Path::new(ROOT), "\"$0\" draw sheets/g.sheet");
    assert!(drawn(&g, 1).contains(">miss: the deadline is reached with work left<") && g.text().contains(">its moment<"));
}

#[test]
fn a_run_without_ticks_is_drawn() {
    for (entries, end) in
        [("", "no job is released, and so none misses"), ("0 0 0 0\n", "no job misses; the one job is done at 0, before any tick")]
    {
        let folder = made("draw-no-tick", "0 10 4 0 2\n1 20 20 3 5\n", "0 0", entries);
        let ran = shell(&folder.0, "\"$0\" draw s r -o p");
        assert_eq!(ran.done(0), format!("p: the run of r, no tick is played: {end}\n"));
        let picture = std::fs::read_to_string(folder.0.join("p")).unwrap();
        is_plain_svg(&picture);
        for words in ["Shown: no tick is played.", &format!("The run of r: {end}"), "task 1", "no tick is played"] {
            assert!(texts(&picture).contains(&words), "{words}");
        }
        assert_eq!(shell(&folder.0, "\"$0\" draw s r --to 7").out, picture.as_bytes());
        assert_eq!(shell(&folder.0, "\"$0\" draw s r --from 0 -o p").done(0), format!("p: the run of r, no tick is played: {end}\n"));
        assert!(shell(&folder.0, "\"$0\" draw s r --from 1").failed(3).contains("--from 1: no tick is played in this run"));
    }
}

/// Names of every kind of letter are shortened in their middle, and the whole name is in the title that is not shown.
#[test]
fn long_names_stay_in_the_picture() {
    let folder = Folder::new("draw-long-names");
    for middle in ["x".repeat(200), "W".repeat(200), "\u{6f22}".repeat(70), "a ".repeat(100)] {
        let (sheet, script) = (format!("first {middle} last.sheet"), format!("first {middle} last.script"));
        folder.file(&sheet, &std::fs::read(shipped_one("g")).unwrap());
        folder.file(&script, &std::fs::read(shipped_script("g-worst")).unwrap());
        let ran = shell(&folder.0, &format!("\"$0\" draw '{sheet}' '{script}'"));
        let picture = drawn(&ran, 1);
        assert!(picture.contains(&format!("<title>The run of &quot;{script}&quot;: task 0 misses at 5")));
        assert!(picture.contains(&format!("The sheet, &quot;{sheet}&quot;: missed, 2 tasks: task 0 misses, blocker 1</title>")));
        let shown: Vec<&str> = texts(picture);
        for (start, end) in
            [("The sheet, &quot;first ", " last.sheet&quot;: missed"), ("The run of &quot;first ", " last.script&quot;: task 0")]
        {
            let at = shown.iter().position(|text| text.starts_with(start)).expect("a name");
            assert!(shown[at..at + 3].join(" ").contains(end) && shown[at].contains("..."), "{shown:?}");
        }
        // 930 pixels have room for so many wide letters of the title, and for more narrow ones
        assert!(
            shown.iter().all(|text| text.replace("&quot;", "\"").chars().filter(|&c| c == 'W' || c > '\u{7f}').count() <= 50),
            "{shown:?}"
        );
        assert!(shown.iter().all(|text| text.chars().count() <= 150), "{shown:?}");
    }
}
