//! Inputs and outputs that fail: each is status 3 with a message, and never a verdict.
use crate::json;
use crate::running::{run, run_with, shell, shipped_one, Folder, COMMAND, ROOT};
use std::ffi::OsStr;
use std::io::{PipeWriter, Write};
use std::os::unix::ffi::OsStrExt;
use std::path::Path;
use std::process::{Command, Stdio};
use std::time::Duration;

const READERS: [&str; 6] = ["check", "report", "explain", "show", "compose", "convert --to 2"];

fn in_root(line: &str) -> crate::running::Ran {
    shell(Path::new(ROOT), line)
}

/// The totals of a check that read nothing are no verdict.
fn without_totals(text: &str) -> &str {
    text.strip_prefix("1 sheet: 0 hold, 0 missed, 0 refused, 1 not read\n").unwrap_or(text)
}

#[test]
fn inputs_that_cannot_be_read() {
    let cases = [
        ("no-such-file </dev/null", "no-such-file: No such file"),
        ("sheets", "sheets: Is a directory"),
        ("< sheets", "standard input: Is a directory"),
        ("<&-", "standard input: it is closed"),
        ("- <&-", "standard input: it is closed"),
        ("/dev/stdin <&-", "/dev/stdin: Is a directory"),
        ("/dev/fd/0 <&-", "/dev/fd/0: Is a directory"),
        ("0>/dev/null", "standard input: Bad file descriptor"),
        ("''", "\"\": No such file"),
    ];
    for verb in READERS {
        for (words, message) in cases {
            let ran = in_root(&format!("\"$0\" {verb} {words}"));
            assert_eq!((ran.status, without_totals(ran.text())), (3, ""), "{verb} {words}");
            assert_eq!(ran.err.lines().count(), 1, "{}", ran.err);
            assert!(ran.err.starts_with("burrbeech: ") && ran.err.contains(message), "{verb} {words}: {}", ran.err);
        }
    }
}

#[test]
fn the_other_files_are_still_checked() {
    let ran = in_root("\"$0\" check sheets/f.sheet nosuch sheets/g.sheet sheets");
    let lines = "sheets/f.sheet: holds, 2 tasks\nsheets/g.sheet: missed, 2 tasks: task 0 misses, blocker 1\n";
    assert_eq!(ran.text(), format!("{lines}4 sheets: 1 holds, 1 missed, 0 refused, 2 not read\n"));
    assert_eq!((ran.status, ran.err.lines().count()), (3, 2));
    let ran = in_root("\"$0\" check --json sheets/f.sheet nosuch");
    let objects = json::lines(ran.text());
    assert_eq!(objects[1].keys(), ["file", "verdict", "error"]);
    assert_eq!((objects[1].get("verdict"), objects[1].get("error").text()), (&json::Value::Null, "No such file or directory"));
    for verb in ["explain", "show"] {
        let ran = in_root(&format!("\"$0\" {verb} --json nosuch"));
        assert_eq!(json::object(ran.text().trim_end()).keys(), ["file", "verdict", "error"]);
        assert_eq!((ran.status, ran.err.lines().count()), (3, 1));
    }
}

/// Under another name standard input could be read twice, and would be empty the second time.
#[test]
fn a_pipe_is_read_once() {
    let ran = in_root("cat sheets/f.sheet | \"$0\" check - /dev/stdin");
    assert_eq!(ran.text(), "-: holds, 2 tasks\n2 sheets: 1 holds, 0 missed, 0 refused, 1 not read\n");
    assert_eq!((ran.status, ran.err.as_str()), (3, "burrbeech: /dev/stdin: this pipe was read already, and nothing is left of it\n"));
    let ran = in_root("cat sheets/f.sheet | \"$0\" check /dev/stdin sheets/g.sheet sheets/g.sheet");
    assert_eq!((ran.status, ran.err.as_str()), (1, ""));
}

/// A pipe with a name is not opened a second time, where no writer would come any more.
#[test]
fn a_named_pipe_is_read_once() {
    let folder = Folder::new("named-pipe");
    std::fs::copy(shipped_one("f"), folder.0.join("f.sheet")).unwrap();
    let ran = shell(&folder.0, "mkfifo p && ln -s p q && { cat f.sheet > p & } && timeout 20 \"$0\" check p p q");
    assert_eq!(ran.text(), "p: holds, 2 tasks\n3 sheets: 1 holds, 0 missed, 0 refused, 2 not read\n");
    let message = |name| format!("burrbeech: {name}: this pipe was read already, and nothing is left of it\n");
    assert_eq!((ran.status, ran.err), (3, message("p") + &message("q")));
}

/// A closed input is no matter where it is not read.
#[test]
fn a_closed_input_beside_a_file() {
    assert_eq!(in_root("\"$0\" report sheets/f.sheet <&-").done(0), "holds 2\n0 10 4 2 4\n1 20 20 0 7\n");
    assert_eq!(in_root("\"$0\" refusals <&-").status, 0);
}

#[test]
fn an_empty_input_is_a_sheet_of_no_byte() {
    assert_eq!(run(&["report"]).done(2), "refused 1\n");
    assert_eq!(run(&["check", "/dev/null"]).status, 2);
}

#[test]
fn no_more_is_read_than_decides() {
    assert_eq!(run(&["report", "/dev/zero"]).done(2), "refused 1\n");
    assert_eq!(in_root("\"$0\" report < /dev/zero").done(2), "refused 1\n");
    let folder = Folder::new("huge");
    folder.file("huge", &[0; 1_000]);
    assert_eq!(shell(&folder.0, "{ \"$0\" report; wc -c; } < huge").text().replace(' ', ""), "refused1\n267\n");
    assert_eq!(run_with(&["report"], &vec![0x10; 1 << 20]).done(2), "refused 1\n");
    assert_eq!(in_root("\"$0\" report README.md").done(2), "refused 1\n");
}

const WRITERS: [&str; 14] = [
    "check sheets/f.sheet",
    "report sheets/f.sheet",
    "explain sheets/f.sheet",
    "show sheets/f.sheet",
    "compose t",
    "convert --to 2 sheets/f.sheet",
    "play sheets/g.sheet scripts/g-worst.script",
    "script compose sheets/g.sheet scripts/g-worst.text",
    "script show sheets/g.sheet scripts/g-worst.script",
    "help script",
    "refusals",
    "--help",
    "help check",
    "--version",
];

#[test]
fn outputs_that_cannot_be_written() {
    let folder = Folder::new("outputs");
    let table = folder.file("t", b"policy 0\ntask period deadline lock frames\n0 10 4 0 2\n");
    for words in WRITERS {
        let words = words.replace(" t", &format!(" '{}'", table.display()));
        for (to, message) in [("/dev/full", "No space left"), ("&-", "it is closed")] {
            let ran = in_root(&format!("\"$0\" {words} >{to}"));
            assert_eq!((ran.status, ran.text()), (3, ""), "{words} {to}");
            assert!(ran.err.starts_with("burrbeech: standard output: ") && ran.err.contains(message), "{}", ran.err);
        }
        let ran = in_root(&format!("\"$0\" {words} 1</dev/null"));
        assert!(ran.failed(3).contains("Bad file descriptor"));
        // with nowhere to complain the status still says it
        assert_eq!(in_root(&format!("\"$0\" {words} >/dev/full 2>/dev/full")).status, 3);
        assert_eq!(in_root(&format!("\"$0\" {words} >&- 2>&-")).status, 3);
    }
}

/// This regular file of the system takes the bytes and fails when it shall store them, as a full disk far away does.
#[test]
fn an_output_that_is_not_stored() {
    for words in WRITERS.into_iter().filter(|words| *words != "compose t") {
        let ran = in_root(&format!("exec \"$0\" {words} >/proc/self/comm"));
        assert_eq!(ran.failed(3), "burrbeech: standard output: Invalid argument\n", "{words}");
    }
}

#[test]
fn a_regular_file_as_output() {
    let folder = Folder::new("regular");
    assert_eq!(in_root(&format!("\"$0\" report sheets/f.sheet > '{}'", folder.0.join("r").display())).done(0), "");
    assert_eq!(std::fs::read(folder.0.join("r")).unwrap(), b"holds 2\n0 10 4 2 4\n1 20 20 0 7\n");
}

/// A pipe that nobody reads. A program that another test starts may have the reading end for a moment, so it is waited for.
fn broken_pipe() -> PipeWriter {
    let (reader, mut writer) = std::io::pipe().expect("a pipe");
    drop(reader);
    while writer.write(b"x").is_ok() {
        std::thread::sleep(Duration::from_millis(1));
    }
    writer
}

/// Nobody reads the output any more when it is written: no panic, no message, status 3.
#[test]
fn a_broken_pipe() {
    for verb in ["check", "report", "explain", "show", "worst", "draw"] {
        let mut command = Command::new(COMMAND);
        let output = command.args([verb, &shipped_one("g")]).stdout(broken_pipe()).stderr(Stdio::piped()).output().unwrap();
        assert_eq!((output.status.code(), output.stderr.as_slice()), (Some(3), b"".as_slice()), "{verb}");
    }
}

#[test]
fn names_cannot_pass_for_words() {
    let folder = Folder::new("names");
    let sheet = std::fs::read(shipped_one("g")).unwrap();
    let names: [&[u8]; 6] = [b"x\nf.sheet: holds, 2 tasks", b"14 sheets", b"a\"b\\c", b"\x1b[2J", b"\xff\xfe", "r\u{202e}l".as_bytes()];
    let shown =
        ["\"x\\nf.sheet: holds, 2 tasks\"", "\"14 sheets\"", "\"a\\\"b\\\\c\"", "\"\\u{1b}[2J\"", "\"\\xff\\xfe\"", "\"r\\u{202e}l\""];
    for (name, shown) in names.into_iter().zip(shown) {
        folder.file(OsStr::from_bytes(name), &sheet);
        let run_here =
            |words: &[&OsStr]| Command::new(COMMAND).args(words).arg(OsStr::from_bytes(name)).current_dir(&folder.0).output().unwrap();
        let line = run_here(&["check".as_ref(), "-q".as_ref()]).stdout;
        assert_eq!(String::from_utf8(line).unwrap(), format!("{shown}: missed, 2 tasks: task 0 misses, blocker 1\n"));
        let line = run_here(&["check".as_ref(), "--json".as_ref()]).stdout;
        let objects = json::lines(std::str::from_utf8(&line).unwrap());
        assert_eq!(objects[0].get("file").text(), String::from_utf8_lossy(name));
        std::fs::remove_file(folder.0.join(OsStr::from_bytes(name))).unwrap();
        let message = run_here(&["report".as_ref()]).stderr;
        assert_eq!(String::from_utf8(message).unwrap(), format!("burrbeech: {shown}: No such file or directory\n"));
    }
}

#[test]
fn names_that_look_like_options() {
    let folder = Folder::new("options");
    let sheet = std::fs::read(shipped_one("f")).unwrap();
    for name in ["-q", "-", "--json", "--"] {
        folder.file(name, &sheet);
        assert_eq!(
            shell(&folder.0, &format!("\"$0\" check ./{name}")).text().lines().next(),
            Some(format!("./{name}: holds, 2 tasks").as_str())
        );
    }
    assert_eq!(shell(&folder.0, "\"$0\" check -q -- -q --json -- 2>&1").done(0), "");
}
