//! What a terminal gets: no sheet, script or picture, and the last ticks of a play.
use crate::running::{shipped_one, shipped_script, Folder, COMMAND, ROOT};
use std::ffi::{c_char, c_int, CStr};
use std::fs::{File, OpenOptions};
use std::io::Read;
use std::os::fd::{FromRawFd, OwnedFd};
use std::process::{Command, Stdio};

extern "C" {
    fn posix_openpt(flags: c_int) -> c_int;
    fn grantpt(terminal: c_int) -> c_int;
    fn unlockpt(terminal: c_int) -> c_int;
    fn ptsname(terminal: c_int) -> *const c_char;
}

/// `O_RDWR | O_NOCTTY`.
const OPEN: c_int = 0o402;

/// A new terminal: the end that stands for the screen, which must stay open, and the end that a program writes to.
fn terminal() -> (OwnedFd, File) {
    let (screen, end, _) = terminal_named();
    (screen, end)
}

/// The same, with its name.
fn terminal_named() -> (OwnedFd, File, String) {
    // SAFETY: the calls get the descriptor that the first one made, and the name is copied before another call
    let (screen, name) = unsafe {
        let screen = posix_openpt(OPEN);
        assert!(screen >= 0 && grantpt(screen) == 0 && unlockpt(screen) == 0, "no terminal");
        (OwnedFd::from_raw_fd(screen), CStr::from_ptr(ptsname(screen)).to_str().expect("a name").to_string())
    };
    let end = OpenOptions::new().read(true).write(true).open(&name).expect("a terminal");
    (screen, end, name)
}

fn run_on_terminal(words: &[&str]) -> (Option<i32>, String) {
    let (screen, end) = terminal();
    let mut command = Command::new(COMMAND);
    let output = command.args(words).stdin(Stdio::null()).stdout(end).stderr(Stdio::piped()).output().expect("the command runs");
    drop(screen);
    (output.status.code(), String::from_utf8(output.stderr).expect("messages are UTF-8"))
}

#[test]
fn text_goes_to_a_terminal_and_a_sheet_does_not() {
    let folder = Folder::new("terminal");
    let table = folder.file("t", b"policy 0\ntask period deadline lock frames\n0 10 4 0 2\n").display().to_string();
    for words in [["compose", &table].as_slice(), &["compose", &table, "-o", "-"], &["convert", "--to", "2", &shipped_one("f")]] {
        let (status, message) = run_on_terminal(words);
        assert_eq!(status, Some(3));
        assert!(message.contains("a sheet is no text: give `-o FILE`"), "{message}");
    }
    assert_eq!(run_on_terminal(&["check", &shipped_one("f")]), (Some(0), String::new()));
}

#[test]
fn a_script_and_a_picture_do_not() {
    let (sheet, text) = (shipped_one("g"), format!("{ROOT}/scripts/g-worst.text"));
    for (words, message) in [
        (["worst", &sheet].as_slice(), "a script is no text: give `-o FILE`"),
        (&["script", "compose", &sheet, &text], "a script is no text: give `-o FILE`"),
        (&["draw", &sheet], "a picture is nothing to read: give `-o FILE`"),
    ] {
        let (status, said) = run_on_terminal(words);
        assert_eq!(status, Some(3));
        assert!(said.contains(message), "{said}");
    }
}

/// By another name a terminal gets none either: not as standard output, nor as itself.
#[test]
fn a_terminal_by_another_name() {
    let folder = Folder::new("terminal-names");
    let table = folder.file("t", b"policy 0\ntask period deadline lock frames\n0 10 4 0 2\n").display().to_string();
    let (sheet, text) = (shipped_one("g"), format!("{ROOT}/scripts/g-worst.text"));
    for (words, message) in [
        (["compose", &table].as_slice(), "a sheet is no text"),
        (&["convert", "--to", "2", &sheet], "a sheet is no text"),
        (&["worst", &sheet], "a script is no text"),
        (&["script", "compose", &sheet, &text], "a script is no text"),
        (&["draw", &sheet], "a picture is nothing to read"),
    ] {
        for name in ["/dev/stdout", "/dev/fd/1", "/proc/self/fd/1"] {
            let (status, said) = run_on_terminal(&[words, &["-o", name]].concat());
            assert_eq!((status, said), (Some(3), format!("burrbeech: {name}: this is a terminal, and {message}\n")));
        }
        let (screen, _end, name) = terminal_named();
        let output = Command::new(COMMAND).args(words).args(["-o", &name]).stdin(Stdio::null()).output().expect("the command runs");
        drop(screen);
        let said = String::from_utf8(output.stderr).expect("messages are UTF-8");
        assert_eq!(
            (output.status.code(), output.stdout.len(), said),
            (Some(3), 0, format!("burrbeech: {name}: this is a terminal, and {message}\n"))
        );
    }
}

/// A terminal gets the last ticks of a play unasked.
#[test]
fn a_play_shows_its_lanes_on_a_terminal() {
    let (sheet, script) = (shipped_one("g"), shipped_script("g-worst"));
    let lanes = |words: &[&str]| {
        let (screen, end) = terminal();
        let mut child = Command::new(COMMAND).args(words).stdin(Stdio::null()).stdout(end).spawn().expect("the command runs");
        let status = child.wait().expect("the command ends").code();
        // what a terminal holds of so few lines is read at once
        let (mut screen, mut said) = (File::from(screen), vec![0; 8_192]);
        let length = screen.read(&mut said).expect("the screen");
        (status, String::from_utf8_lossy(&said[..length]).contains("task 0   ...x!"))
    };
    assert_eq!(lanes(&["play", &sheet, &script]), (Some(1), true));
    assert_eq!(lanes(&["play", &sheet, &script, "--last", "0"]), (Some(1), false));
}
