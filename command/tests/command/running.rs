//! Running the command, and folders for its files.
use std::ffi::OsStr;
use std::io::Write;
use std::path::{Path, PathBuf};
use std::process::{Command, Output, Stdio};

pub const COMMAND: &str = env!("CARGO_BIN_EXE_burrbeech");
pub const ROOT: &str = concat!(env!("CARGO_MANIFEST_DIR"), "/..");

/// What a run of the command left.
#[derive(Debug)]
pub struct Ran {
    pub status: i32,
    pub out: Vec<u8>,
    pub err: String,
}

impl Ran {
    fn of(output: Output) -> Self {
        let status = output.status.code().expect("the command ends with a status");
        Ran { status, out: output.stdout, err: String::from_utf8(output.stderr).expect("messages are UTF-8") }
    }

    pub fn text(&self) -> &str {
        std::str::from_utf8(&self.out).expect("text is UTF-8")
    }

    /// The text of a run without messages that ended so.
    pub fn done(&self, status: i32) -> &str {
        assert_eq!((self.status, self.err.as_str()), (status, ""), "{}", self.text());
        self.text()
    }

    /// The messages of a run that ended so and put nothing out.
    pub fn failed(&self, status: i32) -> &str {
        assert_eq!((self.status, self.text()), (status, ""), "{}", self.err);
        assert!(!self.err.is_empty());
        &self.err
    }
}

/// Runs the command with an empty standard input.
pub fn run<S: AsRef<OsStr>>(words: &[S]) -> Ran {
    Ran::of(Command::new(COMMAND).args(words).stdin(Stdio::null()).output().expect("the command runs"))
}

/// Runs the command with these bytes as standard input, of which it may leave some.
pub fn run_with(words: &[&str], input: &[u8]) -> Ran {
    let mut command = Command::new(COMMAND);
    command.args(words).stdin(Stdio::piped()).stdout(Stdio::piped()).stderr(Stdio::piped());
    let mut child = command.spawn().expect("the command runs");
    let _ = child.stdin.take().expect("a pipe").write_all(input);
    Ran::of(child.wait_with_output().expect("the command ends"))
}

/// Runs a shell line in a folder, with the command as `$0`.
pub fn shell(folder: &Path, line: &str) -> Ran {
    let mut shell = Command::new("sh");
    Ran::of(shell.arg("-c").arg(line).arg(COMMAND).current_dir(folder).stdin(Stdio::null()).output().expect("a shell runs"))
}

/// A folder of one test, empty at its start.
pub struct Folder(pub PathBuf);

impl Folder {
    pub fn new(test: &str) -> Self {
        let path = Path::new(env!("CARGO_TARGET_TMPDIR")).join(test);
        let _ = std::fs::remove_dir_all(&path);
        std::fs::create_dir_all(&path).expect("a folder");
        Folder(path)
    }

    /// A file of the folder with these bytes.
    pub fn file(&self, name: impl AsRef<Path>, bytes: &[u8]) -> PathBuf {
        let path = self.0.join(name);
        std::fs::write(&path, bytes).expect("a file");
        path
    }

    /// The names of all that stands in the folder, sorted.
    pub fn names(&self) -> Vec<String> {
        let entries = std::fs::read_dir(&self.0).expect("a folder");
        let mut names: Vec<String> = entries.map(|entry| entry.expect("an entry").file_name().to_string_lossy().into_owned()).collect();
        names.sort();
        names
    }
}

impl Drop for Folder {
    fn drop(&mut self) {
        let _ = std::fs::remove_dir_all(&self.0);
    }
}

/// The paths of the shipped sheets, sorted.
pub fn shipped() -> Vec<PathBuf> {
    let entries = std::fs::read_dir(format!("{ROOT}/sheets")).expect("the shipped sheets");
    let mut paths: Vec<PathBuf> = entries.map(|entry| entry.expect("an entry").path()).filter(|path| path.is_file()).collect();
    paths.sort();
    assert!(paths.len() >= 16, "{paths:?}");
    paths
}

pub fn shipped_one(name: &str) -> String {
    format!("{ROOT}/sheets/{name}.sheet")
}

pub fn shipped_script(name: &str) -> String {
    format!("{ROOT}/scripts/{name}.script")
}
