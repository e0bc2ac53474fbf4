//! Writing to standard output, where every failure is seen, and complaints to standard error.
use crate::names::Name;
use crate::status::{system_words, Trouble, DISAGREEMENT};
use crate::streams;
use std::fs::{File, Metadata};
use std::io::{self, BufWriter, ErrorKind, IsTerminal, Write};
use std::os::fd::AsFd;

/// Standard output, opened when something is put.
pub struct Output {
    writer: Option<BufWriter<File>>,
}

impl Output {
    pub fn new() -> Self {
        Output { writer: None }
    }

    pub fn put(&mut self, bytes: &[u8]) -> Result<(), Trouble> {
        let writer = match &mut self.writer {
            Some(writer) => writer,
            None => self.writer.insert(BufWriter::new(open()?)),
        };
        writer.write_all(bytes).map_err(failed)
    }

    /// Writes what is kept back, so that what is said elsewhere comes after it.
    pub fn flush(&mut self) -> Result<(), Trouble> {
        match &mut self.writer {
            Some(writer) => writer.flush().map_err(failed),
            None => Ok(()),
        }
    }

    /// Ends the output; without it nothing may be taken for written.
    pub fn finish(&mut self) -> Result<(), Trouble> {
        self.flush()?;
        match &self.writer {
            Some(writer) => store(writer.get_ref()).map_err(failed),
            None => Ok(()),
        }
    }

    pub fn metadata(&self) -> io::Result<Metadata> {
        standard_output()?.metadata()
    }

    pub fn is_terminal(&self) -> bool {
        !streams::output_was_closed() && io::stdout().is_terminal()
    }
}

/// As a file of its own: the library's standard output takes a stream that cannot be written for one that takes everything.
fn open() -> Result<File, Trouble> {
    if streams::output_was_closed() {
        return Err(Trouble::File(Name::StandardOutput, "it is closed".to_string()));
    }
    standard_output().map_err(failed)
}

fn standard_output() -> io::Result<File> {
    io::stdout().as_fd().try_clone_to_owned().map(File::from)
}

/// A file system may take bytes and tell only later that there is no room for them. Only a regular file is stored.
fn store(file: &File) -> io::Result<()> {
    match file.metadata()?.is_file() {
        true => file.sync_data(),
        false => Ok(()),
    }
}

fn failed(error: io::Error) -> Trouble {
    match error.kind() {
        ErrorKind::BrokenPipe => Trouble::BrokenPipe,
        _ => Trouble::File(Name::StandardOutput, system_words(&error)),
    }
}

/// Says on standard error what is wrong; if that cannot be written either, the exit status says it.
pub fn complain(trouble: &Trouble) {
    let words = match trouble {
        Trouble::Usage(words) => format!("burrbeech: {words}\nburrbeech: `burrbeech --help` says what can be given\n"),
        Trouble::File(name, words) => format!("burrbeech: {}: {words}\n", name.told()),
        Trouble::Line(name, line, words) => format!("{}:{line}: {words}\n", name.shown()),
        Trouble::Disagreement(words) => format!("burrbeech: {DISAGREEMENT}: {words}\n"),
        Trouble::BrokenPipe => return,
    };
    tell(&words);
}

/// Says on standard error what is no trouble, where standard output is for something else.
pub fn tell(words: &str) {
    let _ = io::stderr().write_all(words.as_bytes());
}
