//! Reading files and standard input, no further than decides.
use crate::names::Name;
use crate::script;
use crate::set::GREATEST_SHEET;
use crate::status::Trouble;
use crate::streams;
use std::fs::{self, File, Metadata};
use std::io::{self, Read};
use std::os::fd::AsFd;
use std::os::unix::fs::{FileTypeExt, MetadataExt};

/// The pipes that were read, by device and number: a second reading would find one empty.
#[derive(Default)]
pub struct Pipes(Vec<(u64, u64)>);

impl Pipes {
    /// Whether what is known so is a pipe that was read.
    fn have(&self, known: &Metadata) -> bool {
        self.0.contains(&(known.dev(), known.ino()))
    }

    fn note(&mut self, known: &Metadata) {
        if known.file_type().is_fifo() || known.file_type().is_socket() {
            self.0.push((known.dev(), known.ino()));
        }
    }
}

/// The bytes of a sheet: one past the greatest sheet is enough to know that it is too long.
pub fn sheet(name: &Name) -> Result<Vec<u8>, Trouble> {
    next_sheet(name, &mut Pipes::default())
}

/// The bytes of one sheet of several inputs.
pub fn next_sheet(name: &Name, pipes: &mut Pipes) -> Result<Vec<u8>, Trouble> {
    next_at_most(GREATEST_SHEET + 1, name, pipes)
}

/// The bytes of a script: one past the longest is enough to know that it is none.
pub fn next_script(name: &Name, pipes: &mut Pipes) -> Result<Vec<u8>, Trouble> {
    next_at_most(script::MOST_BYTES + 1, name, pipes)
}

/// The first bytes of one of several inputs, so many at most. A pipe with a name is looked at before it is opened: the second time that
/// would wait for a writer.
pub fn next_at_most(most: usize, name: &Name, pipes: &mut Pipes) -> Result<Vec<u8>, Trouble> {
    let known = metadata(name).map_err(|error| Trouble::of_file(name, &error))?;
    if pipes.have(&known) {
        return Err(Trouble::File(name.clone(), "this pipe was read already, and nothing is left of it".to_string()));
    }
    let file = open(name)?;
    pipes.note(&known);
    read(file, most, name)
}

/// The first bytes of a file, so many at most.
pub fn at_most(most: usize, name: &Name) -> Result<Vec<u8>, Trouble> {
    read(open(name)?, most, name)
}

/// A read that fails is an error, never the end.
fn read(file: File, most: usize, name: &Name) -> Result<Vec<u8>, Trouble> {
    let mut bytes = Vec::with_capacity(most.min(4_096));
    file.take(most as u64).read_to_end(&mut bytes).map_err(|error| Trouble::of_file(name, &error))?;
    Ok(bytes)
}

/// What the system knows of a file, which is not opened for it: a pipe can be opened once.
pub fn metadata(name: &Name) -> io::Result<Metadata> {
    match name {
        Name::File(path) => fs::metadata(path),
        _ => standard_input()?.metadata(),
    }
}

fn open(name: &Name) -> Result<File, Trouble> {
    let opened = match name {
        Name::File(path) => File::open(path),
        _ if streams::input_was_closed() => return Err(Trouble::File(name.clone(), "it is closed".to_string())),
        _ => standard_input(),
    };
    opened.map_err(|error| Trouble::of_file(name, &error))
}

/// As a file of its own: the library's standard input reads ahead, and takes a stream that cannot be read for an empty one.
fn standard_input() -> io::Result<File> {
    io::stdin().as_fd().try_clone_to_owned().map(File::from)
}
