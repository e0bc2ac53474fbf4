//! What a verb makes goes to a file, whole or not at all, or to standard output; never to a terminal, by whatever name.
use crate::input;
use crate::names::Name;
use crate::output::{tell, Output};
use crate::status::Trouble;
use crate::whole_file::{self, Put};
use std::fs::{self, Metadata};
use std::io;
use std::os::unix::fs::MetadataExt;
use std::path::Path;

/// What is made: why a terminal does not get it, as `a sheet is no text`, and what it is made of, each input with what it is.
pub struct Made<'a> {
    pub not_for_a_terminal: &'a str,
    pub of: &'a [(&'a Name, &'a str)],
}

impl Made<'_> {
    pub fn deliver(&self, bytes: &[u8], to: Option<&Name>, output: &mut Output) -> Result<(), Trouble> {
        let Some(Name::File(path)) = to else {
            if output.is_terminal() {
                let words = format!("{}: give `-o FILE` or send the output to a file", self.not_for_a_terminal);
                return Err(Trouble::File(Name::StandardOutput, words));
            }
            return output.put(bytes);
        };
        let (name, path) = (Name::File(path.clone()), Path::new(path));
        if let Some((_, which)) = self.of.iter().find(|(input, _)| is_same_file(input::metadata(input), path)) {
            return Err(Trouble::File(name, format!("this is {which} itself: it would be lost")));
        }
        // by another name, such as `/dev/stdout`: what the file holds already is the caller's
        if is_same_file(output.metadata(), path) {
            return output.put(bytes);
        }
        match whole_file::write(path, bytes).map_err(|error| Trouble::of_file(&name, &error))? {
            Put::Written => Ok(()),
            Put::Terminal => Err(Trouble::File(name, format!("this is a terminal, and {}", self.not_for_a_terminal))),
        }
    }
}

/// Says on standard output what was made, or that nothing was; on standard error where standard output is for what is made.
pub fn say(words: &str, to: Option<&Name>, output: &mut Output) -> Result<(), Trouble> {
    match to {
        Some(Name::File(path)) if !is_output(output, Path::new(path)) => output.put(words.as_bytes()),
        _ => {
            output.flush()?;
            tell(words);
            Ok(())
        }
    }
}

/// Whether the path leads to standard output, be that a file, a pipe or a device.
fn is_output(output: &Output, path: &Path) -> bool {
    match (output.metadata(), fs::metadata(path)) {
        (Ok(one), Ok(other)) => (one.dev(), one.ino()) == (other.dev(), other.ino()),
        _ => false,
    }
}

/// The one may be a standard stream, and the path may be a link.
fn is_same_file(one: io::Result<Metadata>, path: &Path) -> bool {
    match (one, fs::metadata(path)) {
        (Ok(one), Ok(other)) => one.is_file() && (one.dev(), one.ino()) == (other.dev(), other.ino()),
        _ => false,
    }
}
