//! The exit statuses, and what ends in the last of them.
use crate::names::Name;

/// The worst of several decides.
#[derive(Clone, Copy, Debug, PartialEq, Eq, PartialOrd, Ord)]
pub enum Status {
    Done = 0,
    Missed = 1,
    Refused = 2,
    Trouble = 3,
}

/// Why there is no verdict.
#[derive(Debug)]
pub enum Trouble {
    Usage(String),
    /// A file that cannot be read or written, with the system's words or ours.
    File(Name, String),
    /// A line of a table that is none.
    Line(Name, usize, String),
    /// Who reads our output has gone: there is nobody to tell.
    BrokenPipe,
    /// What the command works out for its words does not agree with what the library answers.
    Disagreement(String),
}

impl Trouble {
    pub fn of_file(name: &Name, error: &std::io::Error) -> Self {
        Trouble::File(name.clone(), system_words(error))
    }

    /// Two entries that must say the same and do not.
    pub fn disagreement(who: &str) -> Self {
        Trouble::Disagreement(format!("{who} do not say the same of this sheet"))
    }

    /// A disagreement about this file.
    pub fn about(self, name: &Name) -> Self {
        match self {
            Trouble::Disagreement(words) => Trouble::File(name.clone(), format!("{DISAGREEMENT}: {words}")),
            other => other,
        }
    }
}

pub const DISAGREEMENT: &str = "internal disagreement, no verdict";

/// The system's words for an error, without its number.
pub fn system_words(error: &std::io::Error) -> String {
    let words = error.to_string();
    match words.find(" (os error ") {
        Some(end) => words[..end].to_string(),
        None => words,
    }
}
