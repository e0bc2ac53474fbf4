//! What is said of a sheet in every verb: the status, the first line, and the fields that each object starts with.
use crate::json::Object;
use crate::library::{Analysis, NoStart, Refusal, Verdict};
use crate::names::Name;
use crate::output::Output;
use crate::status::{Status, Trouble};
use crate::{library, words};

pub fn status_of(answer: &Result<Analysis, Refusal>) -> Status {
    match answer {
        Ok(analysis) => status_of_verdict(analysis.verdict),
        Err(_) => Status::Refused,
    }
}

pub fn status_of_verdict(verdict: Verdict) -> Status {
    match verdict {
        Verdict::Holds => Status::Done,
        Verdict::Missed { .. } => Status::Missed,
    }
}

/// The line of a sheet.
pub fn line(name: &Name, answer: &Result<Analysis, Refusal>) -> String {
    match answer {
        Ok(analysis) => format!("{}: {}", name.shown(), words::verdict(analysis.verdict, analysis.task_count)),
        Err(refusal) => refusal_line(name, *refusal),
    }
}

pub fn refusal_line(name: &Name, refusal: Refusal) -> String {
    format!("{}: {}: {}", name.shown(), words::refused(refusal), words::short(refusal.number))
}

/// The object of a sheet.
pub fn object(name: &Name, sheet: &[u8], answer: &Result<Analysis, Refusal>) -> Result<Object, Trouble> {
    match answer {
        Ok(analysis) => {
            let set = library::read(sheet)?.map_err(|_| Trouble::disagreement("reading and analysing"))?;
            Ok(verdict_object(name, analysis.verdict, analysis.task_count, set.version))
        }
        Err(refusal) => Ok(refusal_object(name, *refusal)),
    }
}

/// The fields that every verb's object of an analysed sheet starts with.
pub fn verdict_object(name: &Name, verdict: Verdict, task_count: usize, version: u32) -> Object {
    let object = Object::new().text("file", &name.plain());
    let object = match verdict {
        Verdict::Holds => object.text("verdict", "holds").number("tasks", task_count as u64),
        Verdict::Missed { task, blocker } => {
            let object = object.text("verdict", "missed").number("tasks", task_count as u64);
            object.task("task", Some(task)).task("blocker", blocker)
        }
    };
    object.number("version", version)
}

/// The fields that every verb's object of a refused sheet starts with.
pub fn refusal_object(name: &Name, refusal: Refusal) -> Object {
    let object = Object::new().text("file", &name.plain()).text("verdict", "refused").number("refusal", refusal.number);
    let object = object.task("task", refusal.task);
    let object = match refusal.no_start {
        Some(no_start) => object.raw("reason", &reason_object(no_start)),
        None => object,
    };
    object.text("words", words::short(refusal.number))
}

/// An object of its own: the sheet's length in bytes stands beside it in `show`.
fn reason_object(no_start: NoStart) -> String {
    let NoStart { frame, length, other_frame } = no_start;
    let object = Object::new().number("frame", frame as u64).number("length", length as u64);
    object.number("other_frame", other_frame as u64).close()
}

/// The line for a sheet that could not be read.
pub fn unread_object(name: &Name, trouble: &Trouble) -> String {
    let words = match trouble {
        Trouble::File(_, words) => words.as_str(),
        _ => "not read",
    };
    Object::new().text("file", &name.plain()).raw("verdict", "null").text("error", words).close() + "\n"
}

/// With JSON there is an object for a sheet that could not be read, too.
pub fn unread(json: bool, name: &Name, trouble: Trouble, output: &mut Output) -> Result<Status, Trouble> {
    if json {
        output.put(unread_object(name, &trouble).as_bytes())?;
        output.flush()?;
    }
    Err(trouble)
}
