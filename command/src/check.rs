//! `check`: a line for each sheet, totals last.
use crate::answers::{line, object, status_of, unread_object};
use crate::arguments::CheckOptions;
use crate::input::{next_sheet, Pipes};
use crate::names::Name;
use crate::output::{complain, Output};
use crate::status::{Status, Trouble};
use crate::{library, words};

/// How many sheets ended how.
#[derive(Default)]
struct Totals {
    hold: u64,
    missed: u64,
    refused: u64,
    not_read: u64,
}

pub fn run(options: &CheckOptions, output: &mut Output) -> Result<Status, Trouble> {
    let mut totals = Totals::default();
    let (mut worst, mut pipes) = (Status::Done, Pipes::default());
    for name in &options.sources {
        let status = one(name, options, &mut pipes, output).map_err(|trouble| trouble.about(name))?;
        totals.count(status);
        worst = worst.max(status);
    }
    if !options.quiet && !options.json {
        output.put(totals.line().as_bytes())?;
    }
    Ok(worst)
}

/// The line of one sheet; one that cannot be read has a complaint instead, and the others are still checked.
fn one(name: &Name, options: &CheckOptions, pipes: &mut Pipes, output: &mut Output) -> Result<Status, Trouble> {
    let bytes = match next_sheet(name, pipes) {
        Ok(bytes) => bytes,
        Err(trouble) => return unread(name, &trouble, options.json, output),
    };
    let answer = library::analyse(&bytes)?;
    let status = status_of(&answer);
    if options.quiet && status == Status::Done {
        return Ok(status);
    }
    let line = if options.json { object(name, &bytes, &answer)?.close() } else { line(name, &answer) };
    output.put(format!("{line}\n").as_bytes())?;
    Ok(status)
}

/// What stands in the output so far comes first.
fn unread(name: &Name, trouble: &Trouble, json: bool, output: &mut Output) -> Result<Status, Trouble> {
    if json {
        output.put(unread_object(name, trouble).as_bytes())?;
    }
    output.flush()?;
    complain(trouble);
    Ok(Status::Trouble)
}

impl Totals {
    fn count(&mut self, status: Status) {
        let counter = match status {
            Status::Done => &mut self.hold,
            Status::Missed => &mut self.missed,
            Status::Refused => &mut self.refused,
            Status::Trouble => &mut self.not_read,
        };
        *counter += 1;
    }

    fn line(&self) -> String {
        let Totals { hold, missed, refused, not_read } = self;
        let sheets = words::counted(hold + missed + refused + not_read, "sheet");
        let holds = if *hold == 1 { "holds" } else { "hold" };
        let rest = if *not_read > 0 { format!(", {not_read} not read") } else { String::new() };
        format!("{sheets}: {hold} {holds}, {missed} missed, {refused} refused{rest}\n")
    }
}
