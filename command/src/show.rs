//! `show`: a sheet as the table that `compose` reads.
use crate::answers::unread;
use crate::faults::{self, Fault, Part};
use crate::library::{self, Refusal};
use crate::names::Name;
use crate::output::Output;
use crate::set::{Set, BY_FRAME};
use crate::sheet_bits::{self, End, RecordBits, SheetBits};
use crate::status::{Status, Trouble};
use crate::table::{Row, MARK};
use crate::words::{self, counted, UNITS};
use crate::{input, show_json, table};

pub fn run(json: bool, name: &Name, output: &mut Output) -> Result<Status, Trouble> {
    let bytes = match input::sheet(name) {
        Ok(bytes) => bytes,
        Err(trouble) => return unread(json, name, trouble, output),
    };
    let (text, status) = match library::read(&bytes)? {
        Ok(set) => {
            let text = admitted(&set, &bytes)?;
            (if json { show_json::admitted(name, &set) } else { text }, Status::Done)
        }
        Err(refusal) => {
            let fault = faults::of_sheet(refusal, &bytes)?;
            let text = if json { show_json::refused(name, refusal, &fault, &bytes) } else { refused(refusal, &fault, &bytes) };
            (text, Status::Refused)
        }
    };
    output.put(text.as_bytes())?;
    Ok(status)
}

/// The table of the set, which must compose to the sheet's own bytes.
fn admitted(set: &Set, sheet: &[u8]) -> Result<String, Trouble> {
    let text = table::text(set);
    let same = match table::parse(text.as_bytes()) {
        Ok(table) => library::write(&table.set(None))?.is_ok_and(|composed| composed == sheet),
        Err(_) => false,
    };
    same.then_some(text).ok_or_else(|| Trouble::Disagreement("the table does not compose to this sheet".to_string()))
}

/// The fields in the sheet's order with the fault marked. The first line is no comment and the mark stands at the fault alone, so that
/// nobody composes it unawares.
fn refused(refusal: Refusal, fault: &Fault, sheet: &[u8]) -> String {
    let mark = |part: Part| if part == fault.part { format!("   # {MARK} {}", fault.words) } else { String::new() };
    let mut text = format!("{}: {}\n", words::refused(refusal), words::short(refusal.number));
    text += &format!("# What can be read of the refused sheet; an arrow marks the fault. {UNITS}\n");
    let Some(bits) = sheet_bits::read(sheet) else { return text + &format!("# nothing can be read{}\n", mark(Part::Length)) };
    if fault.part == Part::CheckWord {
        text += "# The check word is wrong: the fields below are shown as they stand, and any of them may be spoiled.\n";
    }
    text += &format!("# length {}\n", counted(sheet.len() as u64, "byte"));
    text += &format!("# check word {:04X}{}\n", bits.stated_word, mark(Part::CheckWord));
    text += &format!("{}{}\n", version_line(bits.version), mark(Part::Version));
    text += &format!("{}{}\n", table::policy_line(bits.policy), mark(Part::Policy));
    text += &format!("# task count {}{}\n", bits.task_count, mark(Part::TaskCount));
    text += &format!("# spare bits {}{}\n", bits.spare, mark(Part::Spare));
    text + &rows(&bits, mark) + &format!("# {}{}\n", end_words(&bits), mark(Part::End))
}

/// Only version 2 is told to `compose`, which would else make a mended sheet whose deadlines are equal in version 1.
fn version_line(version: u32) -> String {
    let line = table::version_line(version);
    if version == BY_FRAME {
        line
    } else {
        format!("# {line}")
    }
}

/// The records that are there, as rows of the table.
fn rows(bits: &SheetBits, mark: impl Fn(Part) -> String) -> String {
    let row = |record: &RecordBits| {
        let row = Row::of(&record.task);
        // the field of version 1 is there without a frame, too
        Row { deadline: record.deadline.or(row.deadline), ..row }
    };
    let rows = table::rows(&bits.records.iter().map(row).collect::<Vec<_>>());
    let row = |(task, row): (usize, &String)| format!("{row}{}\n", mark(Part::Task(task)));
    let (columns, rows) = rows.split_first().expect("a column line");
    format!("{columns}\n") + &rows.iter().enumerate().map(row).collect::<String>()
}

fn end_words(bits: &SheetBits) -> String {
    let records = counted(bits.records.len() as u64, "record");
    match &bits.end {
        End::Left(left) if left.is_empty() => format!("after {records}: no bit"),
        End::Left(left) if left.len() < 8 => format!("after {records}: fill bits {left}"),
        End::Left(left) => format!("after {records}: {} bits", left.len()),
        End::FixedCut(cut) => format!("after {records}: {}, too few for the next record", counted(cut.there as u64, "bit")),
        End::FramesCut(_) => "the last record is cut off".to_string(),
        End::FrameCount => "the last record's frame count cannot be one: nothing after it can be read".to_string(),
        End::Version => "the records of this version are not known".to_string(),
    }
}

#[cfg(test)]
mod tests {
    use super::*;
    use crate::set::Task;

    /// A table is shown of the very bytes that it composes to.
    #[test]
    fn a_table_of_another_sheet_is_not_shown() {
        let task = |lock| Task { period: 10, lock, frames: vec![2], deadlines: vec![4] };
        let set = |version, lock| Set { version, policy: 0, tasks: vec![task(lock)] };
        let sheet = |version, lock| library::write(&set(version, lock)).expect("an answer").expect("a sheet");
        for version in [1, 2] {
            assert!(admitted(&set(version, 1), &sheet(version, 1)).is_ok());
            for other in [sheet(version, 2), sheet(3 - version, 1)] {
                assert!(matches!(admitted(&set(version, 1), &other), Err(Trouble::Disagreement(_))));
            }
        }
    }
}
