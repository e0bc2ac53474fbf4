//! `compose`: a sheet from a table, by the library's writer.
use crate::delivery::Made;
use crate::faults::{self, Part};
use crate::input;
use crate::library::{self, Refusal};
use crate::names::Name;
use crate::output::{complain, Output};
use crate::set::{Set, MOST_TASKS};
use crate::status::{Status, Trouble};
use crate::table::{self, Table, Told};
use crate::words;

/// No table of sixteen tasks comes near this many bytes.
const MOST_BYTES: usize = 1 << 20;

pub fn run(name: &Name, version: Option<u32>, to: Option<&Name>, output: &mut Output) -> Result<Status, Trouble> {
    let text = input::at_most(MOST_BYTES + 1, name)?;
    if text.len() > MOST_BYTES {
        return Err(Trouble::File(name.clone(), format!("more than {MOST_BYTES} bytes: this is no task table")));
    }
    let table = table::parse(&text).map_err(|bad| Trouble::Line(name.clone(), bad.line, bad.words))?;
    one_version(name, &table, version)?;
    let set = table.set(version);
    match library::write(&set)? {
        Ok(sheet) => {
            read_back(&sheet, set)?;
            let made = Made { not_for_a_terminal: "a sheet is no text", of: &[(name, "the table")] };
            made.deliver(&sheet, to, output).map(|()| Status::Done)
        }
        Err(refusal) => {
            complain(&refused(name, &table, &set, refusal)?);
            Ok(Status::Refused)
        }
    }
}

/// What is asked for must not be another version than the table tells.
fn one_version(name: &Name, table: &Table, asked: Option<u32>) -> Result<(), Trouble> {
    match (table.version, asked) {
        (Some(Told { version, line }), Some(asked)) if version != asked => {
            let words = format!("the table tells version {version}, and --to {asked} was given: take one of them away");
            Err(Trouble::Line(name.clone(), line, words))
        }
        _ => Ok(()),
    }
}

/// The sheet must be read to the table's own version, policy and tasks.
fn read_back(sheet: &[u8], set: Set) -> Result<(), Trouble> {
    match library::read(sheet)? == Ok(set) {
        true => Ok(()),
        false => Err(Trouble::Disagreement("the sheet is not read to the set of the table".to_string())),
    }
}

/// The refusal at the line of the table that it is about.
fn refused(name: &Name, table: &Table, set: &Set, refusal: Refusal) -> Result<Trouble, Trouble> {
    let fault = faults::of_list(refusal, set)?;
    let line = match fault.part {
        Part::Task(task) => table.task_lines.get(task).copied(),
        Part::Policy => Some(table.policy_line),
        Part::Version => table.version.map(|told| told.line),
        // the first task too many, or none at all
        _ => table.task_lines.get(MOST_TASKS).copied(),
    };
    let line = line.unwrap_or(table.columns_line);
    let advice = if fault.advice.is_empty() { String::new() } else { format!(". {}", fault.advice) };
    Ok(Trouble::Line(name.clone(), line, format!("{}: {}{advice}", words::refused(refusal), fault.words)))
}

#[cfg(test)]
mod tests {
    use super::*;

    fn set(version: u32, policy: u32, lock: u32) -> Set {
        let text = format!("version {version}\npolicy {policy}\ntask period deadline lock frames\n0 10 4 {lock} 2\n");
        table::parse(text.as_bytes()).expect("a table").set(None)
    }

    /// A sheet is written only of the very set that it is read to.
    #[test]
    fn a_sheet_of_another_table_is_not_written() {
        let sheet = library::write(&set(1, 1, 2)).expect("an answer").expect("a sheet");
        assert!(read_back(&sheet, set(1, 1, 2)).is_ok());
        for other in [set(1, 1, 1), set(1, 0, 2), set(2, 1, 2)] {
            assert!(matches!(read_back(&sheet, other), Err(Trouble::Disagreement(_))));
        }
        assert!(matches!(read_back(&sheet[1..], set(1, 1, 2)), Err(Trouble::Disagreement(_))));
    }
}
