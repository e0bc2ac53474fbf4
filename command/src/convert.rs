//! `convert`: a sheet of one version from a sheet of the other, by the library's converter.
use crate::delivery::Made;
use crate::names::Name;
use crate::output::{tell, Output};
use crate::set::{other_version, Set};
use crate::status::{Status, Trouble};
use crate::{explain, faults, input, library};

pub fn run(version: u32, name: &Name, to: Option<&Name>, output: &mut Output) -> Result<Status, Trouble> {
    let sheet = input::sheet(name)?;
    match library::convert(version, &sheet)? {
        Ok(converted) => {
            same_set(version, &sheet, &converted)?;
            let made = Made { not_for_a_terminal: "a sheet is no text", of: &[(name, "the sheet")] };
            made.deliver(&converted, to, output).map(|()| Status::Done)
        }
        Err(refusal) => {
            tell(&explain::refused(name, refusal, &faults::of_conversion(refusal, version, &sheet)?));
            Ok(Status::Refused)
        }
    }
}

/// Both sheets must be read to the same policy and tasks, and the way back must give the first again.
fn same_set(version: u32, sheet: &[u8], converted: &[u8]) -> Result<(), Trouble> {
    let expected = library::read(sheet)?.map(|set| Set { version, ..set });
    let back = library::convert(other_version(version), converted)?;
    let same = expected.is_ok() && library::read(converted)? == expected && back.as_deref() == Ok(sheet);
    same.then_some(()).ok_or_else(|| Trouble::disagreement("reading and converting"))
}

#[cfg(test)]
mod tests {
    use super::*;
    use crate::set::Task;

    /// A sheet is written only of the very set that was converted, in the version asked for.
    #[test]
    fn a_sheet_of_another_set_is_not_written() {
        let sheet = |version, policy, deadline| {
            let tasks = vec![Task { period: 10, lock: 0, frames: vec![2, 1], deadlines: vec![4, deadline] }];
            library::write(&Set { version, policy, tasks }).expect("an answer").expect("a sheet")
        };
        assert!(same_set(2, &sheet(1, 1, 4), &sheet(2, 1, 4)).is_ok() && same_set(1, &sheet(2, 1, 4), &sheet(1, 1, 4)).is_ok());
        for other in [sheet(2, 0, 4), sheet(2, 1, 5), sheet(1, 1, 4), Vec::new()] {
            assert!(matches!(same_set(2, &sheet(1, 1, 4), &other), Err(Trouble::Disagreement(_))), "{other:?}");
        }
    }
}
