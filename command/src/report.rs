//! `report`: the library's report, byte for byte.
use crate::answers::status_of;
use crate::findings::report_and_analysis;
use crate::input;
use crate::names::Name;
use crate::output::Output;
use crate::status::{Status, Trouble};

/// The status is the analysis's, which the text agrees with.
pub fn run(name: &Name, output: &mut Output) -> Result<Status, Trouble> {
    let (text, answer) = report_and_analysis(&input::sheet(name)?)?;
    output.put(&text)?;
    Ok(status_of(&answer))
}
