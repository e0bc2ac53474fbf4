//! `script compose`: a run script from its text. The command packs and seals the bytes, the library judges them.
use crate::delivery::Made;
use crate::input::{self, Pipes};
use crate::library;
use crate::names::Name;
use crate::output::{complain, tell, Output};
use crate::plays::{self, Refused, ScriptRefusal};
use crate::script::{self, Script};
use crate::set::Set;
use crate::status::{Status, Trouble};
use crate::{explain, script_faults, script_text, words};

/// The text of the longest script has fewer bytes.
const MOST_TEXT: usize = 1 << 30;

pub fn run(sheet: &Name, text: &Name, to: Option<&Name>, output: &mut Output) -> Result<Status, Trouble> {
    let mut pipes = Pipes::default();
    let sheet_bytes = input::next_sheet(sheet, &mut pipes)?;
    let set = match library::read(&sheet_bytes)? {
        Ok(set) => set,
        Err(refusal) => {
            tell(&(explain::refused_sheet(false, sheet, refusal, &sheet_bytes)? + &swapped_line(text)?));
            return Ok(Status::Refused);
        }
    };
    let lines = input::next_at_most(MOST_TEXT + 1, text, &mut pipes)?;
    if lines.len() > MOST_TEXT {
        return Err(Trouble::File(text.clone(), format!("more than {MOST_TEXT} bytes: this is no run script")));
    }
    let parsed = script_text::parse(&lines, set.tasks.len()).map_err(|bad| Trouble::Line(text.clone(), bad.line, bad.words))?;
    let bytes = script::write(&parsed.first_frames, &parsed.entries);
    match plays::play(&sheet_bytes, &bytes)? {
        Ok(_) => {
            script_faults::none(&bytes, &set)?;
            read_back(&bytes, &parsed)?;
            let made = Made { not_for_a_terminal: "a script is no text", of: &[(text, "the text"), (sheet, "the sheet")] };
            made.deliver(&bytes, to, output).map(|()| Status::Done)
        }
        Err(Refused::Script(refusal @ ScriptRefusal::Item(item))) => {
            complain(&Trouble::Line(text.clone(), parsed.line_of(item), refused(refusal, &bytes, &set)?));
            Ok(Status::Refused)
        }
        // the sheet was read, and what the command packs has its length, fill and check word
        Err(_) => Err(Trouble::Disagreement("a script that was just made is refused as a whole, or its sheet".to_string())),
    }
}

/// The hint that sheet and text may be swapped. Only a regular file is looked at: another could keep the user waiting.
fn swapped_line(text: &Name) -> Result<String, Trouble> {
    if !input::metadata(text).is_ok_and(|known| known.is_file()) {
        return Ok(String::new());
    }
    let hint = match input::sheet(text) {
        Ok(bytes) => explain::swapped((text, &bytes), "text")?,
        Err(_) => None,
    };
    Ok(hint.map_or(String::new(), |hint| hint + "\n"))
}

/// The fields of the bytes must be the text's own.
fn read_back(bytes: &[u8], parsed: &script_text::ScriptText) -> Result<(), Trouble> {
    let same = Script::of(bytes, parsed.first_frames.len())
        .is_some_and(|script| script.first_frames() == parsed.first_frames && script.entries().eq(parsed.entries.iter().copied()));
    same.then_some(()).ok_or_else(|| Trouble::Disagreement("the script is not read to the text's numbers".to_string()))
}

fn refused(refusal: ScriptRefusal, bytes: &[u8], set: &Set) -> Result<String, Trouble> {
    let fault = script_faults::of(refusal, bytes, set)?;
    let advice = if fault.advice.is_empty() { String::new() } else { format!(". {}", fault.advice) };
    Ok(format!("{}: {}{advice}", words::script_refused(refusal), fault.words()))
}
