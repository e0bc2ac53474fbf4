//! `script show`: a run script as the text that `script compose` reads.
use crate::explain;
use crate::input::{self, Pipes};
use crate::json::{array, Object};
use crate::library;
use crate::names::Name;
use crate::output::Output;
use crate::play_json;
use crate::plays::{self, Refused, ScriptRefusal};
use crate::script::{length, Entry, Script, MOST_BYTES};
use crate::script_faults::{self, bytes_words, Part, ScriptFault};
use crate::script_text::{self, Widths, MISSING, SURPLUS};
use crate::set::Set;
use crate::status::{Status, Trouble};
use crate::table::MARK;
use crate::words::{self, counted, entries, UNITS};

pub fn run(json: bool, sheet: &Name, script: &Name, output: &mut Output) -> Result<Status, Trouble> {
    let mut pipes = Pipes::default();
    let inputs = input::next_sheet(sheet, &mut pipes).and_then(|bytes| Ok((bytes, input::next_script(script, &mut pipes)?)));
    let (sheet_bytes, bytes) = match inputs {
        Ok(inputs) => inputs,
        Err(trouble) => return play_json::unread(json, sheet, script, trouble, output),
    };
    let set = match library::read(&sheet_bytes)? {
        Ok(set) => set,
        Err(refusal) => {
            output.put(explain::refused_before(json, sheet, refusal, &sheet_bytes, (script, &bytes))?.as_bytes())?;
            return Ok(Status::Refused);
        }
    };
    match plays::play(&sheet_bytes, &bytes)? {
        Ok(_) => {
            script_faults::none(&bytes, &set)?;
            let fields = Script::of(&bytes, set.tasks.len()).ok_or_else(unread_script)?;
            if json { put_json(sheet, script, &fields, output) } else { put_text(&fields, output) }?;
            Ok(Status::Done)
        }
        Err(Refused::Script(refusal)) => {
            let fault = script_faults::of(refusal, &bytes, &set)?;
            match json {
                true => output.put(play_json::refused(sheet, script, refusal, &fault).as_bytes())?,
                false => put_refused(refusal, &fault, &bytes, &set, output)?,
            }
            Ok(Status::Refused)
        }
        Err(Refused::Sheet(_)) => Err(Trouble::disagreement("reading and playing")),
    }
}

fn unread_script() -> Trouble {
    Trouble::Disagreement("the library plays a script that the command cannot read".to_string())
}

/// Row by row: a script may have millions.
fn put_text(script: &Script, output: &mut Output) -> Result<(), Trouble> {
    let widths = Widths::of(script.entries());
    output.put(format!("{}{}\n", script_text::head(script), widths.columns()).as_bytes())?;
    script.entries().try_for_each(|entry| output.put(format!("{}\n", widths.row(entry)).as_bytes()))
}

/// Entry by entry, as the text.
fn put_json(sheet: &Name, name: &Name, script: &Script, output: &mut Output) -> Result<(), Trouble> {
    let object = Object::new().text("file", &name.plain()).text("sheet", &sheet.plain()).truth("admitted", true);
    let object = object.number("tasks", script.tasks() as u64).raw("first_frames", &array(script.first_frames()));
    let object = object.number("entries", script.count() as u64).raw("list", "[").close();
    output.put(object.trim_end_matches('}').as_bytes())?;
    for (number, entry) in script.entries().enumerate() {
        output.put(if number == 0 { b"" } else { b"," })?;
        output.put(entry_object(entry).as_bytes())?;
    }
    output.put(b"]}\n")
}

fn entry_object(entry: Entry) -> String {
    let Entry { task, tick, work, lock } = entry;
    Object::new().number("task", task).number("tick", tick).number("work", work).number("lock", lock).close()
}

/// Entries that the count says and the bytes have not, or bytes behind those that it says: a line that `script compose` refuses, comment or not.
fn put_apart(script: &Script, bytes: &[u8], output: &mut Output) -> Result<(), Trouble> {
    let (count, there) = (script.count(), script.entries_there());
    let behind = bytes.len().saturating_sub(length(script.tasks(), count));
    let (what, words) = match (count - there, behind) {
        (0, 0) => return Ok(()),
        (0, _) => {
            let more = counted(behind as u64, "byte") + if bytes.len() > MOST_BYTES { " or more" } else { "" };
            (format!("{SURPLUS} {more}"), format!("the count says {}, the bytes go on behind", entries(count)))
        }
        (missing, _) => (format!("{MISSING} {}", entries(missing)), format!("the count says {}, the bytes have {there}", entries(count))),
    };
    output.put(format!("{what}   # {MARK} {words}\n").as_bytes())
}

/// What can be read, with the fault marked. The first line is no comment, so that nobody composes it unawares.
fn put_refused(refusal: ScriptRefusal, fault: &ScriptFault, bytes: &[u8], set: &Set, output: &mut Output) -> Result<(), Trouble> {
    let tasks = set.tasks.len();
    let mark = |part: Part| fault.of_part(part).map_or(String::new(), |words| format!("   # {MARK} {words}"));
    let mark_item = |item: usize| if refusal.item() == Some(item) { mark(Part::Item) } else { String::new() };
    let mut text = format!("{}: {}\n", words::script_refused(refusal), words::short(refusal.number()));
    text += &format!("# What can be read of the refused script; an arrow marks the fault. {UNITS}\n");
    text += &format!("# length {}{}\n", bytes_words(bytes.len()), mark(Part::Length));
    let Some(script) = Script::of(bytes, tasks) else { return output.put(text.as_bytes()) };
    if refusal == ScriptRefusal::Whole {
        text += "# The fields below are shown as they stand, and any of them may be spoiled.\n";
    }
    // what is longer than every script was not read to its end
    let word = if bytes.len() > MOST_BYTES { "not read".to_string() } else { format!("{:04X}", script.stated_word()) };
    text += &format!("# check word {word}{}\n# count: {}\n", mark(Part::CheckWord), entries(script.count()));
    let frames_mark = (0..tasks).map(&mark_item).collect::<String>();
    let widths = Widths::of(script.entries());
    text += &format!("{}{frames_mark}\n{}\n", script_text::frames_line(&script.first_frames()), widths.columns());
    output.put(text.as_bytes())?;
    for (number, entry) in script.entries().enumerate() {
        output.put(format!("{}{}\n", widths.row(entry), mark_item(tasks + number)).as_bytes())?;
    }
    put_apart(&script, bytes, output)?;
    match (script.fill(), fault.of_part(Part::Fill)) {
        (Some(fill), Some(_)) => output.put(format!("# fill bits {fill}{}\n", mark(Part::Fill)).as_bytes()),
        _ => Ok(()),
    }
}
