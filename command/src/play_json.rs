//! `play --json` and what it shares with the other verbs on scripts.
use crate::course::{due, Course, Job};
use crate::json::{array, Object};
use crate::names::Name;
use crate::output::Output;
use crate::play::{tallies, Tally};
use crate::plays::ScriptRefusal;
use crate::script_faults::ScriptFault;
use crate::set::Set;
use crate::status::{Status, Trouble};
use crate::words;

/// The fields that every object about a script starts with.
fn object(sheet: &Name, script: &Name) -> Object {
    Object::new().text("file", &script.plain()).text("sheet", &sheet.plain())
}

pub fn played(sheet: &Name, script: &Name, course: &Course) -> String {
    let (set, play) = (&course.findings.set, course.play);
    let verdict = if play.missed.is_some() { "missed" } else { "done" };
    let object = object(sheet, script).text("verdict", verdict).number("tasks", set.tasks.len() as u64);
    let object = object.number("tick", play.tick).task("task", play.missed);
    let object = match course.missed_job() {
        Some(job) => {
            let also = |job: &Job| missed_fields(Object::new().number("task", job.task), set, job).close();
            missed_fields(object, set, job).raw("also", &array(course.also_missed.iter().map(also)))
        }
        None => object,
    };
    let object = object.number("jobs", course.jobs.len() as u64);
    let object = object.raw("order", &array(course.findings.ordered.iter().map(|finding| finding.task)));
    let mut list = tallies(course);
    list.sort_by_key(|tally| tally.task);
    object.raw("list", &array(list.iter().map(tally_object))).close() + "\n"
}

/// What is said of a job that misses.
fn missed_fields(object: Object, set: &Set, job: &Job) -> Object {
    let object = object.number("released", job.released).number("frame", job.frame).number("due", due(set, job));
    object.number("work", job.work).number("left", job.left)
}

fn tally_object(tally: &Tally) -> String {
    let object = Object::new().number("task", tally.task as u64).number("jobs", tally.jobs as u64).number("done", tally.done as u64);
    let longest = tally.longest.and_then(|job| {
        let object = Object::new().number("ticks", job.took()?).number("released", job.released);
        Some(object.number("frame", u64::from(job.frame)).close())
    });
    object.raw("longest", &longest.unwrap_or("null".to_string())).close()
}

pub fn refused(sheet: &Name, script: &Name, refusal: ScriptRefusal, fault: &ScriptFault) -> String {
    let object = object(sheet, script).text("verdict", "refused").number("refusal", refusal.number());
    let object = object.task("item", refusal.item()).text("words", words::short(refusal.number()));
    object.text("fault", &fault.words()).text("advice", &fault.advice).close() + "\n"
}

/// With JSON there is an object for what could not be read, too.
pub fn unread(json: bool, sheet: &Name, script: &Name, trouble: Trouble, output: &mut Output) -> Result<Status, Trouble> {
    if json {
        let words = match &trouble {
            Trouble::File(name, words) => format!("{}: {words}", name.told()),
            _ => "not read".to_string(),
        };
        output.put((object(sheet, script).raw("verdict", "null").text("error", &words).close() + "\n").as_bytes())?;
        output.flush()?;
    }
    Err(trouble)
}
