//! `show --json`: the set of a sheet, or the fields of a refused one as far as they can be read.
use crate::answers::refusal_object;
use crate::faults::Fault;
use crate::json::{array, Object};
use crate::library::Refusal;
use crate::names::Name;
use crate::set::{policy_name, Set, Task};
use crate::sheet_bits::{self, RecordBits, SheetBits};

/// Number, period, the smallest deadline, lock, frames and the deadline of each.
pub fn task_object(number: usize, task: &Task) -> Object {
    object_with(number, task, task.smallest_deadline())
}

fn object_with(number: usize, task: &Task, deadline: Option<u32>) -> Object {
    let deadline = deadline.map_or("null".to_string(), |deadline| deadline.to_string());
    let object = Object::new().number("task", number as u64).number("period", task.period).raw("deadline", &deadline);
    object.number("lock", task.lock).raw("frames", &array(&task.frames)).raw("deadlines", &array(&task.deadlines))
}

pub fn admitted(name: &Name, set: &Set) -> String {
    let list = array(set.tasks.iter().enumerate().map(|(number, task)| task_object(number, task).close()));
    let object = Object::new().text("file", &name.plain()).truth("admitted", true).number("tasks", set.tasks.len() as u64);
    policy(object.number("version", set.version), set.policy).raw("list", &list).close() + "\n"
}

pub fn refused(name: &Name, refusal: Refusal, fault: &Fault, sheet: &[u8]) -> String {
    let object = refusal_object(name, refusal).text("fault", &fault.words).text("advice", &fault.advice).truth("admitted", false);
    let object = match sheet_bits::read(sheet) {
        Some(bits) => fields(object.number("length", sheet.len() as u64), &bits),
        None => object,
    };
    object.close() + "\n"
}

/// The fields in the sheet's order; `list` has the records that are there.
fn fields(object: Object, bits: &SheetBits) -> Object {
    let word = |word: u16| format!("{word:04X}");
    let object = object.text("check_word", &word(bits.stated_word)).text("computed_check_word", &word(bits.computed_word));
    let object = policy(object.number("version", bits.version), bits.policy).number("tasks", bits.task_count);
    let record = |(number, record): (usize, &RecordBits)| {
        let deadline = record.deadline.or(record.task.smallest_deadline());
        object_with(number, &record.task, deadline).number("frame_count", record.frame_count).close()
    };
    object.text("spare", &bits.spare).raw("list", &array(bits.records.iter().enumerate().map(record)))
}

fn policy(object: Object, policy: u32) -> Object {
    let object = object.number("policy", policy);
    match policy_name(policy) {
        Some(name) => object.text("policy_name", name),
        None => object.raw("policy_name", "null"),
    }
}
