//! `explain --json`: the object of `check`, with the set, the times and the terms of the demand.
use crate::answers::{refusal_object, verdict_object};
use crate::demand::Demand;
use crate::explain::{deadline_demand, slack};
use crate::faults::Fault;
use crate::findings::{Finding, Findings};
use crate::json::{array, Object};
use crate::library::{Refusal, Verdict};
use crate::names::Name;
use crate::set::policy_name;
use crate::show_json::task_object;
use crate::status::Trouble;

pub fn refused(name: &Name, refusal: Refusal, fault: &Fault) -> String {
    let object = refusal_object(name, refusal).text("fault", &fault.words).text("advice", &fault.advice);
    object.close() + "\n"
}

pub fn judged(name: &Name, findings: &Findings) -> Result<String, Trouble> {
    let Findings { set, verdict, ordered } = findings;
    let list = (0..set.tasks.len()).filter_map(|task| ordered.iter().find(|finding| finding.task == task));
    let list = array(list.map(|finding| finding_object(findings, finding)));
    let object = verdict_object(name, *verdict, set.tasks.len(), set.version)
        .number("policy", set.policy)
        .text("policy_name", policy_name(set.policy).unwrap_or_default())
        .raw("order", &array(ordered.iter().map(|finding| finding.task)))
        .raw("list", &list);
    let object = match verdict {
        Verdict::Holds => object,
        Verdict::Missed { task, .. } => object.raw("demand", &demand_object(findings, *task)?),
    };
    Ok(object.close() + "\n")
}

fn finding_object(findings: &Findings, finding: &Finding) -> String {
    let task = &findings.set.tasks[finding.task];
    let object = task_object(finding.task, task).number("blocking", finding.blocking).task("blocker", finding.blocker);
    let object = object.truth("passes", finding.times.is_some());
    let object = match &finding.times {
        Some(times) => {
            let slacks = array(times.iter().enumerate().map(|(frame, &time)| slack(task, frame, time)));
            object.raw("times", &array(times)).raw("slack", &slacks)
        }
        None => object.raw("times", "null").raw("slack", "null"),
    };
    object.close()
}

/// The demand of the missed task's first frame without a response time, at that frame's deadline.
fn demand_object(findings: &Findings, task: usize) -> Result<String, Trouble> {
    let place = findings.ordered.iter().position(|finding| finding.task == task).expect("the missed task has a place");
    let demand = deadline_demand(findings, place)?;
    let Demand { frame, at, blocking, own, total, .. } = demand;
    let higher = array(demand.higher.iter().map(|jobs| {
        let object = Object::new().number("task", jobs.task as u64).number("jobs", jobs.count);
        object.number("start_frame", jobs.start_frame as u64).number("work", jobs.work).close()
    }));
    let object = Object::new().number("task", task as u64).number("frame", frame as u64).number("at", at);
    let object = object.number("blocking", blocking).number("own", own).raw("higher", &higher);
    Ok(object.number("total", total).number("excess", total - u64::from(at)).close())
}
