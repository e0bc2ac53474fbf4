//! `burrbeech`, the command: it moves files, words, pictures and exit codes. Every verdict, every time, every refusal, every sheet, the end
//! and the ticks of every play and every worst run come from the proved library; what is added in words is checked against its answers
//! where it can be.
#![deny(unsafe_code)]
mod answers;
mod arguments;
mod check;
mod compose;
mod convert;
mod course;
mod delivery;
mod demand;
mod draw;
mod explain;
mod explain_json;
mod faults;
mod findings;
mod frames;
mod help;
mod input;
mod json;
mod lanes;
mod legend;
mod lettering;
mod library;
mod names;
mod output;
mod panel;
mod picture;
mod play;
mod play_json;
mod plays;
mod report;
mod script;
mod script_compose;
mod script_faults;
mod script_show;
mod script_text;
mod set;
mod sheet_bits;
mod show;
mod show_json;
mod status;
mod streams;
mod svg;
mod table;
mod whole_file;
mod words;
mod worst;

use arguments::Request;
use output::Output;
use status::{Status, Trouble};
use std::process::ExitCode;

fn main() -> ExitCode {
    end_with_trouble_on_panic();
    let mut output = Output::new();
    let done = arguments::parse(std::env::args_os().skip(1)).and_then(|request| run(request, &mut output));
    let status = done.and_then(|status| output.finish().map(|()| status)).unwrap_or_else(|trouble| {
        output::complain(&trouble);
        Status::Trouble
    });
    ExitCode::from(status as u8)
}

fn run(request: Request, output: &mut Output) -> Result<Status, Trouble> {
    match request {
        Request::Help(topic) => output.put(help::text(&topic).as_bytes()).map(|()| Status::Done),
        Request::Version => output.put(help::version().as_bytes()).map(|()| Status::Done),
        Request::Refusals => output.put(words::refusals().as_bytes()).map(|()| Status::Done),
        Request::Check(options) => check::run(&options, output),
        Request::Report(source) => report::run(&source, output).map_err(|trouble| trouble.about(&source)),
        Request::Explain { json, source } => explain::run(json, &source, output).map_err(|trouble| trouble.about(&source)),
        Request::Show { json, source } => show::run(json, &source, output).map_err(|trouble| trouble.about(&source)),
        Request::Play(options) => play::run(&options, output).map_err(|trouble| trouble.about(&options.script)),
        Request::Worst { json, sheet, to } => worst::run(json, &sheet, to.as_ref(), output).map_err(|trouble| trouble.about(&sheet)),
        Request::Draw(options) => draw::run(&options, output).map_err(|trouble| trouble.about(&options.sheet)),
        Request::ScriptCompose { sheet, text, to } => {
            script_compose::run(&sheet, &text, to.as_ref(), output).map_err(|trouble| trouble.about(&text))
        }
        Request::ScriptShow { json, sheet, script } => {
            script_show::run(json, &sheet, &script, output).map_err(|trouble| trouble.about(&script))
        }
        Request::Compose { table, version, to } => {
            compose::run(&table, version, to.as_ref(), output).map_err(|trouble| trouble.about(&table))
        }
        Request::Convert { version, sheet, to } => {
            convert::run(version, &sheet, to.as_ref(), output).map_err(|trouble| trouble.about(&sheet))
        }
    }
}

/// A fault of the command itself is status 3 too, so that no verdict can be read from it.
fn end_with_trouble_on_panic() {
    std::panic::set_hook(Box::new(|fault| {
        output::complain(&Trouble::Disagreement(fault.to_string()));
        std::process::exit(Status::Trouble as i32);
    }));
}
