//! `second`: the second program for use by hand. Nothing here is proved; the proved report program is `report`.
use second::{cases, report, sheet};
use std::io::{Read, Write};
use std::process::ExitCode;

const USAGE: &str = "second report < sheet   the report of a sheet
second sheets DIR       writes the cases A to O as DIR/*.sheet
This program is unproved: it is the second reading that the proved code is compared with.";

fn main() -> ExitCode {
    let words: Vec<String> = std::env::args().skip(1).collect();
    let words: Vec<&str> = words.iter().map(String::as_str).collect();
    let done = match words.as_slice() {
        ["report"] => sheet_from_input().and_then(|bytes| put(report::report(&bytes).as_bytes())),
        ["sheets", directory] => write_sheets(directory),
        _ => Err(USAGE.to_string()),
    };
    match done {
        Ok(()) => ExitCode::SUCCESS,
        Err(message) => {
            eprintln!("{message}");
            ExitCode::FAILURE
        }
    }
}

/// Standard input, but no more than one byte past the greatest sheet: that byte decides.
fn sheet_from_input() -> Result<Vec<u8>, String> {
    let mut bytes = Vec::new();
    let most = sheet::GREATEST as u64 + 1;
    std::io::stdin().take(most).read_to_end(&mut bytes).map_err(|e| e.to_string())?;
    Ok(bytes)
}

fn put(bytes: &[u8]) -> Result<(), String> {
    std::io::stdout().write_all(bytes).map_err(|e| e.to_string())
}

fn write_sheets(directory: &str) -> Result<(), String> {
    for (name, bytes) in cases::sheets() {
        let path = std::path::Path::new(directory).join(name);
        std::fs::write(&path, bytes).map_err(|e| format!("{}: {e}", path.display()))?;
    }
    Ok(())
}
