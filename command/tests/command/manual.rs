//! The manual page and the help say the same verbs and options.
use crate::running::{run, ROOT};

/// The manual page without the marks of its fonts.
fn manual() -> String {
    let text = std::fs::read_to_string(format!("{ROOT}/docs/burrbeech.1")).unwrap();
    [("\\fB", ""), ("\\fI", ""), ("\\fR", ""), ("\\-", "-")].iter().fold(text, |text, (mark, plain)| text.replace(mark, plain))
}

/// The lines that say how a verb is called.
fn usages(text: &str) -> Vec<String> {
    let lines = text.lines().map(str::trim).filter(|line| line.starts_with("burrbeech ") && !line.starts_with("burrbeech -"));
    let mut usages: Vec<String> = lines.map(|line| line.split("  ").next().unwrap_or(line).to_string()).collect();
    usages.sort();
    usages
}

#[test]
fn the_verbs_of_the_help_are_those_of_the_manual() {
    let help = run(&["--help"]);
    let help: Vec<String> = usages(help.done(0)).into_iter().filter(|line| !line.starts_with("burrbeech decides")).collect();
    let manual = manual();
    let synopsis = manual.split(".SH SYNOPSIS").nth(1).unwrap().split(".SH ").next().unwrap();
    assert_eq!(usages(synopsis), help);
    assert_eq!(help.len(), 13);
    let verbs = manual.split(".SH VERBS").nth(1).unwrap().split(".SH ").next().unwrap();
    for usage in help {
        let entry = usage.strip_prefix("burrbeech ").unwrap();
        assert!(verbs.contains(&format!(".TP\n{entry}\n")) || verbs.contains(&format!(".TP\n.B {entry}\n")), "{entry}");
    }
}

#[test]
fn each_field_of_the_objects_is_documented() {
    let manual = manual();
    let json = manual.split(".SH JSON").nth(1).unwrap().split(".SH ").next().unwrap();
    for verb in ["check", "explain", "show", "play", "worst", "script show"] {
        let words: Vec<&str> = ["help"].into_iter().chain(verb.split(' ')).collect();
        let help = run(&words);
        let quoted = help.done(0).split('"').skip(1).step_by(2);
        let fields: Vec<&str> = quoted.filter(|word| word.chars().all(|c| c.is_ascii_lowercase() || c == '_')).collect();
        assert!(!fields.is_empty(), "{verb}: no field is said");
        for field in fields {
            let said = json.split(|c: char| !(c.is_ascii_lowercase() || c == '_')).any(|word| word == field);
            assert!(said, "{verb}: {field}");
        }
    }
}
