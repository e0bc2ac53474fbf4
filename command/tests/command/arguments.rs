//! What can be asked for, and what cannot.
use crate::running::{run, shell, shipped_one, Folder, ROOT};

#[test]
fn wrong_words_are_usage_errors() {
    let lines = "|frobnicate|check --quiet|check -x a|check -qq|check - -|check a - b -|report a b|report --json a|report -q|explain a b|\
                 explain -q a|show a b|show -o x|compose a b|compose -o|compose -o a -o b|compose --json|compose --to|compose --to 0|compose --to 3|compose --to 1 --to 2|\
                 convert|convert s|convert --to|convert --to x s|convert --to 2 s t|convert --to 2 --to 2 s|convert --to 2 --json s|show --to 2 s|refusals x|refusals -q|help nosuch|\
                 play|play s|play - -|play s r x|play s r --last|play s r --last x|play s r --last 3 --json|play s r -q|worst|worst s r|worst --json s|worst - -|\
                 draw|draw s r x|draw s --json|draw s --from|draw s --to -1|draw s -o|script|script nosuch|script compose s|\
                 script compose s t x|script show s|script show s r -o x|script show s r --last 3|script -h x|script show -h x|help script x|\
                 help check show|help -h|--help nosuch|--help check|-h x|--version x|--version -h|--json|-q|-|--|\
                 check x -h|check -h x|check -q --help|check -h -h|compose -o x -h|refusals -h x|refusals --version";
    for line in lines.split('|') {
        let words: Vec<&str> = line.split_whitespace().collect();
        let ran = run(&words);
        let message = ran.failed(3);
        assert!(message.starts_with("burrbeech: ") && message.contains("burrbeech --help"), "{line}: {message}");
    }
}

#[test]
fn odd_words_are_shown_with_escapes() {
    let ran = run(&["check", "--\u{1b}[2J\nholds"]);
    assert!(ran.failed(3).contains("\"--\\u{1b}[2J\\nholds\""));
    assert_eq!(ran.err.lines().count(), 2);
}

#[test]
fn help_is_given_in_each_way() {
    let help = run(&["--help"]);
    assert!(help.done(0).contains("Exit status"));
    for words in [["-h"].as_slice(), &["help"], &["help", "help"]] {
        assert_eq!(run(words).done(0), help.text());
    }
    for verb in ["check", "report", "explain", "show", "compose", "convert", "play", "worst", "draw", "refusals"] {
        let text = run(&["help", verb]);
        assert!(text.done(0).starts_with(&format!("usage: burrbeech {verb}")));
        for words in [[verb, "--help"], [verb, "-h"]] {
            assert_eq!(run(&words).done(0), text.text());
        }
    }
    let both: Vec<String> = ["compose", "show"].map(|verb| run(&["help", "script", verb]).done(0).to_string()).to_vec();
    for (verb, text) in ["compose", "show"].iter().zip(&both) {
        assert!(text.starts_with(&format!("usage: burrbeech script {verb}")));
        assert_eq!(run(&["script", verb, "--help"]).done(0), text);
    }
    assert_eq!(run(&["help", "script"]).done(0), both.join("\n"));
    assert_eq!(run(&["script", "-h"]).done(0), both.join("\n"));
}

/// In a folder with such a name, all its files are no question for help.
#[test]
fn a_file_named_as_the_help_hides_no_miss() {
    let folder = Folder::new("help-names");
    std::fs::copy(shipped_one("g"), folder.0.join("g.sheet")).unwrap();
    for name in ["-h", "--help"] {
        std::fs::copy(shipped_one("g"), folder.0.join(name)).unwrap();
        assert!(shell(&folder.0, "\"$0\" check *").failed(3).contains(&format!("a file of that name is ./{name}")));
    }
    assert_eq!(shell(&folder.0, "\"$0\" check -- *").status, 1);
}

#[test]
fn the_version_is_the_headers() {
    let header = std::fs::read_to_string(format!("{ROOT}/include/burrbeech.h")).unwrap();
    let version = header.split("#define BURRBEECH_VERSION \"").nth(1).unwrap().split('"').next().unwrap();
    assert_eq!(run(&["--version"]).done(0), format!("burrbeech {version}\n"));
}

#[test]
fn each_refusal_has_the_words_of_the_header() {
    let header = std::fs::read_to_string(format!("{ROOT}/include/burrbeech.h")).unwrap();
    let ran = run(&["refusals"]);
    let lines: Vec<&str> = ran.done(0).lines().collect();
    let numbers: Vec<u32> = (1..=14).chain([17]).collect();
    assert_eq!(lines.len(), numbers.len());
    for (line, expected) in lines.iter().zip(numbers) {
        let (number, words) = line.trim_start().split_once("  ").unwrap();
        assert_eq!(number, expected.to_string());
        assert!(header.contains(&format!("return \"{words}\";")), "{line}");
    }
}
