//! What the command is asked for.
use crate::draw::DrawOptions;
use crate::help::{Topic, Verb};
use crate::names::{quoted_if_odd, Name};
use crate::play::PlayOptions;
use crate::set::{BY_FRAME, ONE_DEADLINE};
use crate::status::Trouble;
use std::ffi::{OsStr, OsString};

#[derive(Debug, PartialEq, Eq)]
pub enum Request {
    Help(Topic),
    Version,
    Refusals,
    Check(CheckOptions),
    Report(Name),
    Explain { json: bool, source: Name },
    Show { json: bool, source: Name },
    Compose { table: Name, version: Option<u32>, to: Option<Name> },
    Convert { version: u32, sheet: Name, to: Option<Name> },
    Play(PlayOptions),
    Worst { json: bool, sheet: Name, to: Option<Name> },
    Draw(DrawOptions),
    ScriptCompose { sheet: Name, text: Name, to: Option<Name> },
    ScriptShow { json: bool, sheet: Name, script: Name },
}

#[derive(Debug, PartialEq, Eq)]
pub struct CheckOptions {
    pub quiet: bool,
    pub json: bool,
    pub sources: Vec<Name>,
}

/// The words after a verb, sorted.
#[derive(Debug, Default)]
struct Given {
    quiet: bool,
    json: bool,
    to: Option<OsString>,
    /// `--last`, `--from` and `--to` with their numbers of ticks.
    last: Option<u32>,
    from_tick: Option<u32>,
    to_tick: Option<u32>,
    /// `--to` of a verb that makes a sheet.
    version: Option<u32>,
    names: Vec<OsString>,
}

pub fn parse(words: impl Iterator<Item = OsString>) -> Result<Request, Trouble> {
    let words: Vec<OsString> = words.collect();
    let Some((first, rest)) = words.split_first() else { return Err(usage("a verb is missing".to_string())) };
    match (Verb::named(&[first]), first.to_str()) {
        (Some(verb), _) => asked(verb, rest),
        (None, Some("script")) => script(rest),
        (None, Some("help")) => help(rest),
        (None, Some("--help" | "-h")) => alone(first, rest, Request::Help(Topic::All)),
        (None, Some("--version")) => alone(first, rest, Request::Version),
        (None, _) => Err(usage(format!("there is no verb {}", quoted_if_odd(first)))),
    }
}

/// A verb and the words after it.
fn asked(verb: Verb, rest: &[OsString]) -> Result<Request, Trouble> {
    match rest {
        [word] if is_help(word) => Ok(Request::Help(Topic::One(verb))),
        _ => request(verb, given(verb, rest.iter().cloned())?),
    }
}

/// `script` has two verbs of its own.
fn script(words: &[OsString]) -> Result<Request, Trouble> {
    let Some((second, rest)) = words.split_first() else { return Err(usage("script needs compose or show after it".to_string())) };
    match Verb::named(&[OsStr::new("script"), second]) {
        Some(verb) => asked(verb, rest),
        None if is_help(second) => alone(second, rest, Request::Help(Topic::Script)),
        None => Err(usage(format!("script needs compose or show after it, not {}", quoted_if_odd(second)))),
    }
}

fn is_help(word: &OsStr) -> bool {
    word == "-h" || word == "--help"
}

fn usage(words: String) -> Trouble {
    Trouble::Usage(words)
}

/// A word that takes no other.
fn alone(word: &OsStr, rest: &[OsString], request: Request) -> Result<Request, Trouble> {
    match rest.first() {
        None => Ok(request),
        Some(surplus) => Err(usage(format!("{} takes no {}", quoted_if_odd(word), quoted_if_odd(surplus)))),
    }
}

fn help(words: &[OsString]) -> Result<Request, Trouble> {
    let named: Vec<&OsStr> = words.iter().map(OsString::as_os_str).collect();
    match (Verb::named(&named), words) {
        (Some(verb), _) => Ok(Request::Help(Topic::One(verb))),
        (None, []) => Ok(Request::Help(Topic::All)),
        (None, [word]) if word == "help" => Ok(Request::Help(Topic::All)),
        (None, [word]) if word == "script" => Ok(Request::Help(Topic::Script)),
        (None, [word]) => Err(usage(format!("there is no help for {}", quoted_if_odd(word)))),
        _ => Err(usage("help takes one verb".to_string())),
    }
}

/// Options may stand anywhere before `--`.
fn given(verb: Verb, mut words: impl Iterator<Item = OsString>) -> Result<Given, Trouble> {
    let mut given = Given::default();
    while let Some(word) = words.next() {
        match word.to_str() {
            Some("--") => {
                given.names.extend(words);
                break;
            }
            _ if is_help(&word) => return Err(surplus_help(verb, &word)),
            Some(option) if verb.has(option) => take_option(verb, &mut given, option, &mut words)?,
            _ if is_option(&word) => return Err(usage(format!("{} has no option {}", verb.name(), quoted_if_odd(&word)))),
            _ => given.names.push(word),
        }
    }
    Ok(given)
}

/// Help beside files would stand for their verdict, and the word may be a file's name.
fn surplus_help(verb: Verb, word: &OsStr) -> Trouble {
    let (verb, word) = (verb.name(), quoted_if_odd(word));
    usage(format!("{word} is for help where it is the one word after {verb}; a file of that name is ./{word}"))
}

fn is_option(word: &OsStr) -> bool {
    word.len() > 1 && word.as_encoded_bytes()[0] == b'-'
}

/// An option that the verb has, with the word after it where it needs one.
fn take_option(verb: Verb, given: &mut Given, option: &str, words: &mut impl Iterator<Item = OsString>) -> Result<(), Trouble> {
    match option {
        "-q" => given.quiet = true,
        "--json" => given.json = true,
        "-o" => {
            let word = words.next().ok_or_else(|| usage("-o needs the name of a file".to_string()))?;
            once(option, given.to.replace(word))?;
        }
        "--last" => once(option, given.last.replace(number(option, words.next())?))?,
        "--from" => once(option, given.from_tick.replace(number(option, words.next())?))?,
        _ if verb == Verb::Draw => once(option, given.to_tick.replace(number(option, words.next())?))?,
        _ => once(option, given.version.replace(version(words.next())?))?,
    }
    Ok(())
}

/// Nothing may have been given before.
fn once<T>(option: &str, before: Option<T>) -> Result<(), Trouble> {
    match before {
        None => Ok(()),
        Some(_) => Err(usage(format!("{option} is given twice"))),
    }
}

/// The version of a sheet that is made.
fn version(word: Option<OsString>) -> Result<u32, Trouble> {
    let Some(word) = word else { return Err(usage("--to needs the version of the sheet, 1 or 2".to_string())) };
    match word.to_str() {
        Some("1") => Ok(ONE_DEADLINE),
        Some("2") => Ok(BY_FRAME),
        _ => Err(usage(format!("--to needs the version of the sheet, 1 or 2, which {} is not", quoted_if_odd(&word)))),
    }
}

/// A number of ticks.
fn number(option: &str, word: Option<OsString>) -> Result<u32, Trouble> {
    let Some(word) = word else { return Err(usage(format!("{option} needs a number of ticks"))) };
    let digits = word.to_str().filter(|digits| digits.bytes().all(|byte| byte.is_ascii_digit()));
    match digits.filter(|digits| !digits.is_empty()).map(str::parse) {
        Some(Ok(number)) => Ok(number),
        Some(Err(_)) => Err(usage(format!("{option} {} is more than any run has ticks", quoted_if_odd(&word)))),
        None => Err(usage(format!("{option} needs a number of ticks, which {} is not", quoted_if_odd(&word)))),
    }
}

fn request(verb: Verb, given: Given) -> Result<Request, Trouble> {
    let Given { quiet, json, to, last, from_tick, to_tick, version, names } = given;
    let to = to.map(target);
    match verb {
        Verb::Check => Ok(Request::Check(CheckOptions { quiet, json, sources: sources(names)? })),
        Verb::Report => Ok(Request::Report(source(verb, names)?)),
        Verb::Explain => Ok(Request::Explain { json, source: source(verb, names)? }),
        Verb::Show => Ok(Request::Show { json, source: source(verb, names)? }),
        Verb::Compose => Ok(Request::Compose { table: source(verb, names)?, version, to }),
        Verb::Convert => {
            let needs = || usage(format!("convert needs --to and a version, 1 or 2: burrbeech {}", verb.usage()));
            Ok(Request::Convert { version: version.ok_or_else(needs)?, sheet: source(verb, names)?, to })
        }
        Verb::Play if json && last.is_some() => Err(usage("play --json has no lanes: --last is for the words".to_string())),
        Verb::Play => {
            let (sheet, script) = two(verb, names)?;
            Ok(Request::Play(PlayOptions { json, last, sheet, script }))
        }
        Verb::Worst => worst(json, named(verb, names, 1, 1)?.remove(0), to),
        Verb::Draw => {
            let mut names = named(verb, names, 1, 2)?.into_iter();
            let (sheet, script) = (names.next().expect("one name at least"), names.next());
            Ok(Request::Draw(DrawOptions { sheet, script, to, from_tick, to_tick }))
        }
        Verb::ScriptCompose => {
            let (sheet, text) = two(verb, names)?;
            Ok(Request::ScriptCompose { sheet, text, to })
        }
        Verb::ScriptShow => {
            let (sheet, script) = two(verb, names)?;
            Ok(Request::ScriptShow { json, sheet, script })
        }
        Verb::Refusals if names.is_empty() => Ok(Request::Refusals),
        Verb::Refusals => Err(usage("refusals takes no file".to_string())),
    }
}

/// An object and a script cannot both go to standard output.
fn worst(json: bool, sheet: Name, to: Option<Name>) -> Result<Request, Trouble> {
    match to {
        Some(Name::File(_)) => Ok(Request::Worst { json, sheet, to }),
        _ if json => Err(usage("worst --json needs -o FILE: standard output is for the object then".to_string())),
        _ => Ok(Request::Worst { json, sheet, to }),
    }
}

/// A sheet and what goes with it.
fn two(verb: Verb, names: Vec<OsString>) -> Result<(Name, Name), Trouble> {
    let mut names = named(verb, names, 2, 2)?;
    let second = names.remove(1);
    Ok((names.remove(0), second))
}

/// So many files, each of which must be named; standard input once at most.
fn named(verb: Verb, names: Vec<OsString>, least: usize, most: usize) -> Result<Vec<Name>, Trouble> {
    if names.len() < least {
        return Err(usage(format!("{} needs {}: burrbeech {}", verb.name(), verb.needs(), verb.usage())));
    }
    if let Some(word) = names.get(most) {
        return Err(usage(format!("{} takes {}, and {} is one more", verb.name(), verb.needs(), quoted_if_odd(word))));
    }
    sources(names)
}

fn name(word: OsString) -> Name {
    match word.to_str() {
        Some("-") => Name::StandardInput,
        _ => Name::File(word),
    }
}

fn target(word: OsString) -> Name {
    match word.to_str() {
        Some("-") => Name::StandardOutput,
        _ => Name::File(word),
    }
}

/// One file at most; none is standard input.
fn source(verb: Verb, names: Vec<OsString>) -> Result<Name, Trouble> {
    let mut names = names.into_iter();
    match (names.next(), names.next()) {
        (one, None) => Ok(one.map_or(Name::StandardInput, name)),
        (_, Some(word)) => Err(usage(format!("{} takes one file, and {} is a second", verb.name(), quoted_if_odd(&word)))),
    }
}

/// Any files; standard input once at most, for nothing would be left of it.
fn sources(names: Vec<OsString>) -> Result<Vec<Name>, Trouble> {
    if names.is_empty() {
        return Ok(vec![Name::StandardInput]);
    }
    let names: Vec<Name> = names.into_iter().map(name).collect();
    match names.iter().filter(|&name| *name == Name::StandardInput).count() {
        0 | 1 => Ok(names),
        _ => Err(usage("`-` is given twice, and standard input can be read once".to_string())),
    }
}

#[cfg(test)]
mod tests {
    use super::*;

    fn parsed(line: &str) -> Result<Request, Trouble> {
        parse(line.split_whitespace().map(OsString::from))
    }

    fn file(name: &str) -> Name {
        Name::File(OsString::from(name))
    }

    #[test]
    fn requests() {
        let check = |quiet, json, sources| Request::Check(CheckOptions { quiet, json, sources });
        assert_eq!(parsed("check").unwrap(), check(false, false, vec![Name::StandardInput]));
        assert_eq!(parsed("check a -q - --json").unwrap(), check(true, true, vec![file("a"), Name::StandardInput]));
        assert_eq!(parsed("check -- -q --json").unwrap(), check(false, false, vec![file("-q"), file("--json")]));
        let compose = |table, version, to| Request::Compose { table, version, to };
        assert_eq!(parsed("compose t -o f").unwrap(), compose(file("t"), None, Some(file("f"))));
        assert_eq!(parsed("compose -o -").unwrap(), compose(Name::StandardInput, None, Some(Name::StandardOutput)));
        assert_eq!(parsed("compose t --to 2").unwrap(), compose(file("t"), Some(2), None));
        let convert = |version, sheet, to| Request::Convert { version, sheet, to };
        assert_eq!(parsed("convert --to 1").unwrap(), convert(1, Name::StandardInput, None));
        assert_eq!(parsed("convert s -o f --to 2").unwrap(), convert(2, file("s"), Some(file("f"))));
        assert_eq!(parsed("check -- -h").unwrap(), check(false, false, vec![file("-h")]));
        assert_eq!(parsed("show --help").unwrap(), Request::Help(Topic::One(Verb::Show)));
        assert_eq!(parsed("help explain").unwrap(), Request::Help(Topic::One(Verb::Explain)));
        assert_eq!(parsed("-h").unwrap(), Request::Help(Topic::All));
    }

    #[test]
    fn requests_about_runs() {
        let play = |json, last, script| Request::Play(PlayOptions { json, last, sheet: file("s"), script });
        assert_eq!(parsed("play s r").unwrap(), play(false, None, file("r")));
        assert_eq!(parsed("play s --last 40 -").unwrap(), play(false, Some(40), Name::StandardInput));
        assert_eq!(parsed("play s - --json").unwrap(), play(true, None, Name::StandardInput));
        assert_eq!(parsed("worst s -o r --json").unwrap(), Request::Worst { json: true, sheet: file("s"), to: Some(file("r")) });
        assert_eq!(parsed("worst -").unwrap(), Request::Worst { json: false, sheet: Name::StandardInput, to: None });
        let draw = |script, to, from_tick, to_tick| Request::Draw(DrawOptions { sheet: file("s"), script, to, from_tick, to_tick });
        assert_eq!(parsed("draw s").unwrap(), draw(None, None, None, None));
        assert_eq!(parsed("draw --from 0 s --to 20 r -o p").unwrap(), draw(Some(file("r")), Some(file("p")), Some(0), Some(20)));
        let compose = Request::ScriptCompose { sheet: file("s"), text: Name::StandardInput, to: Some(file("r")) };
        assert_eq!(parsed("script compose s - -o r").unwrap(), compose);
        assert_eq!(parsed("script show s r --json").unwrap(), Request::ScriptShow { json: true, sheet: file("s"), script: file("r") });
        assert_eq!(parsed("help script").unwrap(), Request::Help(Topic::Script));
        assert_eq!(parsed("script -h").unwrap(), Request::Help(Topic::Script));
        assert_eq!(parsed("help script show").unwrap(), Request::Help(Topic::One(Verb::ScriptShow)));
        assert_eq!(parsed("script compose --help").unwrap(), Request::Help(Topic::One(Verb::ScriptCompose)));
    }

    #[test]
    fn what_cannot_be_meant() {
        let lines =
            "|frobnicate|check --quiet|check -x|check - -|report a b|report --json|report -q a|explain a b|show a b|show -o x|compose -o|\
                     compose -o a -o b|compose a b|compose --to|compose --to 3|compose --to 1 --to 1|compose --to 01|convert|convert s|convert --to|convert --to 0 s|\
                     convert --to 02 s|convert --to 1 --to 2 s|convert --to 2 a b|convert --to 2 s --json|show --to 2|refusals x|refusals --json|help nosuch|help check show|--version x|--json|\
                     play|play s|play - -|play s r x|play s r --last|play s r --last -1|play s r --last 1 --last 2|play --json s r --last 1|play s r -o x|\
                     play s r --from 1|worst|worst s r|worst --json s|worst --json s -o -|worst s --last 3|draw|draw s r x|draw - -|\
                     draw s --json|draw s --from|draw s --from x|draw s --to 1 --to 2|draw s --to 4294967296|script|script nosuch|\
                     script compose|script compose s|script compose s t x|script compose s t --json|script show s|script show s r -o x|\
                     script -h x|help script nosuch|help script show x|script show s r -h|show --help x|check x -h|check -q -h|check -h -h|compose -o x -h|refusals -h x|-h x|--help check|help -h";
        for line in lines.split('|') {
            assert!(matches!(parsed(line), Err(Trouble::Usage(_))), "{line}");
        }
    }
}
