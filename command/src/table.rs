//! The text table of a set: `show` writes it, `compose` reads it.
use crate::names::escaped;
use crate::set::{differ_by_frame, policy_name, Set, Task, BY_FRAME, MOST_FRAMES, MOST_TICKS, ONE_DEADLINE, POLICIES};
use crate::words::UNITS;

/// The names of the columns, which a table must have in this order.
const COLUMNS: [&str; 5] = ["task", "period", "deadline", "lock", "frames"];

/// What `show` puts before the words for a fault, on the line that has it.
pub const MARK: &str = "<==";

/// Stands in the column of the deadline where each frame has its own.
const BY_ITSELF: &str = "-";

/// A table that was read; whether its set is admitted is not asked.
#[derive(Clone, Debug)]
pub struct Table {
    pub version: Option<Told>,
    pub policy: u32,
    pub tasks: Vec<Task>,
    /// Lines of the text, counted from 1: of the policy, of the column names and of each task.
    pub policy_line: usize,
    pub columns_line: usize,
    pub task_lines: Vec<usize>,
}

/// The version that a table tells, and its line.
#[derive(Clone, Copy, Debug, PartialEq, Eq)]
pub struct Told {
    pub version: u32,
    pub line: usize,
}

/// A line, counted from 1, that cannot stand in a table there.
#[derive(Clone, Debug, PartialEq, Eq)]
pub struct BadLine {
    pub line: usize,
    pub words: String,
}

impl Table {
    /// The set in the version that was asked for, or else that the table tells, or else the first that can hold it.
    pub fn set(&self, asked: Option<u32>) -> Set {
        let fitting = if differ_by_frame(&self.tasks) { BY_FRAME } else { ONE_DEADLINE };
        let version = asked.or(self.version.map(|told| told.version)).unwrap_or(fitting);
        Set { version, policy: self.policy, tasks: self.tasks.clone() }
    }
}

/// The table of an admitted set. That of version 1 needs no line for it.
pub fn text(set: &Set) -> String {
    let others: Vec<&str> = POLICIES.iter().copied().filter(|&name| Some(name) != policy_name(set.policy)).collect();
    let policy = format!("{}   # or: {}; compose also takes 0, 1, 2", policy_line(set.policy), others.join(", "));
    let version = match set.version {
        ONE_DEADLINE => String::new(),
        version => format!("{}   # a frame may have a deadline of its own, as time/deadline\n", version_line(version)),
    };
    let rows = rows(&set.tasks.iter().map(Row::of).collect::<Vec<_>>()).join("\n");
    format!("# burrbeech task table. {UNITS}\n{version}{policy}\n{rows}\n")
}

pub fn version_line(version: u32) -> String {
    format!("version {version}")
}

pub fn policy_line(policy: u32) -> String {
    match policy_name(policy) {
        Some(name) => format!("policy {name}"),
        None => format!("policy {policy}"),
    }
}

/// A task as a row has it.
pub struct Row {
    pub period: u32,
    /// None where each frame has its own.
    pub deadline: Option<u32>,
    pub lock: u32,
    pub frames: Vec<String>,
}

impl Row {
    pub fn of(task: &Task) -> Self {
        let deadline = task.one_deadline();
        let frame = |(time, own): (&u32, &u32)| if deadline.is_some() { time.to_string() } else { format!("{time}/{own}") };
        Row { period: task.period, deadline, lock: task.lock, frames: task.frames.iter().zip(&task.deadlines).map(frame).collect() }
    }

    /// The columns between the task's number and its frames.
    fn fixed(&self) -> [String; 3] {
        let deadline = self.deadline.map_or(BY_ITSELF.to_string(), |deadline| deadline.to_string());
        [self.period.to_string(), deadline, self.lock.to_string()]
    }
}

/// The line of the column names, then a row for each task, numbers aligned.
pub fn rows(rows: &[Row]) -> Vec<String> {
    let widest = |column: usize| rows.iter().map(|row| row.fixed()[column].len()).max().unwrap_or(0).max(COLUMNS[column + 1].len());
    let widths = [0, 1, 2].map(widest);
    let frame_width = |slot: usize| rows.iter().filter_map(|row| row.frames.get(slot)).map(String::len).max().unwrap_or(0);
    let frame_widths: Vec<usize> = (0..2 * MOST_FRAMES).map(frame_width).collect();
    let line = |first: &str, middle: [String; 3], last: String| {
        let middle: String = middle.iter().zip(&widths).map(|(number, &width)| format!("  {number:>width$}")).collect();
        format!("{first:<4}{middle}  {last}").trim_end().to_string()
    };
    let columns = line(COLUMNS[0], [1, 2, 3].map(|column| COLUMNS[column].to_string()), COLUMNS[4].to_string());
    let row = |(number, row): (usize, &Row)| {
        let frames = row.frames.iter().zip(&frame_widths).map(|(frame, &width)| format!("{frame:>width$}"));
        line(&number.to_string(), row.fixed(), frames.collect::<Vec<_>>().join(" "))
    };
    std::iter::once(columns).chain(rows.iter().enumerate().map(row)).collect()
}

/// The words of a line that are no comment; lines may end in CR LF.
fn words(line: &[u8]) -> Vec<&[u8]> {
    let line = line.split(|&byte| byte == b'#').next().unwrap_or_default();
    line.split(u8::is_ascii_whitespace).filter(|word| !word.is_empty()).collect()
}

/// The table in a text, unless a fault is still marked in it.
pub fn parse(text: &[u8]) -> Result<Table, BadLine> {
    let table = lines_of(text)?;
    unmarked(text).map(|()| table)
}

/// No line has the mark of a fault, which stands in a comment.
pub fn unmarked(text: &[u8]) -> Result<(), BadLine> {
    let is_marked = |line: &[u8]| line.windows(MARK.len()).any(|bytes| bytes == MARK.as_bytes());
    match text.split(|&byte| byte == b'\n').position(is_marked) {
        None => Ok(()),
        Some(i) => Err(BadLine {
            line: i + 1,
            words: format!("this line has the mark `{MARK}` of a fault: mend it, then delete the mark and what follows it"),
        }),
    }
}

/// The lines that have words, counted from 1; a mark of the byte order may stand before the first.
pub fn lines_with_words(text: &[u8]) -> impl Iterator<Item = (usize, Vec<&[u8]>)> {
    let text = text.strip_prefix("\u{feff}".as_bytes()).unwrap_or(text);
    let lines = text.split(|&byte| byte == b'\n').enumerate().map(|(i, line)| (i + 1, words(line)));
    lines.filter(|(_, words)| !words.is_empty())
}

/// The head, the column names, then the tasks.
fn lines_of(text: &[u8]) -> Result<Table, BadLine> {
    let mut lines = lines_with_words(text);
    let bad = |line: usize, words: String| BadLine { line, words };
    let mut table = head(text, &mut lines)?;
    for (line, words) in lines {
        let task = row(table.tasks.len(), &words).map_err(|words| bad(line, words))?;
        table.tasks.push(task);
        table.task_lines.push(line);
    }
    Ok(table)
}

/// The lines up to the column names: one for the policy and, before or behind it, one for the version at most.
fn head<'a>(text: &[u8], lines: &mut impl Iterator<Item = (usize, Vec<&'a [u8]>)>) -> Result<Table, BadLine> {
    let bad = |line: usize, words: String| Err(BadLine { line, words });
    let last = text.split(|&byte| byte == b'\n').count();
    let (mut told, mut named) = (None, None);
    loop {
        let missing = if named.is_none() { "policy ...".to_string() } else { COLUMNS.join(" ") };
        let Some((line, words)) = lines.next() else { return bad(last, format!("the table has no line `{missing}`")) };
        match (words.as_slice(), named) {
            ([b"version", ..], _) if told.is_some() => return bad(line, "the version stands there twice".to_string()),
            ([b"version", rest @ ..], _) => {
                let version = version(rest).map_err(|words| BadLine { line, words })?;
                told = Some(Told { version, line });
            }
            (words, None) => {
                let policy = policy(words).map_err(|words| BadLine { line, words })?;
                named = Some((policy, line));
            }
            (words, Some((policy, policy_line))) if words.iter().copied().eq(COLUMNS.iter().map(|name| name.as_bytes())) => {
                let (tasks, task_lines) = (Vec::new(), Vec::new());
                return Ok(Table { version: told, policy, tasks, policy_line, columns_line: line, task_lines });
            }
            _ => return bad(line, format!("the column names `{}` must stand here, in this order", COLUMNS.join(" "))),
        }
    }
}

/// What follows `version`; whether there is such a version the library says.
fn version(words: &[&[u8]]) -> Result<u32, String> {
    match words {
        [word] => {
            digits("version", word)?.ok_or_else(|| format!("version {}: {ONE_DEADLINE} or {BY_FRAME} must follow `version`", quoted(word)))
        }
        _ => Err(format!("`version` and its number must stand here: {ONE_DEADLINE} or {BY_FRAME}")),
    }
}

/// `policy` and a name or a number.
fn policy(words: &[&[u8]]) -> Result<u32, String> {
    let allowed = format!("{} or a number", POLICIES.join(", "));
    match words {
        [b"policy", word] => match POLICIES.iter().position(|name| name.as_bytes() == *word) {
            Some(policy) => Ok(policy as u32),
            None if word.iter().all(u8::is_ascii_digit) => number("policy", word),
            None => Err(format!("there is no policy {}: {allowed} must follow `policy`", quoted(word))),
        },
        [b"refused", ..] => Err("this is what `show` says of a refused sheet: mend it, then delete this line".to_string()),
        _ => Err(format!(
            "a table starts with `policy` and its name: {allowed}; a line `version` and its number may stand before it or behind it"
        )),
    }
}

/// The task's number, period, deadline, lock and frames; any count of frames, which the library judges.
fn row(expected: usize, words: &[&[u8]]) -> Result<Task, String> {
    let [first, period, deadline, lock, frames @ ..] = words else {
        return Err(format!("a row has the task's number, period, deadline, lock and 1 to {MOST_FRAMES} frames"));
    };
    let task = number("task", first)?;
    if task as usize != expected {
        return Err(format!("task {expected} must stand here, not task {task}: tasks are numbered from 0, in order"));
    }
    let period = number("period", period)?;
    let column = if *deadline == BY_ITSELF.as_bytes() { None } else { Some(number("deadline", deadline)?) };
    let lock = number("lock", lock)?;
    let frames = frames.iter().enumerate().map(|(number, word)| frame(number, word)).collect::<Result<Vec<_>, String>>()?;
    let (frames, own): (Vec<u32>, Vec<Option<u32>>) = frames.into_iter().unzip();
    Ok(Task { period, lock, frames, deadlines: deadlines(column, &own)? })
}

/// A frame's time and, behind a slash, its own deadline.
fn frame(frame: usize, word: &[u8]) -> Result<(u32, Option<u32>), String> {
    let name = format!("frame {frame}");
    let Some(slash) = word.iter().position(|&byte| byte == b'/') else { return Ok((number(&name, word)?, None)) };
    let (time, deadline) = (&word[..slash], &word[slash + 1..]);
    if time.is_empty() || deadline.is_empty() {
        return Err(format!("{name} {} lacks a number beside its slash: time/deadline is allowed, or the time alone", quoted(word)));
    }
    Ok((number(&name, time)?, Some(number(&format!("deadline of {name}"), deadline)?)))
}

/// The deadline of each frame: its own, or else that of the column, which must be for some frame.
fn deadlines(column: Option<u32>, own: &[Option<u32>]) -> Result<Vec<u32>, String> {
    match (column, own.iter().position(Option::is_none)) {
        (None, Some(frame)) => Err(format!(
            "frame {frame} has no deadline: write it as time/deadline, or write a deadline in the column instead of `{BY_ITSELF}`"
        )),
        (Some(deadline), None) if !own.is_empty() => {
            Err(format!("deadline {deadline} is that of no frame, since each has its own: write `{BY_ITSELF}` in its column"))
        }
        _ => Ok(own.iter().filter_map(|own| own.or(column)).collect()),
    }
}

/// A number that fits 32 bits; whether it is in range the library says.
fn number(field: &str, word: &[u8]) -> Result<u32, String> {
    digits(field, word)?.ok_or_else(|| format!("{field} {} is far too large: no number of a set is above {MOST_TICKS}", quoted(word)))
}

/// Decimal digits as a number, none if it does not fit 32 bits.
pub fn digits(field: &str, word: &[u8]) -> Result<Option<u32>, String> {
    if !word.iter().all(u8::is_ascii_digit) {
        return Err(format!("{field} {} is no number: only decimal digits are allowed", quoted(word)));
    }
    if word.len() > 1 && word[0] == b'0' {
        return Err(format!("{field} {} starts with 0: write the number without it", quoted(word)));
    }
    Ok(std::str::from_utf8(word).ok().and_then(|digits| digits.parse().ok()))
}

/// The word in quotes, cut if it is long.
pub fn quoted(word: &[u8]) -> String {
    const MOST: usize = 40;
    match word.get(..MOST) {
        Some(start) if word.len() > MOST => format!("`{}...`", escaped(start)),
        _ => format!("`{}`", escaped(word)),
    }
}

#[cfg(test)]
mod tests {
    use super::*;

    const F: &str = "# burrbeech task table. Times are ticks; tasks and frames count from 0.
policy listed   # or: rate-monotonic, deadline-monotonic; compose also takes 0, 1, 2
task  period  deadline  lock  frames
0         10         4     0  2
1         20        20     3  5
";

    fn bad(text: &str) -> (usize, String) {
        let BadLine { line, words } = parse(text.as_bytes()).expect_err("a bad line");
        (line, words)
    }

    #[test]
    fn the_table_of_case_f() {
        let table = parse(F.as_bytes()).unwrap();
        assert_eq!((table.policy, table.policy_line, table.columns_line, table.task_lines.as_slice()), (0, 2, 3, [4, 5].as_slice()));
        assert_eq!((text(&table.set(None)), table.set(None).version), (F.to_string(), 1));
    }

    const BY_EACH: &str = "# burrbeech task table. Times are ticks; tasks and frames count from 0.
version 2   # a frame may have a deadline of its own, as time/deadline
policy deadline-monotonic   # or: listed, rate-monotonic; compose also takes 0, 1, 2
task  period  deadline  lock  frames
0         20         -     0  4/10 2/5
1         12         7     3     3   1
";

    /// Frames in the column's way, in their own, and both in one row.
    #[test]
    fn deadlines_by_frame() {
        let table = parse(BY_EACH.as_bytes()).unwrap();
        assert_eq!((table.version, table.policy_line), (Some(Told { version: 2, line: 2 }), 3));
        assert_eq!(table.tasks[0], Task { period: 20, lock: 0, frames: vec![4, 2], deadlines: vec![10, 5] });
        assert_eq!(table.tasks[1], Task { period: 12, lock: 3, frames: vec![3, 1], deadlines: vec![7, 7] });
        assert_eq!(text(&table.set(None)), BY_EACH);
        for mixed in [("-     0  4/10 2/5", "10 0 4 2/5"), ("-     0  4/10 2/5", "5 0 4/10 2")] {
            assert_eq!(parse(BY_EACH.replace(mixed.0, mixed.1).as_bytes()).unwrap().tasks, table.tasks, "{mixed:?}");
        }
    }

    /// What is asked for goes first, then what the table tells, before or behind the policy; then the first version that fits.
    #[test]
    fn the_version_of_a_table() {
        let version = |text: &str, asked| parse(text.as_bytes()).unwrap().set(asked).version;
        let untold = BY_EACH.replace("version 2", "#");
        assert_eq!((version(&untold, None), version(&untold, Some(1)), version(F, None), version(F, Some(2))), (2, 1, 1, 2));
        assert_eq!((version(&format!("version 2\n{F}"), None), version(&format!("version 7\n{F}"), None)), (2, 7));
        assert_eq!(version(&F.replace("\ntask", "\nversion 2\ntask"), None), 2);
        // a deadline that each frame has by itself is one all the same
        assert_eq!(version(&untold.replace("4/10 2/5", "4/5 2/5"), None), 1);
    }

    #[test]
    fn deadlines_that_cannot_be_meant() {
        for (row, words) in [
            ("0 9 - 0 1", "frame 0 has no deadline: write it as time/deadline, "),
            ("0 9 - 0 1/9 1", "frame 1 has no deadline: "),
            ("0 9 9 0 1/9 1/8", "deadline 9 is that of no frame, since each has its own: write `-` in its column"),
            ("0 9 9 0 1/", "frame 0 `1/` lacks a number beside its slash"),
            ("0 9 9 0 1 /9", "frame 1 `/9` lacks a number beside its slash"),
            ("0 9 - 0 1/9/8", "deadline of frame 0 `9/8` is no number"),
            ("0 9 - 0 1/x", "deadline of frame 0 `x` is no number"),
            ("0 9 - 0 1/-", "deadline of frame 0 `-` is no number"),
            ("0 9 - 0 -", "frame 0 `-` is no number"),
            ("0 - 9 0 1", "period `-` is no number"),
            ("0 9 -- 0 1/9", "deadline `--` is no number"),
            ("0 9 - 0 1/09", "deadline of frame 0 `09` starts with 0"),
            ("0 9 - 0 1/4294967296", "deadline of frame 0 `4294967296` is far too large"),
        ] {
            let (line, said) = bad(&format!("policy 0\ntask period deadline lock frames\n{row}\n"));
            assert!(line == 3 && said.contains(words), "{row}: {line}: {said}");
        }
        for (head, line, words) in [
            ("version 2\nversion 2\npolicy 0\n", 2, "the version stands there twice"),
            ("version 2\npolicy 0\nversion 1\n", 3, "the version stands there twice"),
            ("version\npolicy 0\n", 1, "`version` and its number must stand here: 1 or 2"),
            ("policy 0\nversion 1 2\n", 2, "`version` and its number must stand here: 1 or 2"),
            ("version two\npolicy 0\n", 1, "version `two` is no number"),
            ("version 2\n", 2, "the table has no line `policy ...`"),
            ("version 2\npolicy 0\n", 3, "the table has no line `task period deadline lock frames`"),
            ("policy 0\npolicy 0\n", 2, "the column names"),
        ] {
            let (at, said) = bad(head);
            assert!(at == line && said.contains(words), "{head}: {at}: {said}");
        }
    }

    #[test]
    fn comments_blank_lines_and_crlf() {
        let text = "\u{feff}# any\r\n\r\n  policy\t2# deadline\r\n#\ntask period deadline lock frames\r\n\t0 5 5 0 1 2# x\n\n#end";
        let table = parse(text.as_bytes()).unwrap();
        assert_eq!((table.policy, table.tasks.len(), table.task_lines[0]), (2, 1, 6));
        assert_eq!(table.tasks[0], Task { period: 5, lock: 0, frames: vec![1, 2], deadlines: vec![5, 5] });
    }

    #[test]
    fn long_numbers_stay_aligned() {
        let wide = Task { period: 1_048_575, lock: 1_048_575, frames: vec![1_048_575, 1], deadlines: vec![1_048_575; 2] };
        let narrow = Task { period: 1, lock: 0, frames: vec![1, 10, 7], deadlines: vec![1; 3] };
        let lines = rows(&[Row::of(&wide), Row::of(&narrow)]);
        assert_eq!(lines[0], "task   period  deadline     lock  frames");
        assert_eq!(lines[1], "0     1048575   1048575  1048575  1048575  1");
        assert_eq!(lines[2], "1           1         1        0        1 10 7");
        let own = Task { deadlines: vec![1_048_575, 1, 20], ..narrow };
        let lines = rows(&[Row::of(&wide), Row::of(&own)]);
        assert_eq!(lines[1], "0     1048575   1048575  1048575    1048575    1");
        assert_eq!(lines[2], "1           1         -        0  1/1048575 10/1 7/20");
    }

    #[test]
    fn bad_lines_are_named() {
        assert_eq!(bad("").0, 1);
        assert_eq!(bad("# only\n").0, 2);
        assert_eq!(bad("policy listed\n").0, 2);
        assert_eq!(bad("policy fast\n").0, 1);
        assert_eq!(bad("policy listed\ntask deadline period lock frames\n").0, 2);
        let start = "policy listed\ntask period deadline lock frames\n";
        for row in
            ["1 5 5 0 1", "0 5 5", "0 5 5 0 -1", "0 +5 5 0 1", "0 5 5 0 1,000", "0 5.0 5 0 1", "0 05 5 0 1", "0 5 5 0 4294967296", "x"]
        {
            assert_eq!(bad(&format!("{start}{row}\n")).0, 3, "{row}");
        }
    }

    #[test]
    fn a_refused_show_is_no_table() {
        assert!(bad("refused 9 (task 1): words\npolicy listed\n").1.contains("refused sheet"));
        for (marked, line) in [(F.replace("3  5", "3  5   # <== words"), 5), (format!("{F}# after 2 records: no bit#<==\r\n"), 6)] {
            assert_eq!(
                bad(&marked),
                (line, "this line has the mark `<==` of a fault: mend it, then delete the mark and what follows it".to_string())
            );
        }
    }
}
