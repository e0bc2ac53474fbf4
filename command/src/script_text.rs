//! The text form of a run script: `script show` writes it, `script compose` reads it.
use crate::script::{Entry, Script, MOST_ENTRIES, MOST_IN_A_DIGIT};
use crate::set::MOST_TICKS;
use crate::table::{digits, lines_with_words, quoted, unmarked, BadLine};
use crate::words::{counted, UNITS};

/// The word before the first frames.
const FIRST_FRAMES: &str = "first-frames";

/// The word before what a refused script has not.
pub const MISSING: &str = "missing";

/// The word before what a refused script has behind its entries.
pub const SURPLUS: &str = "surplus";

/// The names of the columns, which the text must have in this order.
const COLUMNS: [&str; 4] = ["task", "tick", "work", "lock"];

/// A text that was read; whether its script is admitted is not asked.
#[derive(Clone, Debug)]
pub struct ScriptText {
    pub first_frames: Vec<u32>,
    pub entries: Vec<Entry>,
    /// Lines of the text, counted from 1: of the first frames and of each entry.
    pub frames_line: usize,
    pub entry_lines: Vec<usize>,
}

impl ScriptText {
    /// The line of an item: first frames and entries are counted together.
    pub fn line_of(&self, item: usize) -> usize {
        let entry = item.checked_sub(self.first_frames.len());
        entry.and_then(|entry| self.entry_lines.get(entry)).copied().unwrap_or(self.frames_line)
    }
}

/// The lines before the entries.
pub fn head(script: &Script) -> String {
    format!("# burrbeech run script for {}. {UNITS}\n{}\n", counted(script.tasks() as u64, "task"), frames_line(&script.first_frames()))
}

pub fn frames_line(first_frames: &[u32]) -> String {
    let frames: String = first_frames.iter().map(|frame| format!(" {frame}")).collect();
    format!("{FIRST_FRAMES}{frames}")
}

/// How wide the columns of the numbers are.
#[derive(Clone, Copy, Debug)]
pub struct Widths([usize; 3]);

impl Widths {
    pub fn of(entries: impl Iterator<Item = Entry>) -> Self {
        let most = entries.fold([0; 3], |most: [u32; 3], entry| {
            let [tick, work, lock] = most;
            [tick.max(entry.tick), work.max(entry.work), lock.max(entry.lock)]
        });
        let widest = |column: usize| most[column].to_string().len().max(COLUMNS[column + 1].len());
        Widths([widest(0), widest(1), widest(2)])
    }

    /// The line of the column names.
    pub fn columns(self) -> String {
        self.line(COLUMNS[0], COLUMNS[1], COLUMNS[2], COLUMNS[3])
    }

    /// The line of an entry.
    pub fn row(self, entry: Entry) -> String {
        let Entry { task, tick, work, lock } = entry;
        self.line(&task.to_string(), &tick.to_string(), &work.to_string(), &lock.to_string())
    }

    fn line(self, task: &str, tick: &str, work: &str, lock: &str) -> String {
        let Widths([ticks, works, locks]) = self;
        format!("{task:<4}  {tick:>ticks$}  {work:>works$}  {lock:>locks$}")
    }
}

/// The script in a text for so many tasks, unless a fault is still marked in it.
pub fn parse(text: &[u8], tasks: usize) -> Result<ScriptText, BadLine> {
    let script = lines_of(text, tasks)?;
    unmarked(text).map(|()| script)
}

/// The first frames, the column names, then the entries.
fn lines_of(text: &[u8], tasks: usize) -> Result<ScriptText, BadLine> {
    let mut lines = lines_with_words(text);
    let bad = |line: usize, words: String| BadLine { line, words };
    let last = || text.split(|&byte| byte == b'\n').count();
    let (frames_line, words) = lines.next().ok_or_else(|| bad(last(), format!("there is no line `{FIRST_FRAMES} ...`")))?;
    let first_frames = first_frames(&words, tasks).map_err(|words| bad(frames_line, words))?;
    let (columns_line, words) = lines.next().ok_or_else(|| bad(last(), format!("there is no line `{}`", COLUMNS.join(" "))))?;
    if !words.iter().copied().eq(COLUMNS.iter().map(|name| name.as_bytes())) {
        return Err(bad(columns_line, format!("the column names `{}` must stand here, in this order", COLUMNS.join(" "))));
    }
    let mut script = ScriptText { first_frames, entries: Vec::new(), frames_line, entry_lines: Vec::new() };
    for (line, words) in lines {
        if script.entries.len() == MOST_ENTRIES {
            return Err(bad(line, format!("this is entry {MOST_ENTRIES}, counted from 0: a script has at most so many")));
        }
        script.entries.push(row(&words).map_err(|words| bad(line, words))?);
        script.entry_lines.push(line);
    }
    Ok(script)
}

/// The word and a number for each task.
fn first_frames(words: &[&[u8]], tasks: usize) -> Result<Vec<u32>, String> {
    let for_each = format!("`{FIRST_FRAMES}` and a number for each task of the sheet, which has {}", counted(tasks as u64, "task"));
    match words {
        [b"refused", ..] => Err("this is what `script show` says of a refused script: mend it, then delete this line".to_string()),
        [first, frames @ ..] if *first == FIRST_FRAMES.as_bytes() => {
            if frames.len() != tasks {
                return Err(format!("{} here: {for_each}, must stand here", counted(frames.len() as u64, "number")));
            }
            let frames = frames.iter().enumerate();
            frames.map(|(task, word)| field(&format!("task {task}: first frame"), word, MOST_IN_A_DIGIT)).collect()
        }
        _ => Err(format!("a script starts with {for_each}")),
    }
}

/// Task, tick, work and lock.
fn row(words: &[&[u8]]) -> Result<Entry, String> {
    let of_refused = |what: &str| Err(format!("this is what `script show` says of {what}, then delete this line"));
    match words.first() {
        Some(first) if *first == MISSING.as_bytes() => return of_refused("entries that a refused script has not: write them"),
        Some(first) if *first == SURPLUS.as_bytes() => {
            return of_refused("bytes that a refused script has behind the entries of its count: write the entries that they are, if any")
        }
        _ => {}
    }
    let [task, tick, work, lock] = words else {
        return Err(format!("{} here: an entry has four, {}", counted(words.len() as u64, "word"), COLUMNS.join(", ")));
    };
    Ok(Entry {
        task: field("task", task, MOST_IN_A_DIGIT)?,
        tick: field("tick", tick, MOST_TICKS)?,
        work: field("work", work, MOST_TICKS)?,
        lock: field("lock", lock, MOST_TICKS)?,
    })
}

/// A number that fits its field; what else is asked of it the library says.
fn field(name: &str, word: &[u8], most: u32) -> Result<u32, String> {
    match digits(name, word)? {
        Some(value) if value <= most => Ok(value),
        Some(value) => Err(format!("{name} {value} has no room in a script: {most} is the largest")),
        None => Err(format!("{name} {} has no room in a script: {most} is the largest", quoted(word))),
    }
}

#[cfg(test)]
mod tests {
    use super::*;
    use crate::script;

    const G: &str = "# burrbeech run script for 2 tasks. Times are ticks; tasks and frames count from 0.
first-frames 0 0
task  tick  work  lock
1        0     4     4
0        1     2     0
";

    /// The text of a script's bytes.
    fn text(bytes: &[u8], tasks: usize) -> String {
        let script = Script::of(bytes, tasks).expect("a script");
        let widths = Widths::of(script.entries());
        let rows: String = script.entries().map(|entry| widths.row(entry) + "\n").collect();
        format!("{}{}\n{rows}", head(&script), widths.columns())
    }

    fn bad(text: &str) -> (usize, String) {
        let BadLine { line, words } = parse(text.as_bytes(), 2).expect_err("a bad line");
        (line, words)
    }

    #[test]
    fn the_worst_run_of_case_g() {
        let read = parse(G.as_bytes(), 2).unwrap();
        assert_eq!((read.frames_line, read.entry_lines.as_slice()), (2, [4, 5].as_slice()));
        assert_eq!((0..5).map(|item| read.line_of(item)).collect::<Vec<_>>(), [2, 2, 4, 5, 2]);
        assert_eq!(text(&script::write(&read.first_frames, &read.entries), 2), G);
    }

    #[test]
    fn wide_numbers_stay_aligned() {
        let [wide, narrow] = [1_048_575, 1].map(|ticks| Entry { task: 15, tick: ticks, work: ticks, lock: ticks });
        let widths = Widths::of([narrow, wide].into_iter());
        assert_eq!(widths.columns(), "task     tick     work     lock");
        assert_eq!(widths.row(wide), "15    1048575  1048575  1048575");
        assert_eq!(widths.row(narrow), "15          1        1        1");
    }

    #[test]
    fn comments_blank_lines_and_crlf() {
        let text = "\u{feff}# any\r\n\r\n  first-frames\t3 0# x\r\ntask tick work lock\r\n\n\t0 5 5 0 # y\n#end";
        let read = parse(text.as_bytes(), 2).unwrap();
        assert_eq!((read.first_frames, read.entries), (vec![3, 0], vec![Entry { task: 0, tick: 5, work: 5, lock: 0 }]));
    }

    #[test]
    fn bad_lines_are_named() {
        for (text, line, words) in [
            ("", 1, "there is no line `first-frames"),
            ("# only\n", 2, "there is no line `first-frames"),
            ("0 0\n", 1, "a script starts with `first-frames`"),
            ("first-frames 0\n", 1, "1 number here"),
            ("first-frames 0 0 0\n", 1, "3 numbers here"),
            ("first-frames 0 16\n", 1, "task 1: first frame 16 has no room"),
            ("first-frames 0 x\n", 1, "is no number"),
            ("first-frames 0 0\n", 2, "there is no line `task"),
            ("first-frames 0 0\ntick task work lock\n", 2, "the column names"),
            ("refused 14 (item 2): words\n", 1, "refused script"),
        ] {
            let (at, said) = bad(text);
            assert!(at == line && said.contains(words), "{text:?}: {at}: {said}");
        }
        let start = "first-frames 0 0\ntask tick work lock\n";
        for row in ["0 1 2", "0 1 2 3 4", "16 1 2 0", "0 1048576 2 0", "0 1 1048576 0", "0 1 2 1048576", "0 -1 2 0", "0 01 2 0", "0 1 2 x"]
        {
            assert_eq!(bad(&format!("{start}{row}\n")).0, 3, "{row}");
        }
        assert_eq!(bad(&G.replace("2     0", "2     0   # <== words")).0, 5);
    }
}
