//! The help texts.
use std::ffi::OsStr;

#[derive(Clone, Copy, Debug, PartialEq, Eq)]
pub enum Verb {
    Check,
    Report,
    Explain,
    Show,
    Compose,
    Convert,
    Play,
    Worst,
    Draw,
    ScriptCompose,
    ScriptShow,
    Refusals,
}

const VERBS: [Verb; 12] = [
    Verb::Check,
    Verb::Report,
    Verb::Explain,
    Verb::Show,
    Verb::Compose,
    Verb::Convert,
    Verb::Play,
    Verb::Worst,
    Verb::Draw,
    Verb::ScriptCompose,
    Verb::ScriptShow,
    Verb::Refusals,
];

/// What help is asked about.
#[derive(Clone, Copy, Debug, PartialEq, Eq)]
pub enum Topic {
    All,
    One(Verb),
    /// Both verbs that start with this word.
    Script,
}

impl Verb {
    pub fn named(words: &[&OsStr]) -> Option<Self> {
        VERBS.into_iter().find(|verb| verb.name().split(' ').map(OsStr::new).eq(words.iter().copied()))
    }

    pub fn name(self) -> &'static str {
        match self {
            Verb::Check => "check",
            Verb::Report => "report",
            Verb::Explain => "explain",
            Verb::Show => "show",
            Verb::Compose => "compose",
            Verb::Convert => "convert",
            Verb::Play => "play",
            Verb::Worst => "worst",
            Verb::Draw => "draw",
            Verb::ScriptCompose => "script compose",
            Verb::ScriptShow => "script show",
            Verb::Refusals => "refusals",
        }
    }

    /// Whether this is an option of the verb.
    pub fn has(self, option: &str) -> bool {
        match option {
            "-q" => self == Verb::Check,
            "--json" => matches!(self, Verb::Check | Verb::Explain | Verb::Show | Verb::Play | Verb::Worst | Verb::ScriptShow),
            "-o" => matches!(self, Verb::Compose | Verb::Convert | Verb::Worst | Verb::Draw | Verb::ScriptCompose),
            "--last" => self == Verb::Play,
            "--from" => self == Verb::Draw,
            "--to" => matches!(self, Verb::Compose | Verb::Convert | Verb::Draw),
            _ => false,
        }
    }

    /// The files that a verb about runs takes.
    pub fn needs(self) -> &'static str {
        match self {
            Verb::Worst => "a sheet",
            Verb::Draw => "a sheet, and a script at most",
            Verb::ScriptCompose => "a sheet and the text of a script",
            _ => "a sheet and a script",
        }
    }

    pub fn usage(self) -> &'static str {
        match self {
            Verb::Check => "check [-q] [--json] [FILE...]",
            Verb::Report => "report [FILE]",
            Verb::Explain => "explain [--json] [FILE]",
            Verb::Show => "show [--json] [FILE]",
            Verb::Compose => "compose [--to 1|2] [TABLE] [-o FILE]",
            Verb::Convert => "convert --to 1|2 [FILE] [-o FILE]",
            Verb::Play => "play [--last N | --json] SHEET SCRIPT",
            Verb::Worst => "worst [--json] SHEET [-o FILE]",
            Verb::Draw => "draw SHEET [SCRIPT] [-o FILE] [--from N] [--to N]",
            Verb::ScriptCompose => "script compose SHEET TEXT [-o FILE]",
            Verb::ScriptShow => "script show [--json] SHEET SCRIPT",
            Verb::Refusals => "refusals",
        }
    }

    fn summary(self) -> &'static str {
        match self {
            Verb::Check => "a line for each sheet, totals last",
            Verb::Report => "the report in figures: verdict, order, blocking, times",
            Verb::Explain => "why a sheet holds, misses or is refused, in words",
            Verb::Show => "the set of a sheet as a text table",
            Verb::Compose => "a sheet from a text table",
            Verb::Convert => "a sheet of the other version",
            Verb::Play => "how the run of a script ends: the miss, or all done",
            Verb::Worst => "the worst run of a set that misses, as a script",
            Verb::Draw => "a run, or the worst run, as a picture (SVG)",
            Verb::ScriptCompose => "a run script from its text",
            Verb::ScriptShow => "a run script as text",
            Verb::Refusals => "the numbers of refusals in words",
        }
    }

    fn details(self) -> &'static str {
        match self {
            Verb::Check => CHECK,
            Verb::Report => REPORT,
            Verb::Explain => EXPLAIN,
            Verb::Show => SHOW,
            Verb::Compose => COMPOSE,
            Verb::Convert => CONVERT,
            Verb::Play => PLAY,
            Verb::Worst => WORST,
            Verb::Draw => DRAW,
            Verb::ScriptCompose => SCRIPT_COMPOSE,
            Verb::ScriptShow => SCRIPT_SHOW,
            Verb::Refusals => REFUSALS,
        }
    }

    fn text(self) -> String {
        format!("usage: burrbeech {}\n\n{}: {}.\n\n{}", self.usage(), self.name(), self.summary(), self.details())
    }
}

pub fn version() -> String {
    format!("burrbeech {}\n", env!("BURRBEECH_VERSION"))
}

pub fn text(topic: &Topic) -> String {
    match topic {
        Topic::One(verb) => verb.text(),
        Topic::Script => format!("{}\n{}", Verb::ScriptCompose.text(), Verb::ScriptShow.text()),
        Topic::All => {
            let lines: String = VERBS.iter().map(|verb| format!("  burrbeech {:<52}{}\n", verb.usage(), verb.summary())).collect();
            format!("burrbeech decides whether the tasks of a task sheet meet their deadlines, and plays runs of them.\n\n{lines}{OTHERS}\n{COMMON}")
        }
    }
}

const OTHERS: &str = "  burrbeech help [VERB]                                         this text (also --help), or that of a verb
  burrbeech --version                                           the version
";

const COMMON: &str =
    "No FILE, or `-`, is standard input; SHEET and TEXT must be given, and SCRIPT but for `draw`; one may be `-`. `--` ends the options.
Times are ticks; tasks and frames count from 0.

Exit status, the worst deciding: 0 all hold (or: done), 1 some missed, 2 some refused, 3 usage or input/output.
Every verdict, time, refusal and sheet, how a play ends, what each of its ticks has and every worst run comes from the proved library; the
words and pictures around them are not proved.
";

const CHECK: &str = "Prints one line for each FILE and then the totals:
  f.sheet: holds, 2 tasks
  g.sheet: missed, 2 tasks: task 0 misses, blocker 1
  i.sheet: refused 11 (task 0): not accumulatively monotonic
  3 sheets: 1 holds, 1 missed, 1 refused
A file that cannot be read has a message on standard error instead and counts as `not read`; the others are still checked.
A name with a space, a double quote, a backslash or a character that does not print stands in quotes, with escapes.

  -q      says nothing of sheets that hold, and no totals
  --json  prints an object on a line for each FILE, and no totals:
  {\"file\":NAME,\"verdict\":\"holds\",\"tasks\":COUNT,\"version\":1 or 2}
  {\"file\":NAME,\"verdict\":\"missed\",\"tasks\":COUNT,\"task\":TASK,\"blocker\":TASK or null,\"version\":1 or 2}
  {\"file\":NAME,\"verdict\":\"refused\",\"refusal\":NUMBER,\"task\":TASK or null,\"words\":TEXT}
  {\"file\":NAME,\"verdict\":null,\"error\":TEXT}        (not read, with explain and show too; standard error has the message as well)
  refusal 11 has also \"reason\":{\"frame\":FRAME (the lowest-numbered largest),\"length\":COUNT (the shortest at which so many frames from
    another frame on, going round, make more),\"other_frame\":FRAME (the lowest-numbered such)}

Exit status: 0 all hold, 1 some missed, 2 some refused, 3 some not read, or usage; the worst decides.
";

const REPORT: &str =
    "Prints the report and nothing else: `holds` and the task count; or `missed`, the count, the missed task and its blocker or `-`;
or `refused` and the number. Unless refused, a line for each task follows in priority order: its number, period, deadline (of its
frames' the smallest), blocking, and a response time for each frame, or the word `missed` once.

Exit status: 0 holds, 1 missed, 2 refused, 3 not read, or usage.
";

const EXPLAIN: &str = "Of a set that holds: each task in priority order with its blocking and who causes it, and for each frame its work, its deadline where
the task's frames have different ones, its response time and its slack (deadline less response time). Of a set that misses also the demand
of the missed task's first frame without a response time, at that frame's deadline, term by term. Of a refused sheet: the field, its value
and the limit; where no frame can be the start frame (refusal 11), the largest frame, and the shortest length at which so many frames from
another frame on, going round, make more, with both sums.

  --json  prints one object, that of `check --json` with more fields:
  holds and missed: \"policy\":NUMBER, \"policy_name\":TEXT, \"order\":[TASK...] (highest priority first), \"list\":[...] with, for each task,
    {\"task\",\"period\",\"deadline\" (the smallest),\"lock\",\"frames\":[...],\"deadlines\":[...] (of each frame),\"blocking\",
     \"blocker\":TASK or null,\"passes\":true or false,\"times\":[...] or null,\"slack\":[...] or null}
  missed: \"demand\":{\"task\",\"frame\",\"at\" (its deadline),\"blocking\",\"own\",\"higher\":[{\"task\",\"jobs\",\"start_frame\",\"work\"}...],
     \"total\",\"excess\" (total less deadline)}
  refused: \"fault\":TEXT (field, value, limit), \"advice\":TEXT (may be empty)

Exit status: 0 holds, 1 missed, 2 refused, 3 not read, or usage.
";

const SHOW: &str =
    "Prints the table that `compose` reads; composed, it gives the same bytes again: of a sheet of version 2 it has a line `version 2`.
Of a refused sheet it prints what can be read, with the fault marked by `<==`; the first line is then `refused` and the number, which no
table has. `compose` takes the text when the fault is mended and that line and the mark, with what follows it, are deleted.

  --json  prints one object:
  {\"file\":NAME,\"admitted\":true,\"tasks\":COUNT,\"version\":1 or 2,\"policy\":NUMBER,\"policy_name\":TEXT,
   \"list\":[{\"task\",\"period\",\"deadline\" (the smallest),\"lock\",\"frames\":[...],\"deadlines\":[...]}...]}
  of a refused sheet that of `explain --json`, then \"admitted\":false and, unless the length is wrong, \"length\", \"check_word\":HEX,
  \"computed_check_word\":HEX, \"version\", \"policy\", \"policy_name\":TEXT or null, \"tasks\", \"spare\":BITS and \"list\", whose records have
  \"frame_count\" too

Exit status: 0 admitted, 2 refused, 3 not read, or usage.
";

const COMPOSE: &str = "Writes the sheet of a table to standard output, or to FILE with -o: the whole file or none.

  # a comment runs to the end of its line
  policy listed                             # or: rate-monotonic, deadline-monotonic, 0, 1, 2
  task  period  deadline  lock  frames      # this line must stand there as it is
  0         10         4     0  2
  1         20        20     3  5           # task number, period, deadline, lock, then 1 to 8 frames

A frame may have a deadline of its own, written behind its time and a slash; the column is then for the frames without one, or has `-`
where there is none such:

  version 2                                 # may be left out, see below
  policy deadline-monotonic
  task  period  deadline  lock  frames
  0         20         -     0  4/10 2/5    # a frame of 4 ticks with deadline 10, one of 2 ticks with deadline 5
  1         12         7     3  3

The sheet is of version 2 where the deadlines of some task differ, and else of version 1, unless a line `version 1` or `version 2`, before
or behind that of the policy, or --to tells it; both must tell the same. Version 1 cannot hold deadlines that differ: refusal 17.
No line may have `<==`, in a comment either: `show` marks a fault with it.
Numbers are decimal digits. Periods, deadlines and frames are 1 to 1048575 ticks, locks 0 to 1048575; 1 to 16 tasks.
A line that is wrong is named on standard error as TABLE:LINE, and nothing is written.

Exit status: 0 written, 2 the set is refused, 3 the text is no table, not read or not written, or usage.
";

const CONVERT: &str = "Writes the set of a sheet of version 1 as a sheet of version 2 (--to 2), or the other way round (--to 1), to standard output, or to FILE
with -o: the whole file or none. Policy and tasks stay; there and back gives the same bytes. Version 2 has a deadline for each frame, which
is the task's own in what comes from version 1; version 1 has one for all frames of a task, and cannot hold deadlines that differ.
A refused sheet is told on standard error, and nothing is written: 17 with the first task whose deadlines differ and two of its frames, 3
with the version of the sheet and the one asked for, which must be the other; all else as `explain` says it.

Exit status: 0 written, 2 the sheet is refused, 3 not read or not written, or usage.
";

const PLAY: &str = "Plays the run of SCRIPT on the set of SHEET, tick by tick, up to the first miss (of a moment's misses that of the lower task number) or until
all jobs are done, and says how it ends; of a miss the task, the moment, and the job: when it was released, its frame, when it was due, by
the deadline of that frame, and how much of its work is left. Jobs of other tasks that miss at the same moment are told behind it, worked
out from the script and the ticks. Then a line for each task in priority order: its jobs, and how long the longest took.
On a terminal the last 60 ticks follow as lanes, a character for each tick: x runs, L starts a locked stretch, = goes on in it, . waits,
! misses.

  --last N  shows the last N ticks so, on a terminal or not; 0 for none
  --json    prints one object, and goes without --last:
  {\"file\":SCRIPT,\"sheet\":SHEET,\"verdict\":\"missed\",\"tasks\":COUNT,\"tick\":MOMENT,\"task\":TASK,\"released\",\"frame\",\"due\",\"work\",\"left\",
    \"also\":[{\"task\",\"released\",\"frame\",\"due\",\"work\",\"left\"}...] (the others that miss at the same moment),...
  {\"file\":SCRIPT,\"sheet\":SHEET,\"verdict\":\"done\",\"tasks\":COUNT,\"tick\":MOMENT,\"task\":null,...
    both: \"jobs\":COUNT,\"order\":[TASK...],\"list\":[{\"task\",\"jobs\",\"done\",\"longest\":{\"ticks\",\"released\",\"frame\"} or null}...]}
  {\"file\":SCRIPT,\"sheet\":SHEET,\"verdict\":\"refused\",\"refusal\":13 or 14,\"item\":ITEM or null,\"words\":TEXT,\"fault\":TEXT,\"advice\":TEXT}
  {\"file\":SCRIPT,\"sheet\":SHEET,\"verdict\":null,\"error\":TEXT}        (not read; standard error has the message as well)
  of a refused sheet the object of `explain --json`

A moment is the end of the tick before it: moment 5 is the end of tick 4. An item is a first frame or an entry of the script, counted
together from 0. Where SHEET is refused and SCRIPT reads as a sheet, that is said: they may be swapped.

Exit status: 0 all jobs are done, 1 a job misses, 2 the sheet or the script is refused, 3 not read, or usage.
";

const WORST: &str = "Of a set that misses, writes the worst run of the missed task's first frame without a response time as a script, to standard output or to
FILE with -o: the whole file or none. Its play ends with that miss. Of a set that holds it says so and writes nothing; a FILE that is there
from before stays as it was, which is said.
What is said stands on standard output, or on standard error where the script goes there.

  --json  prints one object, that of `check --json`, and of a missed set also \"frame\":FRAME, \"released\":1, \"tick\":MOMENT (of the miss),
          \"entries\":COUNT, \"bytes\":COUNT, \"script\":FILE; of a set that holds \"script\":null; of a refused sheet that of
          `explain --json`; it needs -o FILE

Exit status, that of the set: 0 holds (nothing is written), 1 missed (the script is written), 2 refused, 3 not read or not written, or usage.
";

const DRAW: &str = "Writes a timeline of the run as an SVG picture, to standard output or to FILE with -o: the whole file or none. There is a lane for each
task, the highest priority on top: releases are arrows up, deadlines arrows down, running ticks, the first tick of a locked stretch and its
others boxes of three colours, waiting grey; idle ticks are at the bottom, and a miss is a red cross, a thin one for each other task that
misses at the same moment. Without SCRIPT it is the worst run of a set that misses; of a set that holds it says so and writes nothing.
It chooses its scale; where a tick is narrower than a pixel the height of a colour is its share of the ticks, a line under each lane tells
what is there if only for one tick, and the first and the last 60 ticks are drawn once more, enlarged. A run in which no tick is played is
drawn as lanes that say so.
What is said stands on standard output, or on standard error where the picture goes there.

  --from N  draws from tick N on
  --to N    draws up to moment N, which is the end of tick N - 1

Exit status: 0 no job misses in the run, be it one without ticks, or the set holds and nothing is drawn, 1 a job misses, 2 the sheet or the
script is refused, 3 not read or not written, or usage.
";

const SCRIPT_COMPOSE: &str =
    "Writes the run script of a text, for the tasks of SHEET, to standard output or to FILE with -o: the whole file or none.

  # a comment runs to the end of its line
  first-frames 0 0                # the frame of each task's first job; later jobs take the following frames, going round
  task  tick  work  lock          # this line must stand there as it is
  1        0     4     4          # a release: of task 1, at tick 0, with work 4; each time it is picked it locks for 4 ticks
  0        1     2     0          # a lock of 0 or 1 locks nothing

Releases go by tick, and in a tick by task number. Those of a task are at least its period apart; work is at most the time of the job's
frame, and a lock at most the task's. Numbers are decimal digits, no tick, work or lock is above 1048575.
A line that is wrong is named on standard error as TEXT:LINE with the rule and by how much it breaks it, and nothing is written.
No line may have `<==`, in a comment either: `script show` marks a fault with it.

Exit status: 0 written, 2 the sheet or the script is refused, 3 the text is no script, not read or not written, or usage.
";

const SCRIPT_SHOW: &str = "Prints the text that `script compose` reads; composed, it gives the same bytes again. Of a refused script it prints what can be read, with
the fault marked by `<==`; the first line is then `refused` and the number, which no text has. `script compose` takes it when the fault is
mended and that line and the mark, with what follows it, are deleted. Entries that the count says and the bytes have not are a last line
`missing`, bytes behind those that it says a last line `surplus`; `script compose` takes neither.

  --json  prints one object:
  {\"file\":SCRIPT,\"sheet\":SHEET,\"admitted\":true,\"tasks\":COUNT,\"first_frames\":[...],\"entries\":COUNT,
   \"list\":[{\"task\",\"tick\",\"work\",\"lock\"}...]}
  of a refused script or sheet, and of what is not read, that of `play --json`

Exit status: 0 admitted, 2 the sheet or the script is refused, 3 not read, or usage.
";

const REFUSALS: &str =
    "Prints a line for each number. Of several faults the first decides: 1, 2, 3, 4, 5 for the header, 6; then task by task 7 and 8;
then 8 and 5 for what follows the records; then task by task 9, 10, 11. 12 is said to C programs only.
13 and 14 are about a run script, after all of its sheet's own; 14 names the first item at fault, first frames and entries counted together
from 0. 17 is said by `compose` and `convert`, after 11, where a sheet of version 1 is asked for; `convert` says 3 also of a sheet that has
the version asked for. `explain` says what is wrong in a sheet, `play` and `script show` what is wrong in a script.
";
