//! The words of the command line.

use std::ffi::OsString;

pub const HELP: &str = "\
usage: scatterflock [--json | --page | --words] solve [--each] [--first] [--wide] FILE
       scatterflock [--json] check [--wide] [--times] FILE ANSWER
       scatterflock [--json | --page | --words] times FILE
       scatterflock words [--times] [--bytes] FILE
       scatterflock smtlib FILE
       scatterflock edit FILE
       scatterflock [--json | --page | --bare] day DAY
       scatterflock [--json | --page | --bare] audit DAY
       scatterflock pack [--edition=N] DAY FILE..
       scatterflock unpack [--bytes] DAY FOLDER
       scatterflock [--json] trace [--bytes] FILE
       scatterflock [--json] replay FILE TRACE

  solve   can all limits of FILE be met at once? With values, or with the limits that clash
  check   is ANSWER right for the limits or the time rows of FILE? Asks the proved checker
  times   can all time rows of FILE be met? With times, or with the rows that go round
  words   a text as words, or words as a text
  smtlib  the limits of FILE as SMT-LIB text, for other solvers
  edit    limits of FILE switched off and on, with an answer each time: off 4, on 4, back, list, why
  day     the answers to all bodies of DAY, a day's file: limits of many files in one
  audit   exact totals over all bodies of DAY, a line each
  pack    writes DAY, with a body for each FILE; a text's names are lost
  unpack  writes each body of DAY into FOLDER: body-00.txt and so on, or .words where it is refused
  trace   the pivots of the run on FILE: who leaves, who enters, and who is basic then, as a mask
  replay  is TRACE, another solver's pivots, the run on FILE? Else the first step that differs

  --json    the answer as one line of JSON
  --page    the answer as a page of HTML, with pictures, to look at or to print
  --words   the answer as bare numbers, which check takes too
  --each    for each limit of a clash, what the others come to without it
  --first   the first limit that the run finds broken at its start, and by how much
  --wide    where a number grows too large, go on in wide numbers and decide; of check, ANSWER is wide
  --times   the words of FILE are time rows, not limits
  --bytes   words, or a trace, as bytes, four each word, as a file .words has them
  --bare    the proved text of a day, or of its totals, as it is
  --edition=1, --edition=2   the edition of DAY; without it 2 where some body has more than 16 rows

A FILE is a text that declares its names and has one limit a line,

    names zone1 zone2 solder
    let low = 20.5                # a constant
    zone1 >= low
    3 zone1 - 2 zone2 <= 412.5    # a comment
    zone2 = zone1 + 45
    solder < 217                  # strict: 217 itself is left out

or, of time rows,

    times start1 start2
    start1 + 30 <= start2

or a file .words, or a text of bare numbers, or SMT-LIB text, a file .smt2, as smtlib writes it; - is
standard input.

Status: 0 can, or accepted; 1 cannot, or not accepted; 2 out of range; 3 refused; 4 a bad text or
command; 5 a file cannot be read, or the output not be written. Of day the greatest of its bodies';
of audit 0, whatever the bodies are, or 3 where DAY itself is refused.
";

#[derive(Debug, PartialEq, Eq)]
pub enum Action {
    Help,
    Version,
    Solve(OsString),
    Check(OsString, OsString),
    Times(OsString),
    Words(OsString),
    Smtlib(OsString),
    Edit(OsString),
    Day(OsString),
    Audit(OsString),
    Pack(OsString, Vec<OsString>),
    Unpack(OsString, OsString),
    Trace(OsString),
    Replay(OsString, OsString),
}

#[derive(Debug, PartialEq, Eq)]
pub struct Options {
    pub action: Action,
    pub json: bool,
    pub page: bool,
    pub words: bool,
    pub each: bool,
    pub first: bool,
    pub wide: bool,
    pub times: bool,
    pub bytes: bool,
    pub bare: bool,
    /// Of the file to pack, where it is told.
    pub edition: Option<u32>,
}

const COMMANDS: [&str; 12] = [
    "solve", "check", "times", "words", "smtlib", "edit", "day", "audit", "pack", "unpack",
    "trace", "replay",
];

/// An option, the commands that have it, and the options that it does not stand
/// beside.
type Rule = (&'static str, &'static str, &'static str);

const RULES: [Rule; 10] = [
    ("--json", "solve check times day audit trace replay", ""),
    ("--page", "solve times day audit", "--json --each --bare"),
    ("--words", "solve times", "--json --page --each"),
    ("--each", "solve", ""),
    ("--first", "solve", "--page --words"),
    ("--wide", "solve check", ""),
    ("--times", "check words", "--wide"),
    ("--bytes", "words trace unpack", "--json"),
    ("--bare", "day audit", "--json"),
    ("--edition", "pack", ""),
];

/// What is wrong with an option beside the others that a command is given.
fn broken((option, of, not_beside): Rule, command: &str, given: &[&str]) -> Option<String> {
    let [of, not_beside]: [Vec<&str>; 2] =
        [of, not_beside].map(|words| words.split_whitespace().collect());
    let is_beside = |others: &Vec<&str>| others.iter().any(|other| given.contains(other));
    if !given.contains(&option) || of.contains(&command) && !is_beside(&not_beside) {
        return None;
    }
    let beside = match not_beside[..] {
        [] => String::new(),
        _ => format!(", and not beside {}", listed(&not_beside, "or")),
    };
    Some(format!("{option} is an option of {}{beside}", listed(&of, "and")))
}

/// Words in a row: `solve, times and day`.
fn listed(words: &[&str], last: &str) -> String {
    match words {
        [others @ .., before, end] => {
            [others, &[&format!("{before} {last} {end}")]].concat().join(", ")
        }
        words => words.concat(),
    }
}

/// The question whether another word was meant.
fn near(word: &str, among: impl Iterator<Item = &'static str>) -> String {
    let near = text::nearest(word, among);
    near.map_or(String::new(), |near| format!("; is it {near}?"))
}

/// The words of the command line, apart.
#[derive(Default)]
struct Apart {
    given: Vec<&'static str>,
    edition: Option<u32>,
    /// Help or version, whichever comes first.
    asked: Option<Action>,
    others: Vec<OsString>,
}

impl Apart {
    fn of(words: &[OsString]) -> Result<Apart, String> {
        let mut apart = Apart::default();
        let mut is_over = false;
        for word in words {
            let option = word.to_str().filter(|word| !is_over && word.starts_with('-'));
            match option {
                None | Some("-") => apart.others.push(word.clone()),
                Some("--") => is_over = true,
                Some("--help" | "-h") => apart.asked = apart.asked.or(Some(Action::Help)),
                Some("--version" | "-V") => apart.asked = apart.asked.or(Some(Action::Version)),
                Some(option) => apart.take(option)?,
            }
        }
        Ok(apart)
    }

    fn take(&mut self, option: &str) -> Result<(), String> {
        if option.starts_with("--edition") {
            self.edition = Some(edition_of(option)?);
        }
        let name = option.split('=').next().filter(|name| *name == option || *name == "--edition");
        let Some(rule) = RULES.iter().find(|rule| Some(rule.0) == name) else {
            let others = RULES.iter().map(|rule| rule.0).chain(["--help", "--version"]);
            return Err(format!("there is no option {option}{}", near(option, others)));
        };
        self.given.push(rule.0);
        Ok(())
    }
}

impl Options {
    pub fn read(words: &[OsString]) -> Result<Options, String> {
        let Apart { given, edition, asked, mut others } = Apart::of(words)?;
        let action = match asked {
            Some(action) => action,
            None if others.is_empty() => return Err("there is no command".to_string()),
            None => {
                let name = others.remove(0).to_string_lossy().into_owned();
                let action = action(&name, others)?;
                let broken = RULES.into_iter().find_map(|rule| broken(rule, &name, &given));
                broken.map_or(Ok(action), Err)?
            }
        };
        let has = |option: &str| given.contains(&option);
        Ok(Options {
            action,
            json: has("--json"),
            page: has("--page"),
            words: has("--words"),
            each: has("--each"),
            first: has("--first"),
            wide: has("--wide"),
            times: has("--times"),
            bytes: has("--bytes"),
            bare: has("--bare"),
            edition,
        })
    }
}

/// What a command does with these files.
fn action(name: &str, mut files: Vec<OsString>) -> Result<Action, String> {
    let count = files.len();
    let count_stdin = files.iter().filter(|file| *file == "-").count();
    let mut next = || files.remove(0);
    match (name, count) {
        ("solve", 1) => Ok(Action::Solve(next())),
        ("times", 1) => Ok(Action::Times(next())),
        ("words", 1) => Ok(Action::Words(next())),
        ("smtlib", 1) => Ok(Action::Smtlib(next())),
        ("edit", 1) if count_stdin == 1 => {
            Err("edit reads commands from standard input, and FILE is another".to_string())
        }
        ("edit", 1) => Ok(Action::Edit(next())),
        ("day", 1) => Ok(Action::Day(next())),
        ("audit", 1) => Ok(Action::Audit(next())),
        ("trace", 1) => Ok(Action::Trace(next())),
        ("check" | "replay", 2) if count_stdin == 2 => {
            Err("one of the two files can be standard input, not both".to_string())
        }
        ("check", 2) => Ok(Action::Check(next(), next())),
        ("replay", 2) => Ok(Action::Replay(next(), next())),
        ("unpack", 2) => Ok(Action::Unpack(next(), next())),
        ("pack", 2..) => {
            let day = next();
            match files.iter().filter(|file| *file == "-").count() {
                0 | 1 => Ok(Action::Pack(day, files)),
                _ => Err("one of the files can be standard input, not more".to_string()),
            }
        }
        ("pack", _) => Err("pack takes the file to write, and then files".to_string()),
        ("unpack", _) => Err("unpack takes a file and a folder".to_string()),
        ("check" | "replay", _) => Err(format!("{name} takes two files")),
        ("help", _) => Ok(Action::Help),
        _ if COMMANDS.contains(&name) => Err(format!("{name} takes one file")),
        _ => Err(format!("there is no command {name}{}", near(name, COMMANDS.into_iter()))),
    }
}

/// The number behind `--edition=`.
fn edition_of(option: &str) -> Result<u32, String> {
    let number = option.strip_prefix("--edition=").and_then(|number| number.parse().ok());
    number.ok_or_else(|| format!("{option}: the edition is --edition=1 or --edition=2"))
}
