//! How long each implementation takes, in one process and interleaved.
//!
//! Every contender goes over the same few problems, one after another, then
//! over the next few, many rounds long. The order changes round by round, so
//! that each goes first as often as the others: whoever goes second comes out up
//! to 3 % faster. The least times are added up and divided by the number of
//! problems. A problem is lent as words and answered into an output that is lent
//! too, so judging the words is part of what is measured, and making them is
//! not. The checker is measured on the answers of the first contender.
//!
//! Then scripts of edits, in a session and with each problem solved anew
//! (`edits`), a switch and a check alone, beside plain Rust's (`sessions`), days'
//! files, as one call and problem by problem (`days`),
//! traces: a replay beside the solve of its problem (`traces`), wide evidence: its
//! checker beside the other one (`wide`), and the longest SMT-LIB text beside a
//! solve (`texts`).
//!
//! `SEED=.. make bench` measures other problems. With the word `words` the limit
//! problems themselves are printed, for `tools/copied`.

mod contenders;
mod days;
mod edits;
mod measure;
mod sessions;
mod sets;
mod table;
mod texts;
mod traces;
mod wide;

use contenders::CONTENDERS;
use progress::Progress;
use std::io::{self, ErrorKind, Write};
use std::process::ExitCode;

const SEED: u64 = 1;

fn main() -> ExitCode {
    let words = std::env::args().nth(1).is_some_and(|word| word == "words");
    let mut out = io::stdout();
    match if words { print_words(&mut out) } else { print(&mut out) } {
        Err(error) if error.kind() != ErrorKind::BrokenPipe => {
            eprintln!("the table cannot be written: {error}");
            ExitCode::FAILURE
        }
        _ => ExitCode::SUCCESS,
    }
}

fn print(to: &mut impl Write) -> io::Result<()> {
    let seed = problems::random::seed_or(SEED);
    writeln!(to, "SEED={seed}, ns a problem, least of {} rounds", measure::ROUNDS)?;
    writeln!(to, "{}", table::heading(CONTENDERS))?;
    each("solve", sets::limits(seed), to, |set| {
        let times = measure::solve(CONTENDERS, set);
        table::line("solve", &set.name, &times, &set.pivots())
    })?;
    each("check", sets::limits(seed), to, |set| {
        let times = measure::check(CONTENDERS, set);
        table::line("check", &set.name, &times, "")
    })?;
    each("times", sets::times(seed), to, |set| {
        let times = measure::times(CONTENDERS, set);
        table::line("times", set.name, &times, "")
    })?;
    writeln!(to, "\n{}", edits::heading())?;
    each("edits", edits::sets(seed), to, |set| set.line())?;
    writeln!(to, "\n{}", sessions::heading())?;
    each("sessions", sessions::sets(seed), to, |set| set.lines())?;
    writeln!(to, "\n{}", days::heading())?;
    each("days", days::sets(seed), to, |set| set.line())?;
    writeln!(to, "\n{}", traces::heading())?;
    each("traces", sets::limits(seed), to, traces::line)?;
    writeln!(to, "\n{}", wide::heading())?;
    each("wide", sets::limits(seed), to, wide::line)?;
    writeln!(to, "\n{}", texts::heading())?;
    let sets = sets::limits(seed).into_iter();
    let full = sets.filter(|set| ["full", "largest"].contains(&set.name.as_str()));
    each("texts", full, to, texts::line)
}

/// Prints the line of each set; while it is measured a terminal says which one it is.
fn each<T>(
    what: &str,
    sets: impl IntoIterator<Item = T>,
    to: &mut impl Write,
    line: impl Fn(&T) -> String,
) -> io::Result<()> {
    let sets: Vec<T> = sets.into_iter().collect();
    let mut progress = Progress::new(what, sets.len() as u64);
    for set in &sets {
        progress.step_at_once();
        let line = line(set);
        progress.clear();
        writeln!(to, "{line}")?;
    }
    Ok(())
}

/// A problem a line: its set, a tab, and its words.
fn print_words(to: &mut impl Write) -> io::Result<()> {
    for set in sets::limits(problems::random::seed_or(SEED)) {
        for problem in &set.problems {
            let words: Vec<String> = problem.iter().map(i32::to_string).collect();
            writeln!(to, "{}\t{}", set.name, words.join(" "))?;
        }
    }
    Ok(())
}
