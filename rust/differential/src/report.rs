//! Many problems, counted.

use crate::wide;
use crate::{bundles, limits, sessions, sheets, slices, smtlib, texts, times, traces, violations};
use problems::random::Random;
use progress::counted;
use std::collections::BTreeMap;
use std::fmt;

/// How often each outcome came.
#[derive(Debug, Default)]
pub struct Report {
    /// How many problems were compared.
    pub problems: u64,
    /// By verdict or refusal.
    pub outcomes: BTreeMap<String, u64>,
    /// By what further calls returned: a checker, continues, switches and checks
    /// of sessions, the writer of a day's file, or replays and traces.
    pub calls: BTreeMap<u32, u64>,
    /// How many answers have small parts.
    pub with_small: u64,
    /// How many problems were refused for their rows alone, within fewer of them.
    pub with_more_rows: u64,
}

/// Compares so many limit problems, the families in turn. An error says which
/// problem of which seed differs, and how.
pub fn limits(seed: u64, problems: u64) -> Result<Report, String> {
    let mut report = Report::default();
    for problem in counted("limits", problems) {
        let family = in_turn(&problems::limits::Family::ALL, problem);
        let outcome = limits::compare(&mut Random::of_problem(seed, problem), family)
            .map_err(|what| format!("SEED={seed}, problem {problem}, {family:?}: {what}"))?;
        report.count(outcome.number, ["", "can", "cannot", "range"], outcome.verdict);
        report.count_calls(&outcome.checks);
        report.with_small += u64::from(outcome.has_small);
        report.with_more_rows += u64::from(outcome.has_more_rows);
    }
    Ok(report)
}

/// Compares so many limit problems in slices, the families in turn.
pub fn slices(seed: u64, problems: u64) -> Result<Report, String> {
    let mut report = Report::default();
    for problem in counted("slices", problems) {
        let family = in_turn(&problems::limits::Family::ALL, problem);
        let outcome = slices::compare(&mut Random::of_problem(seed, problem), family)
            .map_err(|what| format!("SEED={seed}, problem {problem}, {family:?}: {what}"))?;
        report.count(outcome.number, ["", "can", "cannot", "range"], outcome.verdict);
        report.count_calls(&outcome.continues);
    }
    Ok(report)
}

/// Compares so many sessions, one for each problem, the families in turn. What
/// is counted is each check by its verdict, and each refused opening.
pub fn sessions(seed: u64, problems: u64) -> Result<Report, String> {
    let mut report = Report::default();
    for problem in counted("sessions", problems) {
        let family = in_turn(&problems::limits::Family::ALL, problem);
        let outcome = sessions::compare(&mut Random::of_problem(seed, problem), family)
            .map_err(|what| format!("SEED={seed}, problem {problem}, {family:?}: {what}"))?;
        report.problems += 1;
        report.count_outcome(&format!("refused {}", outcome.number), (outcome.number != 0).into());
        for (name, count) in outcome.checks {
            report.count_outcome(name, count);
        }
        report.count_calls(&outcome.calls);
    }
    Ok(report)
}

/// Compares the traces of so many limit problems, the families in turn. What is
/// counted beside what calls returned is each wrong word, and how many runs
/// have pivots.
pub fn traces(seed: u64, problems: u64) -> Result<Report, String> {
    let mut report = Report::default();
    for problem in counted("traces", problems) {
        let family = in_turn(&problems::limits::Family::ALL, problem);
        let outcome = traces::compare(&mut Random::of_problem(seed, problem), family)
            .map_err(|what| format!("SEED={seed}, problem {problem}, {family:?}: {what}"))?;
        report.problems += 1;
        report.count_outcome(&format!("refused {}", outcome.number), (outcome.number != 0).into());
        report.count_outcome("pivots", (outcome.pivots > 0).into());
        for word in outcome.wrong {
            report.count_outcome(["leaving", "entering", "mask"][word as usize], 1);
        }
        report.count_calls(&outcome.calls);
    }
    Ok(report)
}

/// Compares the first violations of so many limit problems, the families in turn.
pub fn violations(seed: u64, problems: u64) -> Result<Report, String> {
    let mut report = Report::default();
    for problem in 0..problems {
        let family = in_turn(&problems::limits::Family::ALL, problem);
        let outcome = violations::compare(&mut Random::of_problem(seed, problem), family)
            .map_err(|what| format!("SEED={seed}, problem {problem}, {family:?}: {what}"))?;
        let names = ["nothing", "below", "above", "by small amounts"];
        report.count(outcome.number, names, outcome.shown as i64);
    }
    Ok(report)
}

/// Compares the SMT-LIB texts of so many limit problems, the families in turn.
pub fn smtlib(seed: u64, problems: u64) -> Result<Report, String> {
    let mut report = Report::default();
    for problem in counted("smtlib", problems) {
        let family = in_turn(&problems::limits::Family::ALL, problem);
        let number = smtlib::compare(&mut Random::of_problem(seed, problem), family)
            .map_err(|what| format!("SEED={seed}, problem {problem}, {family:?}: {what}"))?;
        report.count(number, ["written", "", "", ""], 0);
    }
    Ok(report)
}

/// Compares so many SMT-LIB texts that are read back, the families in turn. What is
/// counted beside the numbers is each text that is refused at its end, and of each
/// way to bend one how many are read.
pub fn texts(seed: u64, problems: u64) -> Result<Report, String> {
    let mut report = Report::default();
    for problem in 0..problems {
        let family = in_turn(&problems::limits::Family::ALL, problem);
        let outcome = texts::compare(&mut Random::of_problem(seed, problem), family)
            .map_err(|what| format!("SEED={seed}, problem {problem}, {family:?}: {what}"))?;
        report.count(outcome.number, ["read", "", "", ""], 0);
        report.count_outcome("too early", outcome.is_early.into());
        let bent = format!("{:?} read", outcome.bent);
        report.count_outcome(&bent, (outcome.number != 60).into());
    }
    Ok(report)
}

/// Compares so many time rows, the families in turn.
pub fn times(seed: u64, problems: u64) -> Result<Report, String> {
    let mut report = Report::default();
    for problem in counted("times", problems) {
        let family = in_turn(&problems::times::Family::ALL, problem);
        let outcome = times::compare(&mut Random::of_problem(seed, problem), family)
            .map_err(|what| format!("SEED={seed}, problem {problem}, {family:?}: {what}"))?;
        report.count(outcome.number, ["", "times", "cycle", ""], outcome.verdict);
        report.count_calls(&outcome.checks);
    }
    Ok(report)
}

/// Compares wide evidence of so many limit problems: the families in turn, and
/// after each round of them dense problems of each size. What is counted beside
/// the checker's numbers is each verdict, and each beyond the range.
pub fn wide(seed: u64, problems: u64) -> Result<Report, String> {
    let mut report = Report::default();
    for problem in counted("wide", problems) {
        let drawn = in_turn(&wide::Drawn::all(), problem);
        let outcome = wide::compare(&mut Random::of_problem(seed, problem), drawn)
            .map_err(|what| format!("SEED={seed}, problem {problem}, {drawn:?}: {what}"))?;
        report.count(outcome.number, ["", "can", "cannot", ""], outcome.verdict);
        report.count_outcome("beyond the range", outcome.is_beyond.into());
        report.count_calls(&outcome.checks);
    }
    Ok(report)
}

/// Compares so many dense problems of each size, whose coefficients are up to 10,
/// 100 and 1,000: none is undecided. An error says which one is, or differs.
pub fn dense(seed: u64, problems: u64) -> Result<Report, String> {
    let mut report = Report::default();
    for size in [10, 100, 1_000] {
        for problem in counted("dense", problems) {
            let drawn = wide::Drawn::Dense(size);
            let outcome = wide::compare(&mut Random::of_problem(seed, problem), drawn)
                .map_err(|what| format!("SEED={seed}, problem {problem}, {drawn:?}: {what}"))?;
            let name = format!("up to {size}, {}", ["", "can", "cannot"][outcome.verdict as usize]);
            report.problems += 1;
            report.count_outcome(&name, 1);
            report.count_outcome(&format!("up to {size}, beyond"), outcome.is_beyond.into());
            report.count_calls(&outcome.checks);
        }
    }
    Ok(report)
}

/// Compares so many days' files and calls of their writer, the families in turn.
/// What is counted is each file that is read, by its edition too, each refused
/// one, each body, each with the line of a refusal, and each with more than 16 rows.
pub fn bundles(seed: u64, files: u64) -> Result<Report, String> {
    let mut report = Report::default();
    for file in counted("days", files) {
        let family = in_turn(&problems::bundles::Family::ALL, file);
        let outcome = bundles::compare(&mut Random::of_problem(seed, file), family)
            .map_err(|what| format!("SEED={seed}, file {file}, {family:?}: {what}"))?;
        report.count(outcome.number, ["read", "", "", ""], 0);
        if outcome.number == 0 {
            report.count_outcome("bodies", outcome.bodies as u64);
            report.count_outcome("refused bodies", outcome.refused as u64);
            report.count_outcome(&format!("edition {}", outcome.edition), 1);
            let more_rows = format!("more than 16 rows, edition {}", outcome.edition);
            report.count_outcome(&more_rows, outcome.with_more_rows as u64);
        }
        report.count_calls(&outcome.writes);
    }
    Ok(report)
}

/// Compares the sheets of so many days' files. What is counted is each refused file,
/// the sums of the figures of all sheets, and the sheets that name no body.
pub fn sheets(seed: u64, files: u64) -> Result<Report, String> {
    let mut report = Report::default();
    for file in counted("sheets", files) {
        let outcome = sheets::compare(&mut Random::of_problem(seed, file))
            .map_err(|what| format!("SEED={seed}, file {file}: {what}"))?;
        report.count(outcome.number, ["sheets", "", "", ""], 0);
        for (name, count) in &outcome.counts {
            report.count_outcome(name, *count);
        }
        report.count_outcome("named", outcome.named);
        report.count_outcome("without a verdict", outcome.without_verdict.into());
    }
    Ok(report)
}

fn in_turn<T: Copy>(families: &[T], problem: u64) -> T {
    families[problem as usize % families.len()]
}

impl Report {
    fn count(&mut self, number: u32, names: [&str; 4], verdict: i64) {
        let name = match number {
            0 => names[verdict as usize].to_string(),
            refusal => format!("refused {refusal}"),
        };
        self.problems += 1;
        self.count_outcome(&name, 1);
    }

    fn count_outcome(&mut self, name: &str, count: u64) {
        if count > 0 {
            *self.outcomes.entry(name.to_string()).or_default() += count;
        }
    }

    fn count_calls(&mut self, numbers: &[u32]) {
        for &number in numbers {
            *self.calls.entry(number).or_default() += 1;
        }
    }

    /// How many problems had this outcome.
    pub fn of(&self, outcome: &str) -> u64 {
        self.outcomes.get(outcome).copied().unwrap_or(0)
    }
}

impl fmt::Display for Report {
    fn fmt(&self, to: &mut fmt::Formatter) -> fmt::Result {
        write!(to, "{} problems, no difference: {:?}", self.problems, self.outcomes)?;
        if !self.calls.is_empty() {
            write!(to, ", calls {:?}", self.calls)?;
        }
        if self.with_small > 0 {
            write!(to, ", {} with small parts", self.with_small)?;
        }
        if self.with_more_rows > 0 {
            write!(to, ", {} refused within fewer rows", self.with_more_rows)?;
        }
        Ok(())
    }
}
