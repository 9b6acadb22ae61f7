//! `scatterflock trace` and `scatterflock replay`: the pivots of a run, and
//! another solver's held against them.

mod read;

use crate::input;
use crate::options::Options;
use crate::problem::{place, problem, refused_words};
use crate::table::table;
use crate::{json, Ended, Failure, CAN, CANNOT};
use scatterflock::{Replayed, TraceWord};
use std::ffi::OsStr;
use std::io::Read;
use text::limits::{Limits, Side};

/// The trace of a problem's own run, a step a line.
pub fn trace(file: &OsStr, options: &Options, stdin: &mut dyn Read) -> Result<Ended, Failure> {
    let (_, problem) = problem(input::problem(file, stdin)?)?;
    let own = own(&problem)?;
    if options.bytes {
        let output = own.iter().flat_map(|word| word.to_le_bytes()).collect();
        return Ok(Ended { output, errors: String::new(), status: CAN });
    }
    let steps = own.chunks_exact(3);
    if options.json {
        let listed = json::list(steps.map(json_step));
        return Ok(Ended::saying(json::object(&[("steps", listed)]), CAN));
    }
    if own.is_empty() {
        return Ok(Ended::saying("# The run has no pivots.\n".to_string(), CAN));
    }
    let rows: Vec<Vec<String>> = steps
        .map(|step| {
            let numbers: Vec<String> = step.iter().map(u32::to_string).collect();
            vec![numbers.join(" "), format!("# {}", told(&problem, step))]
        })
        .collect();
    Ok(Ended::saying(table("", &rows), CAN))
}

/// Another solver's trace against the run.
pub fn replay(
    file: &OsStr,
    given: &OsStr,
    is_json: bool,
    stdin: &mut dyn Read,
) -> Result<Ended, Failure> {
    let (_, problem) = problem(input::problem(file, stdin)?)?;
    let given = read::trace(given, &problem, stdin)?;
    let words = problem.words();
    let replayed = scatterflock::replay(&words, &given.words)
        .map_err(|refusal| refused_words(&problem, refusal))?;
    let own = own(&problem)?;
    let what = match replayed {
        Replayed::LeftOver => {
            let what = format!("{} words are not three for each step", given.words.len());
            return Err(Failure::Refused { number: replayed.number(), what, notes: vec![] });
        }
        Replayed::Accepted => {
            format!("All its steps, {}, are the run's own, and the run is over.", own.len() / 3)
        }
        Replayed::Early => {
            let steps = given.words.len() / 3;
            let next = told(&problem, &own[3 * steps..][..3]);
            format!("Its steps, {steps}, are the run's own, and the run goes on: {next}.")
        }
        Replayed::Past => {
            let steps = own.len() / 3;
            format!("The run is over after {steps} steps, and the trace has more.")
        }
        Replayed::Wrong { step, word } => wrong(&problem, &given, &own, step, word),
    };
    let is_accepted = replayed == Replayed::Accepted;
    let status = if is_accepted { CAN } else { CANNOT };
    if is_json {
        let mut fields = vec![
            ("accepted", is_accepted.to_string()),
            ("number", replayed.number().to_string()),
            ("reason", json::text(&what.replace('\n', " "))),
        ];
        if let Replayed::Wrong { step, word } = replayed {
            fields.extend([("step", step.to_string()), ("word", (word as u32).to_string())]);
            fields.push(("run", json_step(&own[3 * step..][..3])));
        }
        return Ok(Ended::saying(json::object(&fields), status));
    }
    let head = if is_accepted { "accepted" } else { "not accepted" };
    Ok(Ended::saying(format!("{head}\n\n# {}\n", what.replace('\n', "\n# ")), status))
}

fn own(problem: &Limits) -> Result<Vec<u32>, Failure> {
    scatterflock::trace(&problem.words()).map_err(|refusal| refused_words(problem, refusal))
}

/// What the trace has at a wrong word, and what the run does there: two lines.
fn wrong(
    problem: &Limits,
    given: &read::Trace,
    own: &[u32],
    step: usize,
    word: TraceWord,
) -> String {
    let line = given.lines.get(step).map_or(String::new(), |line| format!(" (line {line})"));
    let (said, is) = (given.words[3 * step + word as usize], own[3 * step + word as usize]);
    let name = |variable| named(problem, variable);
    let (said, is) = match word {
        TraceWord::Leaving => (format!("{} leaves", name(said)), format!("{} does", name(is))),
        TraceWord::Entering => (format!("{} enters", name(said)), format!("{} does", name(is))),
        TraceWord::Mask => (
            format!("{} are basic afterwards", listed(problem, said)),
            format!("{} are", listed(problem, is)),
        ),
    };
    let whole = told(problem, &own[3 * step..][..3]);
    format!("In step {step}{line} the trace says that {said}; in the run {is}.\nThere {whole}.")
}

/// A step in words.
fn told(problem: &Limits, step: &[u32]) -> String {
    let name = |variable| named(problem, variable);
    let basic = listed(problem, step[2]);
    format!("{} leaves and {} enters, then {basic} are basic", name(step[0]), name(step[1]))
}

/// A variable by its name, a row by its line's name or number, or by its sum.
fn named(problem: &Limits, variable: u32) -> String {
    let at = variable as usize;
    if at >= problem.limits.len() {
        return format!("{variable}, which is no variable,");
    }
    if at < problem.names.len() {
        return problem.names[at].clone();
    }
    let line = Side::BOTH.into_iter().find_map(|side| place(problem, at, side));
    line.unwrap_or_else(|| problem.left(at))
}

/// The variables of a mask.
fn listed(problem: &Limits, mask: u32) -> String {
    let all: Vec<String> = (0..32)
        .filter(|variable| mask >> variable & 1 == 1)
        .map(|variable| match variable as usize >= problem.limits.len() {
            true => format!("{variable} (no variable)"),
            false => named(problem, variable),
        })
        .collect();
    if all.is_empty() {
        "none".to_string()
    } else {
        all.join(", ")
    }
}

fn json_step(step: &[u32]) -> String {
    let names = ["leaving", "entering", "mask"];
    let fields: Vec<(&str, String)> =
        names.into_iter().zip(step.iter().map(u32::to_string)).collect();
    json::inner(&fields)
}
