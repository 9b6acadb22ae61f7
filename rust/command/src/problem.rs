//! A limit problem of a file, and what can be said of its limits.

use crate::fraction::Pair;
use crate::input::{self, bad, Content, Input};
use crate::{smtlib, Failure};
use scatterflock::sizes::MOST_WORDS;
use scatterflock::{Bundle, Refusal, WideVerdict};
use text::limits::{self, Limits, Side};

/// The problem of a file. Its words are not refused, but for a row of zeros.
pub fn problem(input: Input) -> Result<(String, Limits), Failure> {
    let Input { file, content, .. } = input;
    let notes = match &content {
        Content::Bytes(bytes) if Bundle::read(bytes).is_ok() => {
            vec!["this is a day's file: scatterflock day answers its bodies".to_string()]
        }
        _ => vec![],
    };
    let words = match content {
        Content::Text(text) => {
            let problem = limits::read(&text).map_err(|fault| bad(&file, &text, fault))?;
            return Ok((file, problem));
        }
        Content::Smtlib(bytes) => {
            let problem = smtlib::read(&file, &bytes)?;
            return Ok((file, problem));
        }
        Content::Words(words) => words,
        Content::Bytes(bytes) => match bytes.len() {
            0..8 => return Err(refused(Refusal::FewWords, notes)),
            count if count > 4 * MOST_WORDS || count % 4 != 0 => {
                return Err(refused(Refusal::Length, notes))
            }
            _ => input::words(&bytes),
        },
    };
    // A blank row is told later, with its number. Other words that are refused may have no text.
    match (scatterflock::Problem::from_words(&words), Limits::from_words(&words)) {
        (Ok(_) | Err(Refusal::BlankRow), Some(problem)) => Ok((file, problem)),
        (Err(refusal), _) => Err(refused(refusal, notes)),
        (Ok(_), None) => panic!("words that are not refused have a text"),
    }
}

/// The refusal, with lines that tell where it comes from.
pub fn refused(refusal: Refusal, notes: Vec<String>) -> Failure {
    Failure::Refused { number: refusal.number(), what: refusal.to_string(), notes }
}

/// The refusal of a problem's words.
pub fn refused_words(problem: &Limits, refusal: Refusal) -> Failure {
    let n = problem.names.len();
    let blank = (0..problem.rows.len()).filter(|&row| problem.rows[row].iter().all(|&c| c == 0));
    let notes = blank.flat_map(|row| {
        Side::BOTH.into_iter().filter_map(move |side| {
            let said = problem.limit_text(n + row, side)?;
            Some(
                place(problem, n + row, side)
                    .map_or(said.clone(), |line| format!("{line}: {said}")),
            )
        })
    });
    refused(refusal, if refusal == Refusal::BlankRow { notes.collect() } else { vec![] })
}

/// What is said of comments that read as limits, where there are any: `what` is
/// limits or rows.
pub fn left_out(text: Option<&str>, what: &str) -> String {
    let lines = text.map(text::left_out).unwrap_or_default();
    let listed = lines.iter().map(usize::to_string).collect::<Vec<String>>().join(", ");
    match lines.len() {
        0 => String::new(),
        1 => format!("# Left out, since they are comments, are {what} in line {listed}.\n"),
        _ => format!("# Left out, since they are comments, are {what} in lines {listed}.\n"),
    }
}

/// What the line of a limit is called in a column of lines: its name, or its
/// number. It is empty where there is no line.
pub fn called(problem: &Limits, variable: usize, side: Side) -> String {
    let place = place(problem, variable, side).unwrap_or_default();
    place.strip_prefix("line ").map_or(place.clone(), str::to_string)
}

/// `line 3`, where there is one, or what the line is called.
pub fn place(problem: &Limits, variable: usize, side: Side) -> Option<String> {
    let line = problem.limits[variable][side as usize]?.line?;
    let label = problem.labels.of_line(line);
    Some(label.map_or_else(|| format!("line {line}"), str::to_string))
}

/// Every limit that there is, by line and then by variable.
pub fn all_limits(problem: &Limits) -> Vec<(usize, Side)> {
    let count = problem.limits.len();
    let both = (0..count).flat_map(|variable| Side::BOTH.map(|side| (variable, side)));
    let mut all: Vec<(usize, Side)> = both
        .filter(|&(variable, side)| problem.limits[variable][side as usize].is_some())
        .collect();
    all.sort_by_key(|&(variable, side)| {
        (problem.limits[variable][side as usize].and_then(|limit| limit.line), variable)
    });
    all
}

/// Whether both limits are the same, not strict, and set in one line.
pub fn is_one_value(problem: &Limits, variable: usize) -> bool {
    let [lower, upper] = problem.limits[variable];
    lower.is_some_and(|limit| !limit.is_strict) && lower == upper
}

/// Numerators over one denominator, and their small parts, for each variable, as
/// the words have them.
#[derive(Clone, Copy)]
pub struct Values<'a> {
    pub problem: &'a Limits,
    pub over: i128,
    pub plain: &'a [i128],
    pub small: &'a [i128],
}

impl<'a> Values<'a> {
    /// The values of a verdict, where it has any.
    pub fn of(problem: &'a Limits, verdict: &'a Option<WideVerdict>) -> Option<Values<'a>> {
        let Some(WideVerdict::Can { over, numerators, small }) = verdict else { return None };
        Some(Values { problem, over: *over, plain: numerators, small })
    }

    /// The value of a variable or a row, as the text has it.
    pub fn at(self, variable: usize) -> Pair {
        let over = self.over * i128::from(self.problem.scale(variable));
        Pair::new([self.plain[variable], self.small[variable]], over)
    }

    /// How far it is inside of a limit, over the denominator; below 0 where it
    /// breaks it.
    pub fn room(self, (variable, side): (usize, Side)) -> [i128; 2] {
        let limit = self.problem.limits[variable][side as usize];
        let limit = limit.map_or(0, |limit| i128::from(limit.number));
        let (plain, small) = (self.plain[variable] - limit * self.over, self.small[variable]);
        match side {
            Side::Lower => [plain, small],
            Side::Upper => [-plain, -small],
        }
    }

    /// The same as a fraction, as the text has it.
    pub fn spare(self, limit: (usize, Side)) -> Pair {
        Pair::new(self.room(limit), self.over * i128::from(self.problem.scale(limit.0)))
    }
}
