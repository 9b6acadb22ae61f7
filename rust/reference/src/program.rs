//! The programs: bytes of a problem, or its SMT-LIB text, in, lines of text out.
//!
//! Renders "The program" of docs/RULES.md, and "The program `lab`" of
//! docs/formats/smtlib.md.

use crate::answer::{Answer, Multipliers, Verdict};
use crate::problem::Problem;
use crate::run::run;
use crate::smtlib::words_of;

const FEWEST_BYTES: usize = 8;
const MOST_BYTES: usize = 1160;
/// The most bytes of a text for `lab`.
const MOST_LAB: usize = 65_536;

/// Everything that the program prints for these bytes on standard input.
pub fn respond(input: &[u8]) -> Vec<u8> {
    text(read(input))
}

/// Everything that the program `lab` prints for this text on standard input.
pub fn lab(input: &[u8]) -> Vec<u8> {
    let read = if input.len() > MOST_LAB { Err(MOST_LAB) } else { words_of(input) };
    match read {
        Ok(words) => text(Problem::read(&words)),
        Err(place) => format!("refused at {place}\n").into_bytes(),
    }
}

/// What is printed for a body of a day's file whose edition allows so many rows: it
/// is judged by its words, and its number of bytes is not.
pub fn body_text(most_rows: u32, words: &[i32]) -> Vec<u8> {
    text(Problem::read_within(most_rows, words))
}

fn text(read: Result<Problem, u32>) -> Vec<u8> {
    let lines = match read {
        Ok(problem) => answer_lines(&run(&problem)),
        Err(refusal) => vec![format!("refused {refusal}")],
    };
    lines.iter().flat_map(|line| format!("{line}\n").into_bytes()).collect()
}

/// The number of bytes is judged before any word is.
fn read(input: &[u8]) -> Result<Problem, u32> {
    if input.len() < FEWEST_BYTES {
        return Err(1);
    }
    if !input.len().is_multiple_of(4) || input.len() > MOST_BYTES {
        return Err(3);
    }
    let word = |four: &[u8]| i32::from_le_bytes(four.try_into().expect("four bytes"));
    let words: Vec<i32> = input.chunks(4).map(word).collect();
    Problem::read(&words)
}

fn answer_lines(answer: &Answer) -> Vec<String> {
    let pivots = format!("pivots {}", answer.pivots);
    match &answer.verdict {
        Verdict::Can { over, plain, small } => {
            let mut lines = vec!["can".to_string(), pivots, format!("over {over}")];
            lines.extend(plain.iter().zip(small).enumerate().map(value_line));
            lines
        }
        Verdict::Cannot(multipliers) => {
            let mut lines = vec!["cannot".to_string(), pivots];
            lines.extend(multiplier_lines(multipliers));
            lines
        }
        Verdict::Range => vec!["range".to_string(), pivots],
    }
}

/// The small part's numerator stands after the plain one where it is not 0.
fn value_line((variable, (plain, small)): (usize, (&i128, &i128))) -> String {
    match small {
        0 => format!("{variable} {plain}"),
        _ => format!("{variable} {plain} {small}"),
    }
}

fn multiplier_lines(multipliers: &Multipliers) -> Vec<String> {
    let both = multipliers.lower.iter().zip(&multipliers.upper).enumerate();
    both.flat_map(|(v, (&lower, &upper))| {
        [
            (lower != 0).then(|| format!("{v} lower {lower}")),
            (upper != 0).then(|| format!("{v} upper {upper}")),
        ]
    })
    .flatten()
    .collect()
}
