//! One limit problem through the solver, also within fewer rows, and the checker.

use crate::archive;
use crate::lent::{fresh, length, lent};
use problems::evidence::bent;
use problems::limits::Family;
use problems::random::Random;

/// How many bent answers each answered problem is checked with.
const BENT: usize = 3;

/// What became of a problem: the solver's number and verdict, and what the
/// checker said of the answer and of each bent one.
pub struct Outcome {
    /// 0, or the refusal.
    pub number: u32,
    /// 1 to 3, or 0 where the problem was refused.
    pub verdict: i64,
    /// Whether the answer is a "can" with a small part that is not 0.
    pub has_small: bool,
    /// Whether the problem was refused for its rows alone, within fewer of them.
    pub has_more_rows: bool,
    /// The checker's numbers.
    pub checks: Vec<u32>,
}

/// Compares one problem of the family. An error says what differs.
pub fn compare(random: &mut Random, family: Family) -> Result<Outcome, String> {
    let words = family.words(random);
    compare_words(random, &words).map_err(|what| format!("{what}: {words:?}"))
}

fn compare_words(random: &mut Random, words: &[i32]) -> Result<Outcome, String> {
    let length = length(random, needed(words));
    let before = fresh(random, length);
    let expected = lent(reference::solve, words, &before)?;
    let found = lent(archive::solve, words, &before)?;
    if found != expected {
        return Err(format!("solve gives {found:?}, the reference {expected:?}"));
    }
    let (number, out) = expected;
    let most_rows = most_rows(random, words);
    let has_more_rows =
        random.percent(25) && compare_within(most_rows, words, &before)? == 2 && number != 2;
    let mut answers = vec![out.clone()];
    if number == 0 {
        answers.extend((0..BENT).map(|_| bent(random, words, &out[..needed(words)])));
    }
    let checks = answers.iter().map(|answer| compare_check(words, answer));
    let checks = checks.collect::<Result<Vec<u32>, String>>()?;
    let verdict = if number == 0 { out[0] } else { 0 };
    if (verdict == 1 || verdict == 2) && checks[0] != 8 {
        return Err(format!("the checker does not accept the solver's {out:?}"));
    }
    if verdict == 2 {
        if let Some(limit) = reference::idle(words, &out) {
            return Err(format!("{limit:?} is named for nothing in {out:?}"));
        }
    }
    let smalls = (verdict == 1).then(|| &out[needed(words) - variables(words)..needed(words)]);
    let has_small = smalls.is_some_and(|smalls| smalls.iter().any(|&small| small != 0));
    Ok(Outcome { number, verdict, has_small, has_more_rows, checks })
}

/// A most rows: one less than there are, just so many, any, or too many. One
/// problem in four is solved within it too.
fn most_rows(random: &mut Random, words: &[i32]) -> u32 {
    let rows = words.get(1).map_or(0, |&rows| rows.clamp(0, 40) as u32);
    match random.below(4) {
        0 => rows.saturating_sub(1),
        1 => rows,
        2 => random.size(0, 30) as u32,
        _ => u32::MAX - random.below(3) as u32,
    }
}

/// The solver within so many rows: its number. An error says what differs.
pub fn compare_within(most_rows: u32, words: &[i32], before: &[i64]) -> Result<u32, String> {
    let expected = lent(|read, out| reference::solve_within(most_rows, read, out), words, before)?;
    let found = lent(|read, out| archive::solve_within(most_rows, read, out), words, before)?;
    if found != expected {
        return Err(format!(
            "solve within {most_rows} rows gives {found:?}, the reference {expected:?}"
        ));
    }
    Ok(expected.0)
}

/// The variables of an answered problem, rows' variables included.
fn variables(words: &[i32]) -> usize {
    (words[0] + words[1]) as usize
}

/// The words that an answer needs; of words without a meaning, some number.
pub fn needed(words: &[i32]) -> usize {
    match words {
        [n @ 1..=8, m @ 0..=24, ..] => 3 + 2 * (n + m) as usize,
        _ => 67,
    }
}

fn compare_check(words: &[i32], answer: &[i64]) -> Result<u32, String> {
    let (read_words, read_answer) = (words.to_vec(), answer.to_vec());
    let found = archive::check(&read_words, &read_answer);
    if read_words != words || read_answer != answer {
        return Err(format!("check has changed what it read, answer {answer:?}"));
    }
    let expected = reference::check(words, answer);
    if found != expected {
        return Err(format!("check gives {found}, the reference {expected}, answer {answer:?}"));
    }
    if found == 8 && answer[0] == 1 && !reference::meets(words, answer) {
        return Err(format!(
            "no fraction for the small amount meets all limits, answer {answer:?}"
        ));
    }
    Ok(found)
}
