//! Time rows through the time solver, and its answer, whole and bent, through
//! the checker of evidence about them. Which bad cycle is named is free, so the
//! output is judged and not compared word by word.

use crate::archive;
use crate::lent::{fresh, length, lent};
use problems::random::Random;
use problems::times::Family;
use problems::times_evidence::bent;

/// How many bent answers each answered rows are checked with.
const BENT: usize = 3;

/// What became of time rows: the number, and the verdict where it is 0.
pub struct Outcome {
    /// 0, or the refusal.
    pub number: u32,
    /// 1 or 2, or 0 where the rows were refused.
    pub verdict: i64,
    /// The checker's numbers, of the answer and of each bent one.
    pub checks: Vec<u32>,
}

/// Judges the answer to time rows of the family. An error says what is wrong.
pub fn compare(random: &mut Random, family: Family) -> Result<Outcome, String> {
    let words = family.words(random);
    let needed = match words[..] {
        [n @ 1..=64, ..] => 2 + 2 * n as usize,
        _ => 130,
    };
    let length = length(random, needed);
    let before = fresh(random, length);
    let (number, after) = lent(archive::times, &words, &before)?;
    if !reference::times_is_right(&words, &before, &after, number) {
        return Err(format!("times returns {number} and leaves {after:?}: {words:?}"));
    }
    let verdict = if number == 0 { after[0] } else { 0 };
    let mut answers = vec![after.clone()];
    if number == 0 {
        answers.extend((0..BENT).map(|_| bent(random, &after[..needed])));
    }
    let checks = answers.iter().map(|answer| compare_check(&words, answer));
    let checks = checks.collect::<Result<Vec<u32>, String>>()?;
    if number == 0 && checks[0] != 8 {
        return Err(format!("the checker does not accept the solver's {after:?}: {words:?}"));
    }
    Ok(Outcome { number, verdict, checks })
}

/// The number of the checker. An error says what differs.
pub fn compare_check(rows: &[i32], answer: &[i64]) -> Result<u32, String> {
    let (read_rows, read_answer) = (rows.to_vec(), answer.to_vec());
    let found = archive::check_times(&read_rows, &read_answer);
    if read_rows != rows || read_answer != answer {
        return Err(format!("check_times has changed what it read, answer {answer:?}: {rows:?}"));
    }
    let expected = reference::check_times(rows, answer);
    if found != expected {
        return Err(format!(
            "check_times gives {found}, the reference {expected}, answer {answer:?}: {rows:?}"
        ));
    }
    Ok(found)
}
