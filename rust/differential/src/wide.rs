//! Wide evidence of one limit problem, found and bent, through its checker.

use crate::archive;
use problems::limits::Family;
use problems::random::Random;
use problems::wide::{bent, dense, largest, widened};
use reference::Numbers;

/// How many bent versions of each piece of evidence are checked.
const BENT: usize = 4;

/// What kind of problem is drawn.
#[derive(Debug, Clone, Copy)]
pub enum Drawn {
    /// One of a family.
    Of(Family),
    /// One with eight dense variables and coefficients up to that.
    Dense(i32),
    /// One with determinants as large as they get.
    Largest,
}

/// What became of a problem: its refusal or the verdict that was found, whether
/// its run leaves the range, and what the checker said of the evidence and of
/// each bent version.
pub struct Outcome {
    /// 0, or the refusal.
    pub number: u32,
    /// 1 or 2, or 0 where the problem was refused.
    pub verdict: i64,
    /// Whether the solver has "out of range".
    pub is_beyond: bool,
    /// The checker's numbers.
    pub checks: Vec<u32>,
}

impl Drawn {
    /// Every family, and then the problems beyond the range.
    pub fn all() -> Vec<Drawn> {
        let beyond = [Drawn::Dense(10), Drawn::Dense(100), Drawn::Dense(1_000), Drawn::Largest];
        Family::ALL.into_iter().map(Drawn::Of).chain(beyond).collect()
    }

    fn words(self, random: &mut Random) -> Vec<i32> {
        match self {
            Drawn::Of(family) => family.words(random),
            Drawn::Dense(size) => dense(random, size),
            Drawn::Largest => largest(random),
        }
    }
}

/// Compares one problem. An error says what differs.
pub fn compare(random: &mut Random, drawn: Drawn) -> Result<Outcome, String> {
    let words = drawn.words(random);
    compare_words(random, &words).map_err(|what| format!("{what}: {words:?}"))
}

fn compare_words(random: &mut Random, words: &[i32]) -> Result<Outcome, String> {
    let mut narrow = [0; 67];
    let number = archive::solve(words, &mut narrow);
    if number != 0 {
        let length = random.below(300);
        let answer: Vec<i64> = (0..length).map(|_| random.bits() as i64).collect();
        let checks = vec![compare_check(words, &answer)?];
        return Ok(Outcome { number, verdict: 0, is_beyond: false, checks });
    }
    let evidence = finder::find(words).ok_or("it is undecided")?;
    let is_beyond = narrow[0] == 3;
    if is_beyond {
        compare_verdict(words, &evidence)?;
    } else if evidence != widened(&narrow[..3 + 2 * (words[0] + words[1]) as usize]) {
        return Err(format!("{evidence:?} is found, and the solver has {narrow:?}"));
    }
    let mut answers = vec![evidence.clone()];
    answers.extend((0..BENT).map(|_| bent(random, words, &evidence)));
    let checks = answers.iter().map(|answer| compare_check(words, answer));
    let checks = checks.collect::<Result<Vec<u32>, String>>()?;
    if checks[0] != 8 {
        return Err(format!("the checker gives {} for what was found, {evidence:?}", checks[0]));
    }
    Ok(Outcome { number, verdict: evidence[0], is_beyond, checks })
}

/// The verdict and the pivots that were found, beside two exact runs.
fn compare_verdict(words: &[i32], evidence: &[i64]) -> Result<(), String> {
    let of = |numbers| reference::decided(words, numbers).ok_or("reference refuses it");
    let ((is_met, pivots), (is_met_too, _)) = (of(Numbers::Lowest)?, of(Numbers::Highest)?);
    let expected = [if is_met { 1 } else { 2 }, pivots as i64];
    if evidence[..2] != expected || is_met != is_met_too {
        let both = [is_met, is_met_too];
        return Err(format!(
            "{:?} is found, exact runs have {expected:?}, {both:?}",
            &evidence[..2]
        ));
    }
    Ok(())
}

/// The number of the checker. An error says what differs.
pub fn compare_check(words: &[i32], answer: &[i64]) -> Result<u32, String> {
    let (read_words, read_answer) = (words.to_vec(), answer.to_vec());
    let found = archive::check_wide(&read_words, &read_answer);
    if read_words != words || read_answer != answer {
        return Err(format!("check_wide has changed what it read, answer {answer:?}"));
    }
    let expected = reference::check_wide(words, answer);
    if found != expected {
        return Err(format!("check_wide gives {found}, the reference {expected}, {answer:?}"));
    }
    Ok(found)
}
