//! One limit problem through a start and continues.

use crate::archive;
use crate::lent::{fresh, length, lent};
use crate::limits::needed;
use problems::limits::Family;
use problems::random::Random;

/// After so many continues one goes to the end of the run.
const MOST_CONTINUES: usize = 24;
/// How often a run that is over is continued.
const AGAIN: usize = 2;
/// The answer of a problem with nothing to do: what a refused start hands back
/// is its state.
const IDLE: [i64; 5] = [1, 0, 1, 0, 0];

/// What became of a problem.
pub struct Outcome {
    /// 0, or the refusal of its start.
    pub number: u32,
    /// 1 to 3, or 0 where the problem was refused.
    pub verdict: i64,
    /// What each continue returned.
    pub continues: Vec<u32>,
}

/// Compares one problem of the family. An error says what differs.
pub fn compare(random: &mut Random, family: Family) -> Result<Outcome, String> {
    let words = family.words(random);
    compare_words(random, &words).map_err(|what| format!("{what}: {words:?}"))
}

fn compare_words(random: &mut Random, words: &[i32]) -> Result<Outcome, String> {
    let begun = archive::slice_start(words);
    match reference::Slice::start(words) {
        Err(number) => {
            if begun.refused != number {
                return Err(format!("start gives {}, the reference {number}", begun.refused));
            }
            look_at_idle(begun.slice)?;
            Ok(Outcome { number, verdict: 0, continues: Vec::new() })
        }
        Ok(expected) => {
            if (begun.refused, begun.slice.count()) != (0, 0) {
                return Err(format!("start gives {}, the reference 0", begun.refused));
            }
            compare_run(random, words, begun.slice, expected)
        }
    }
}

fn look_at_idle(slice: archive::Slice) -> Result<(), String> {
    let mut out = IDLE.map(|word| !word);
    let next = archive::slice_continue(slice, 0, &mut out);
    if next.refused == 0 && next.answered && out == IDLE {
        Ok(())
    } else {
        Err(format!("a refused start hands back a state that answers {out:?}"))
    }
}

fn compare_run(
    random: &mut Random,
    words: &[i32],
    mut slice: archive::Slice,
    mut expected: reference::Slice,
) -> Result<Outcome, String> {
    let needed = needed(words);
    let mut whole = vec![0; needed];
    assert_eq!(reference::solve(words, &mut whole), 0);
    let mut continues = Vec::new();
    let mut finished = 0;
    while finished <= AGAIN {
        let last = continues.len() >= MOST_CONTINUES;
        let pivots = if last { usize::MAX } else { number(random) };
        let length = if last { needed } else { length(random, needed) };
        let before = fresh(random, length);
        let (found, out) =
            lent(|_, out| archive::slice_continue(slice, pivots, out), words, &before)?;
        let (wanted, out_wanted) =
            lent(|_, out| expected.go_on(pivots as u64, out), words, &before)?;
        let was = (found.refused, found.answered, found.slice.count() as u64);
        let should = (wanted.number, wanted.answered, wanted.slice.pivots());
        if (was, &out) != (should, &out_wanted) {
            return Err(format!(
                "a continue by {pivots} gives {was:?} {out:?}, the reference {should:?} {out_wanted:?}"
            ));
        }
        if found.answered {
            finished += 1;
            if out[..needed] != whole {
                return Err(format!("cut, the answer is {out:?}, uncut {whole:?}"));
            }
        }
        continues.push(found.refused);
        (slice, expected) = (found.slice, wanted.slice);
    }
    Ok(Outcome { number: 0, verdict: whole[0], continues })
}

/// Pivots for a continue: mostly few, often none, at times more than any run
/// has.
fn number(random: &mut Random) -> usize {
    match random.below(20) {
        0..=5 => 0,
        6..=15 => random.size(1, 3),
        16..=17 => random.size(1, 40),
        18 => usize::MAX - random.below(3),
        _ => 1 << 63,
    }
}
