//! One limit problem's own trace, and bent ones held against its run.

use crate::archive;
use problems::limits::Family;
use problems::random::Random;
use problems::traces::bent;

/// How many bent traces each problem has.
const BENT: usize = 6;
/// Words around a room that nobody may touch.
const GUARD: usize = 4;

/// What became of a problem.
pub struct Outcome {
    /// 0, or the refusal of its words.
    pub number: u32,
    /// How many pivots its run has.
    pub pivots: usize,
    /// What each replay and each trace returned.
    pub calls: Vec<u32>,
    /// Which word each wrong step is told for.
    pub wrong: Vec<u32>,
}

/// Compares one problem of the family. An error says what differs.
pub fn compare(random: &mut Random, family: Family) -> Result<Outcome, String> {
    let words = family.words(random);
    compare_words(random, &words).map_err(|what| format!("{what}: {words:?}"))
}

fn compare_words(random: &mut Random, words: &[i32]) -> Result<Outcome, String> {
    let own = reference::trace(words);
    let mut outcome = Outcome { number: 0, pivots: 0, calls: Vec::new(), wrong: Vec::new() };
    let own = match own {
        Ok(own) => own,
        Err(number) => {
            outcome.number = number;
            Vec::new()
        }
    };
    outcome.pivots = own.len() / 3;
    for room in [own.len(), length(random, own.len())] {
        outcome.calls.push(compare_trace(random, words, outcome.number, &own, room)?);
    }
    compare_replay(words, &own, &mut outcome)?;
    for _ in 0..BENT {
        compare_replay(words, &bent(random, &own), &mut outcome)?;
    }
    Ok(outcome)
}

fn compare_replay(words: &[i32], trace: &[u32], outcome: &mut Outcome) -> Result<(), String> {
    let found = archive::replay(words, trace);
    let wanted = reference::replay(words, trace);
    let was = (found.number, found.word, found.step);
    let should = (wanted.number, wanted.word, wanted.step);
    if was != should {
        return Err(format!("a replay of {trace:?} gives {was:?}, the reference {should:?}"));
    }
    outcome.calls.push(found.number);
    if found.number == 52 {
        outcome.wrong.push(found.word);
    }
    Ok(())
}

/// The trace into room for so many words, between guards.
fn compare_trace(
    random: &mut Random,
    words: &[i32],
    refused: u32,
    own: &[u32],
    room: usize,
) -> Result<u32, String> {
    let before: Vec<u32> = (0..room + 2 * GUARD).map(|_| random.bits() as u32).collect();
    let mut all = before.clone();
    let found = archive::trace(words, &mut all[GUARD..GUARD + room]);
    let number = match refused {
        0 if room < own.len() => 7,
        refused => refused,
    };
    let count = if number == 0 { own.len() } else { 0 };
    if (found.refused, found.count) != (number, count) {
        return Err(format!("a trace into {room} words gives {found:?}, not {number} and {count}"));
    }
    let kept = &before[GUARD + count..];
    if all != [&before[..GUARD], &own[..count], kept].concat() {
        return Err(format!("a trace into {room} words leaves {all:?}"));
    }
    Ok(number)
}

/// A room for so many words: longer, just enough, or too short.
fn length(random: &mut Random, needed: usize) -> usize {
    match random.below(8) {
        0 if needed > 0 => needed - 1,
        1 if needed > 0 => random.below(needed),
        2 => needed,
        _ => needed + random.size(1, 5),
    }
}
