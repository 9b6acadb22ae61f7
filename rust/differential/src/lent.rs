//! An output to lend, with words around it that nobody may touch.

use problems::random::Random;

const GUARD: usize = 4;

/// An output before it is lent: words that no answer has, all different.
pub fn fresh(random: &mut Random, length: usize) -> Vec<i64> {
    let first = random.bits() as i64 | i64::MIN;
    (0..length as i64).map(|place| first.wrapping_add(place) | i64::MIN).collect()
}

/// What a function returned and what it left of the output. An error says
/// that it wrote where nothing was lent, or changed the words that it read.
pub fn lent<T>(
    function: impl FnOnce(&[i32], &mut [i64]) -> T,
    words: &[i32],
    before: &[i64],
) -> Result<(T, Vec<i64>), &'static str> {
    let read = words.to_vec();
    let guard = [i64::MIN + 7; GUARD];
    let mut all = [&guard, before, &guard].concat();
    let returned = function(&read, &mut all[GUARD..GUARD + before.len()]);
    if read != words {
        return Err("the words that were read have changed");
    }
    let out = all[GUARD..GUARD + before.len()].to_vec();
    if all[..GUARD] != guard || all[GUARD + before.len()..] != guard {
        return Err("words beside the output have changed");
    }
    Ok((returned, out))
}

/// A length for an output that needs so many words: mostly longer, often just
/// enough, at times too short.
pub fn length(random: &mut Random, needed: usize) -> usize {
    match random.below(20) {
        0 => random.below(needed),
        1 => needed - 1,
        2..=7 => needed,
        _ => needed + random.size(1, 9),
    }
}

/// A list with guards on both sides, to be lent.
pub struct Lent<T> {
    all: Vec<T>,
    guard: T,
}

impl<T: Copy + PartialEq> Lent<T> {
    /// The list as it is before it is lent.
    pub fn new(list: &[T], guard: T) -> Lent<T> {
        let guards = [guard; GUARD];
        Lent { all: [&guards, list, &guards].concat(), guard }
    }

    /// The list, to be read.
    pub fn lent(&self) -> &[T] {
        &self.all[GUARD..self.all.len() - GUARD]
    }

    /// The list, to be written.
    pub fn lent_mut(&mut self) -> &mut [T] {
        let end = self.all.len() - GUARD;
        &mut self.all[GUARD..end]
    }

    /// The list afterwards. An error says that something beside it was written.
    pub fn back(self) -> Result<Vec<T>, &'static str> {
        let list = self.lent().to_vec();
        let (first, rest) = self.all.split_at(GUARD);
        let last = &rest[rest.len() - GUARD..];
        if first.iter().chain(last).any(|&guard| guard != self.guard) {
            return Err("something beside a list that was lent has changed");
        }
        Ok(list)
    }
}
