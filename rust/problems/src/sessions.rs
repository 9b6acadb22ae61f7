//! Sessions: scripts of switches and checks, worked by hand and random.

use crate::draft::{above, at_least, at_most, below, Draft};
use crate::random::Random;

/// What is done with a session.
#[derive(Debug, Clone, Copy, PartialEq, Eq)]
pub enum Operation {
    /// A limit of a variable is switched on or off.
    Switch {
        /// The variable.
        variable: u32,
        /// Whether it is the upper limit; else it is the lower one.
        upper: bool,
        /// On, or off.
        on: bool,
    },
    /// The limits that are on are checked.
    Check,
}

/// What comes of it.
#[derive(Debug, Clone, PartialEq, Eq)]
pub enum Reply {
    /// The number of a switch: 0 or a refusal.
    Number(u32),
    /// The answer of a check.
    Answer(Vec<i64>),
}

/// A session with all that is done in it, and what comes of each.
pub struct Worked {
    /// What it shows.
    pub name: &'static str,
    /// The problem.
    pub words: Vec<i32>,
    /// The script, with replies.
    pub script: Vec<(Operation, Reply)>,
}

/// The sessions of docs/formats/session.md.
pub fn worked() -> Vec<Worked> {
    vec![atoms(), crossing(), strictly()]
}

/// x >= 5, y >= 3, 2x + y <= 12, x - 3y <= 2.
fn atoms() -> Worked {
    let rows: [&[i32]; 2] = [&[2, 1], &[1, -3]];
    let limits = [at_least(5), at_least(3), at_most(12), at_most(2)];
    Worked {
        name: "four limits, three of which clash",
        words: Draft::new(2, &rows, &limits).words(),
        script: vec![
            lower(0, true, 0),
            lower(1, true, 0),
            upper(3, true, 0),
            check(&[1, 0, 1, 5, 3, 13, -4, 0, 0, 0, 0]),
            upper(2, true, 0),
            check(&[2, 0, 0, 2, 1, 0, 0, 0, 0, 1, 0]),
            lower(0, true, 43),
            upper(0, true, 42),
            lower(9, true, 41),
            lower(3, false, 42),
            lower(0, false, 0),
            lower(0, false, 44),
            check(&[1, 1, 2, 9, 6, 24, -9, 0, 0, 0, 0]),
        ],
    }
}

/// x from 3 to 1, and 2x >= 5: limits that conflict, a switch that ends the
/// conflict, and a limit that is switched on while its variable is basic.
fn crossing() -> Worked {
    Worked {
        name: "limits that conflict, and then do not",
        words: Draft::new(1, &[&[2]], &[[3, 3, 1], at_least(5)]).words(),
        script: vec![
            lower(0, true, 0),
            upper(0, true, 0),
            check(&[2, 0, 0, 1, 0, 1, 0]),
            lower(0, false, 0),
            lower(1, true, 0),
            check(&[2, 0, 0, 0, 1, 2, 0]),
            upper(0, false, 0),
            check(&[1, 1, 2, 5, 10, 0, 0]),
            upper(0, true, 0),
            check(&[2, 0, 0, 0, 1, 2, 0]),
        ],
    }
}

/// x > 0 and x <= 0, which conflict, y < 3 and x + y > 3: values that move a
/// small amount inside, and a "cannot" whose total is 0.
fn strictly() -> Worked {
    let limits = [[7, 0, 0], below(3), above(3)];
    Worked {
        name: "strict limits",
        words: Draft::new(2, &[&[1, 1]], &limits).words(),
        script: vec![
            lower(0, true, 0),
            check(&[1, 0, 1, 0, 0, 0, 1, 0, 1]),
            upper(0, true, 0),
            check(&[2, 0, 0, 1, 0, 0, 1, 0, 0]),
            lower(0, false, 0),
            upper(1, true, 0),
            lower(2, true, 0),
            check(&[2, 1, 0, 0, 0, 1, 1, 1, 0]),
            upper(0, false, 0),
            check(&[1, 1, 1, 0, 3, 3, 2, -1, 1]),
            lower(0, true, 0),
            check(&[1, 0, 1, 0, 3, 3, 2, -1, 1]),
        ],
    }
}

fn lower(variable: u32, on: bool, number: u32) -> (Operation, Reply) {
    (Operation::Switch { variable, upper: false, on }, Reply::Number(number))
}

fn upper(variable: u32, on: bool, number: u32) -> (Operation, Reply) {
    (Operation::Switch { variable, upper: true, on }, Reply::Number(number))
}

fn check(answer: &[i64]) -> (Operation, Reply) {
    (Operation::Check, Reply::Answer(answer.to_vec()))
}

/// The words of an accepted problem with the limits that are on, and no others:
/// what the checker is handed with the answer of a check.
pub fn live_words(words: &[i32], is_on: impl Fn(usize, bool) -> bool) -> Vec<i32> {
    let (head, limits) = words.split_at(2 + (words[0] * words[1]) as usize);
    let live = limits.chunks_exact(3).enumerate().flat_map(|(variable, three)| {
        let [lower, upper] = [false, true].map(|upper| i32::from(is_on(variable, upper)));
        [three[0] & (lower * 5 + upper * 10), three[1] * lower, three[2] * upper]
    });
    head.iter().copied().chain(live).collect()
}

/// The limits of an accepted problem: variable, and whether it is the upper one.
pub fn limits(words: &[i32]) -> Vec<(usize, bool)> {
    Writer::new(words).found(false)
}

/// How many operations a random script has.
pub const OPERATIONS: usize = 30;

/// Writes a random script for an accepted problem. It knows which limits there
/// are and which are on, so that most switches are not refused.
pub struct Writer {
    /// Of each variable, lower and upper: whether there is such a limit.
    given: Vec<[bool; 2]>,
    /// Whether it is on.
    on: Vec<[bool; 2]>,
}

impl Writer {
    /// With every limit off.
    pub fn new(words: &[i32]) -> Writer {
        let limits = &words[2 + (words[0] * words[1]) as usize..];
        let given: Vec<[bool; 2]> =
            limits.chunks_exact(3).map(|three| [three[0] & 1 != 0, three[0] & 2 != 0]).collect();
        Writer { on: vec![[false; 2]; given.len()], given }
    }

    /// A whole script: every other one begins with many limits on. Then 35 of
    /// 100 operations are checks.
    pub fn script(mut self, random: &mut Random) -> Vec<Operation> {
        let mut script = Vec::new();
        if random.percent(50) {
            let share = random.pick(&[30, 60, 100]);
            for (variable, upper) in self.found(false) {
                if random.percent(share) {
                    script.push(self.switched(variable, upper, true));
                }
            }
        }
        for _ in 0..OPERATIONS {
            let checks = random.percent(35);
            script.push(if checks { Operation::Check } else { self.switch(random) });
        }
        script
    }

    /// A switch: mostly one that is not refused, and rather on than off.
    fn switch(&mut self, random: &mut Random) -> Operation {
        if random.percent(4) {
            let wrong = self.given.len() as u32 + random.pick(&[0, 1, 7, 1 << 16]);
            let variable = random.pick(&[wrong, wrong, u32::MAX, 1 << 31, 256]);
            return Operation::Switch {
                variable,
                upper: random.percent(50),
                on: random.percent(50),
            };
        }
        let on = random.percent(60);
        let found = self.found(!on);
        if random.percent(8) || found.is_empty() {
            let variable = random.below(self.given.len()) as u32;
            return Operation::Switch {
                variable,
                upper: random.percent(50),
                on: random.percent(50),
            }
            .told_to(self);
        }
        let (variable, upper) = random.pick(&found);
        self.switched(variable, upper, on)
    }

    /// The limits that are there and are on, or off.
    fn found(&self, on: bool) -> Vec<(usize, bool)> {
        let both = (0..self.given.len()).flat_map(|variable| [(variable, false), (variable, true)]);
        both.filter(|&(variable, upper)| {
            let side = usize::from(upper);
            self.given[variable][side] && self.on[variable][side] == on
        })
        .collect()
    }

    fn switched(&mut self, variable: usize, upper: bool, on: bool) -> Operation {
        Operation::Switch { variable: variable as u32, upper, on }.told_to(self)
    }
}

impl Operation {
    /// The writer takes note of a switch.
    fn told_to(self, writer: &mut Writer) -> Operation {
        if let Operation::Switch { variable, upper, on } = self {
            let (variable, side) = (variable as usize, usize::from(upper));
            writer.on[variable][side] = on && writer.given[variable][side];
        }
        self
    }
}

#[cfg(test)]
mod tests {
    use super::*;

    #[test]
    fn limits_that_are_off_are_taken_out() {
        let words = [1, 1, 2, 15, 3, 4, 11, -5, 6];
        let with = |lower, upper| live_words(&words, |_, side| if side { upper } else { lower });
        assert_eq!(with(true, true), words);
        assert_eq!(with(true, false), [1, 1, 2, 5, 3, 0, 1, -5, 0]);
        assert_eq!(with(false, true), [1, 1, 2, 10, 0, 4, 10, 0, 6]);
        assert_eq!(with(false, false), [1, 1, 2, 0, 0, 0, 0, 0, 0]);
    }

    #[test]
    fn most_switches_are_of_limits_that_are_there() {
        let words = &worked()[0].words;
        let mut refused = 0;
        for problem in 0..200 {
            let script = Writer::new(words).script(&mut Random::of_problem(3, problem));
            assert!((OPERATIONS..=OPERATIONS + 4).contains(&script.len()));
            refused += script
                .iter()
                .filter(|operation| matches!(operation, Operation::Switch { variable: 4.., .. }))
                .count();
        }
        assert!((50..500).contains(&refused), "{refused}");
    }
}
