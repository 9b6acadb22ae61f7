//! How a run ended, and the words that say so.
//!
//! Renders the answered output of docs/RULES.md, "Refusal numbers and their
//! order".

/// One multiplier for each variable's lower limit and one for each upper.
#[derive(Debug, Clone, PartialEq, Eq)]
pub struct Multipliers {
    pub lower: Vec<i128>,
    pub upper: Vec<i128>,
}

impl Multipliers {
    /// All multipliers 0.
    pub fn none(variables: usize) -> Multipliers {
        Multipliers { lower: vec![0; variables], upper: vec![0; variables] }
    }
}

#[derive(Debug, Clone, PartialEq, Eq)]
pub enum Verdict {
    /// Every limit holds at these numerators over the denominator, a plain one
    /// and that of the small part for each variable.
    Can { over: i128, plain: Vec<i128>, small: Vec<i128> },
    /// The limits contradict each other, as these multipliers show.
    Cannot(Multipliers),
    /// The next tableau holds a number that is too large.
    Range,
}

#[derive(Debug, Clone, PartialEq, Eq)]
pub struct Answer {
    pub verdict: Verdict,
    /// The number of completed pivots.
    pub pivots: i64,
}

impl Answer {
    /// The 3 + 2(n + m) words of the answer to a problem of n + m variables.
    pub fn words(&self, variables: usize) -> Vec<i64> {
        let zeros = vec![0; variables];
        let (number, over, first, second) = match &self.verdict {
            Verdict::Can { over, plain, small } => (1, *over, plain, small),
            Verdict::Cannot(multipliers) => (2, 0, &multipliers.lower, &multipliers.upper),
            Verdict::Range => (3, 0, &zeros, &zeros),
        };
        let mut words = vec![number, self.pivots, word(over)];
        words.extend(first.iter().chain(second).map(|&number| word(number)));
        words
    }
}

fn word(number: i128) -> i64 {
    i64::try_from(number).expect("an answer's number fits a word")
}
