//! Random limit problems, by family.
//!
//! Most problems are made around a point: its rows' sums are taken and limits
//! are put on either side of them, so that the point meets them. A share of
//! the limits is then moved past the point, which makes many of the problems
//! impossible and the others harder.

use crate::damage;
use crate::draft::{at_least, at_most, between, repeated, Draft, FREE};
use crate::oven;
use crate::random::Random;
use crate::strict;

/// A family of limit problems.
#[derive(Debug, Clone, Copy, PartialEq, Eq)]
pub enum Family {
    /// 2 or 3 variables, 3 to 5 rows.
    Tiny,
    /// 4 variables, 8 rows.
    Medium,
    /// 8 variables, 16 rows.
    Full,
    /// 8 variables, 24 rows: as large as a problem gets.
    Largest,
    /// Zones of an oven: few numbers in a row.
    Oven,
    /// Three zones of an oven at two points of its ramp, with 17 to 24 rows.
    Zones,
    /// Any size within the rules.
    AnySize,
    /// Rows that must equal a number.
    Equalities,
    /// Limits of 0 nearly everywhere, and rows that repeat.
    Degenerate,
    /// Large dense coefficients, many of which lead out of range.
    Range,
    /// Three variables and coefficients of hundreds: numbers that come up to the
    /// end of the range, fall again, or pass it.
    Edge,
    /// A variable whose limits may be crossed.
    Crossed,
    /// Problems of the families above, each present limit strict or not.
    Strict,
    /// Limits that one point touches, some of them strict: ties decide.
    Touching,
    /// Words of another family with the coefficients of some rows all 0, and
    /// of a third of those with something else wrong besides.
    BlankRows,
    /// Words of another family with something wrong.
    Damaged,
    /// Words of no meaning.
    Garbage,
}

impl Family {
    /// Every family.
    pub const ALL: [Family; 17] = [
        Family::Tiny,
        Family::Medium,
        Family::Full,
        Family::Largest,
        Family::Oven,
        Family::Zones,
        Family::AnySize,
        Family::Equalities,
        Family::Degenerate,
        Family::Range,
        Family::Edge,
        Family::Crossed,
        Family::Strict,
        Family::Touching,
        Family::BlankRows,
        Family::Damaged,
        Family::Garbage,
    ];

    /// The families whose words are never refused.
    pub const ACCEPTED: [Family; 14] = [
        Family::Tiny,
        Family::Medium,
        Family::Full,
        Family::Largest,
        Family::Oven,
        Family::Zones,
        Family::AnySize,
        Family::Equalities,
        Family::Degenerate,
        Family::Range,
        Family::Edge,
        Family::Crossed,
        Family::Strict,
        Family::Touching,
    ];

    /// Those of them in which no limit is strict.
    pub const UNMARKED: [Family; 12] = [
        Family::Tiny,
        Family::Medium,
        Family::Full,
        Family::Largest,
        Family::Oven,
        Family::Zones,
        Family::AnySize,
        Family::Equalities,
        Family::Degenerate,
        Family::Range,
        Family::Edge,
        Family::Crossed,
    ];

    /// The family's name in tables.
    pub fn name(self) -> &'static str {
        match self {
            Family::Tiny => "tiny",
            Family::Medium => "medium",
            Family::Full => "full",
            Family::Largest => "largest",
            Family::Oven => "oven",
            Family::Zones => "zones",
            Family::AnySize => "any size",
            Family::Equalities => "equalities",
            Family::Degenerate => "degenerate",
            Family::Range => "range",
            Family::Edge => "edge",
            Family::Crossed => "crossed",
            Family::Strict => "strict",
            Family::Touching => "touching",
            Family::BlankRows => "blank rows",
            Family::Damaged => "damaged",
            Family::Garbage => "garbage",
        }
    }

    /// The words of a problem of this family.
    pub fn words(self, random: &mut Random) -> Vec<i32> {
        match self {
            Family::BlankRows => blank_rows(random),
            Family::Damaged => {
                let whole = random.pick(&Family::ACCEPTED).words(random);
                damage::damaged(random, whole)
            }
            Family::Garbage => damage::garbage(random),
            accepted => accepted.draft(random).words(),
        }
    }

    fn draft(self, random: &mut Random) -> Draft {
        match self {
            Family::Tiny => tiny(random),
            Family::Medium => {
                around(random, 4, 8, Make { zeros: 30, largest: 5, slack: 6, moved: 45 })
            }
            Family::Full => {
                around(random, 8, 16, Make { zeros: 40, largest: 4, slack: 6, moved: 35 })
            }
            Family::Largest => {
                around(random, 8, 24, Make { zeros: 40, largest: 4, slack: 6, moved: 25 })
            }
            Family::Oven => oven::oven(random),
            Family::Zones => oven::zones(random),
            Family::AnySize => any_size(random),
            Family::Equalities => equalities(random),
            Family::Degenerate => degenerate(random),
            Family::Range => range(random),
            Family::Edge => edge(random),
            Family::Strict => {
                let unmarked = random.pick(&Family::UNMARKED).draft(random);
                strict::marked_draft(random, unmarked)
            }
            Family::Touching => strict::touching(random),
            _ => crossed(random),
        }
    }
}

/// How a problem is made around a point.
#[derive(Clone, Copy)]
struct Make {
    /// Percentage of coefficients that are 0.
    zeros: usize,
    /// The largest size of a coefficient.
    largest: i32,
    /// The most that a limit leaves on its side of the point.
    slack: i32,
    /// Percentage of variables whose limits are moved past the point.
    moved: usize,
}

fn tiny(random: &mut Random) -> Draft {
    let (n, m) = (random.size(2, 3), random.size(3, 5));
    around(random, n, m, Make { zeros: 20, largest: 3, slack: 4, moved: 70 })
}

fn any_size(random: &mut Random) -> Draft {
    let (n, m) = (random.size(1, 8), random.size(0, 24));
    let make = Make {
        zeros: random.size(0, 70),
        largest: random.pick(&[1, 2, 5, 20, 1_000]),
        slack: random.pick(&[0, 3, 100, 30_000]),
        moved: random.pick(&[0, 10, 30, 60]),
    };
    around(random, n, m, make)
}

fn around(random: &mut Random, n: usize, m: usize, make: Make) -> Draft {
    let rows: Vec<Vec<i32>> = (0..m).map(|_| row(random, n, make)).collect();
    let point: Vec<i32> = (0..n).map(|_| random.within(-6, 6)).collect();
    let limits = sums(&point, &rows).into_iter().map(|sum| limit(random, sum, make)).collect();
    Draft { n, rows, limits }
}

/// A row in which some coefficient is not 0.
fn row(random: &mut Random, n: usize, make: Make) -> Vec<i32> {
    let mut row: Vec<i32> = (0..n).map(|_| coefficient(random, make)).collect();
    if row.iter().all(|&coefficient| coefficient == 0) {
        row[random.below(n)] = random.pick(&[1, -1]);
    }
    row
}

fn coefficient(random: &mut Random, make: Make) -> i32 {
    if random.percent(make.zeros) {
        0
    } else {
        random.within(-make.largest, make.largest)
    }
}

/// The value of every variable at a point.
fn sums(point: &[i32], rows: &[Vec<i32>]) -> Vec<i32> {
    let sum = |row: &Vec<i32>| row.iter().zip(point).map(|(c, x)| c * x).sum();
    point.iter().copied().chain(rows.iter().map(sum)).collect()
}

/// Limits of any kind for a variable that has this value at the point.
fn limit(random: &mut Random, value: i32, make: Make) -> [i32; 3] {
    let past = if random.percent(make.moved) { random.within(1, 1 + make.slack / 2) } else { 0 };
    let lower = value - random.within(0, make.slack);
    let upper = value + random.within(0, make.slack);
    let either = if random.percent(50) { past } else { -past };
    match random.below(4) {
        0 => FREE,
        1 => at_least(in_range(lower + either.max(0) * 2)),
        2 => at_most(in_range(upper + either.min(0) * 2)),
        _ => between(in_range(lower + either), in_range(upper + either)),
    }
}

fn in_range(limit: i32) -> i32 {
    limit.clamp(-30_000, 30_000)
}

fn equalities(random: &mut Random) -> Draft {
    let n = random.size(2, 8);
    let m = random.size(1, n + 2);
    let make = Make { zeros: 40, largest: 5, slack: 0, moved: 0 };
    let rows: Vec<Vec<i32>> = (0..m).map(|_| row(random, n, make)).collect();
    let point: Vec<i32> = (0..n).map(|_| random.within(-9, 9)).collect();
    let off = random.pick(&[0, 10, 40, 80]);
    let limits = sums(&point, &rows).into_iter().enumerate().map(|(variable, sum)| {
        let target = sum + if random.percent(off) { random.within(-2, 2) } else { 0 };
        match (variable < n, random.below(10)) {
            (true, 0..=5) => FREE,
            (true, _) => between(sum - random.within(0, 5), sum + random.within(0, 5)),
            (false, 0) => at_least(target),
            (false, _) => between(target, target),
        }
    });
    let limits = limits.collect();
    Draft { n, rows, limits }
}

fn degenerate(random: &mut Random) -> Draft {
    let (n, m) = (random.size(2, 8), random.size(2, 24));
    let make = Make { zeros: 45, largest: random.pick(&[1, 1, 2]), slack: 0, moved: 0 };
    let mut rows: Vec<Vec<i32>> = Vec::new();
    while rows.len() < m {
        let new = row(random, n, make);
        rows.push(if rows.is_empty() || random.percent(65) {
            new
        } else {
            repeated(random, &rows)
        });
    }
    let mut limits: Vec<[i32; 3]> = (0..n + m).map(|_| zero_limit(random)).collect();
    for _ in 0..random.size(1, 4) {
        limits[n + random.below(m)] = random.pick(&[at_least(1), at_most(-1), between(1, 1)]);
    }
    Draft { n, rows, limits }
}

fn zero_limit(random: &mut Random) -> [i32; 3] {
    match random.below(7) {
        0 | 1 => FREE,
        2 | 3 => at_least(0),
        4 | 5 => at_most(0),
        _ => between(0, 0),
    }
}

fn range(random: &mut Random) -> Draft {
    let (n, m) = (random.size(2, 8), random.size(2, 24));
    let largest = random.pick(&[12, 40, 150, 1_000]);
    let make = Make { zeros: random.pick(&[0, 10, 50]), largest, slack: 9, moved: 10 };
    let mut draft = around(random, n, m, make);
    for limit in &mut draft.limits[n..] {
        if random.percent(40) {
            let number = random.within(-9, 9);
            *limit = between(number, number);
        }
    }
    draft
}

fn edge(random: &mut Random) -> Draft {
    let m = random.size(4, 8);
    let zeros = random.pick(&[0, 20]);
    let least = random.pick(&[300, 600]);
    let rows = (0..m).map(|_| edge_row(random, zeros, least)).collect();
    let mut limits = vec![FREE; 3];
    for _ in 0..m {
        let number = random.within(0, 30_000);
        limits.push(random.pick(&[at_least(number), at_most(-number)]));
    }
    Draft { n: 3, rows, limits }
}

/// Three coefficients of at least that size, or 0, but not all 0.
fn edge_row(random: &mut Random, zeros: usize, least: i32) -> Vec<i32> {
    let mut row: Vec<i32> = (0..3)
        .map(|_| {
            let size = random.within(least, 1_000);
            let signed = random.pick(&[size, -size]);
            if random.percent(zeros) {
                0
            } else {
                signed
            }
        })
        .collect();
    if row.iter().all(|&coefficient| coefficient == 0) {
        row[random.below(3)] = least;
    }
    row
}

fn crossed(random: &mut Random) -> Draft {
    let (n, m) = (random.size(1, 5), random.size(0, 8));
    let mut draft = around(random, n, m, Make { zeros: 30, largest: 4, slack: 5, moved: 5 });
    for _ in 0..random.size(1, 3) {
        let variable = random.below(n + m);
        let lower = random.within(-6, 6);
        draft.limits[variable] = between(lower, lower + random.within(-2, 2));
    }
    draft
}

fn blank_rows(random: &mut Random) -> Vec<i32> {
    let mut draft = random.pick(&Family::ACCEPTED).draft(random);
    for row in &mut draft.rows {
        if random.percent(25) {
            row.fill(0);
        }
    }
    if random.percent(33) {
        damage::damaged(random, draft.words())
    } else {
        draft.words()
    }
}
