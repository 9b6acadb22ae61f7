//! Limit problems around points, that times are measured with. Every other one has
//! its limits around one point, which meets them all; the others have each limit
//! around one of two, and many of those cannot be met.

use crate::draft::{at_least, at_most, between, Draft, FREE};
use crate::random::Random;

/// A set: its name, and how a problem is made.
pub type Set = (&'static str, fn(&mut Random) -> Draft);

/// Every set.
pub const SETS: [Set; 4] = [("tiny", tiny), ("medium", medium), ("full", full), ("oven", oven)];

/// 2 or 3 variables, 3 to 5 rows.
fn tiny(random: &mut Random) -> Draft {
    let (n, m) = (random.size(2, 3), random.size(3, 5));
    dense(random, n, m, Make { largest: 10, zeros: 20, farthest: 50, slack: 20 })
}

/// 4 variables, 8 rows.
fn medium(random: &mut Random) -> Draft {
    dense(random, 4, 8, Make { largest: 20, zeros: 20, farthest: 50, slack: 40 })
}

/// 8 variables, 16 rows.
fn full(random: &mut Random) -> Draft {
    dense(random, 8, 16, Make { largest: 5, zeros: 30, farthest: 60, slack: 60 })
}

/// Ovens of 8 zones with 16 rows: the points are ramps, and rows are the steps
/// between neighbours and what three zones come to.
fn oven(random: &mut Random) -> Draft {
    let mut rows: Vec<Vec<i32>> = (1..8).map(step).collect();
    while rows.len() < 16 {
        rows.push(mixture(random));
    }
    let points = [(); 2].map(|()| ramp(random));
    let kinds = [[0, 3, 3], [0, 2, 2]];
    around(random, rows, points, Limits { same: 75, kinds, slack: 15 })
}

/// How rows, points and limits are made.
struct Make {
    /// The largest size of a coefficient.
    largest: i32,
    /// Percentage of coefficients that are 0.
    zeros: usize,
    /// The largest size of a point's number.
    farthest: i32,
    /// The most that a limit leaves on its side of the point.
    slack: i32,
}

/// How limits are put around points.
struct Limits {
    /// Percentage of the second point's numbers that are the first one's.
    same: usize,
    /// How many of 10 have no limit, a lower one, an upper one; the others have
    /// both. Of problem variables, of rows.
    kinds: [[usize; 3]; 2],
    slack: i32,
}

fn dense(random: &mut Random, n: usize, m: usize, make: Make) -> Draft {
    let rows = (0..m).map(|_| row(random, n, &make)).collect();
    let point = |random: &mut Random| {
        (0..n).map(|_| random.within(-make.farthest, make.farthest)).collect()
    };
    let points = [(); 2].map(|()| point(random));
    let kinds = [[2, 2, 2], [1, 3, 3]];
    around(random, rows, points, Limits { same: 50, kinds, slack: make.slack })
}

/// A row in which some coefficient is not 0.
fn row(random: &mut Random, n: usize, make: &Make) -> Vec<i32> {
    let coefficient = |random: &mut Random| {
        let size = if random.percent(make.zeros) { 0 } else { random.within(1, make.largest) };
        size * random.pick(&[1, -1])
    };
    let mut row: Vec<i32> = (0..n).map(|_| coefficient(random)).collect();
    if row.iter().all(|&coefficient| coefficient == 0) {
        row[random.below(n)] = 1;
    }
    row
}

/// A zone less the one before.
fn step(zone: usize) -> Vec<i32> {
    let mut row = vec![0; 8];
    (row[zone - 1], row[zone]) = (-1, 1);
    row
}

/// Two zones less a third, each with its own share.
fn mixture(random: &mut Random) -> Vec<i32> {
    let mut row = vec![0; 8];
    let zone = random.below(8);
    row[zone] = random.within(1, 9);
    row[random.below(8)] -= random.within(1, 9);
    row[random.below(8)] += random.within(1, 3);
    if row.iter().all(|&share| share == 0) {
        row[zone] = 1;
    }
    row
}

/// Set points of eight zones, that mostly rise.
fn ramp(random: &mut Random) -> Vec<i32> {
    let mut point = random.within(20, 60);
    let mut next = || {
        point += random.within(-20, 60);
        point
    };
    (0..8).map(|_| next()).collect()
}

fn around(random: &mut Random, rows: Vec<Vec<i32>>, points: [Vec<i32>; 2], make: Limits) -> Draft {
    let [first, mut second] = points;
    for (second, first) in second.iter_mut().zip(&first) {
        if random.percent(make.same) {
            *second = *first;
        }
    }
    let share = random.pick(&[0, 50]);
    let sum = |row: &Vec<i32>, point: &[i32]| row.iter().zip(point).map(|(c, x)| c * x).sum();
    let mut limits = Vec::new();
    for variable in 0..first.len() {
        let point = if random.percent(share) { &second } else { &first };
        limits.push(limit(random, point[variable], make.kinds[0], make.slack));
    }
    for row in &rows {
        let point = if random.percent(share) { &second } else { &first };
        limits.push(limit(random, sum(row, point), make.kinds[1], make.slack));
    }
    Draft { n: first.len(), rows, limits }
}

/// Limits on either side of a value.
fn limit(random: &mut Random, value: i32, kinds: [usize; 3], slack: i32) -> [i32; 3] {
    let (lower, upper) = (value - random.within(0, slack), value + random.within(0, slack));
    let [none, lowers, uppers] = kinds;
    match random.below(10) {
        kind if kind < none => FREE,
        kind if kind < none + lowers => at_least(lower),
        kind if kind < none + lowers + uppers => at_most(upper),
        _ => between(lower, upper),
    }
}
