//! Random time rows, by family.

use crate::damage;
use crate::random::Random;
use crate::worked::time_words;

/// A family of time rows.
#[derive(Debug, Clone, Copy, PartialEq, Eq)]
pub enum Family {
    /// Few vertices and rows.
    Small,
    /// 64 vertices, 256 rows, made around times that meet them.
    Feasible,
    /// 64 vertices, 256 rows, many of which contradict each other.
    Infeasible,
    /// A path of rows in its own order, with a few rows beside it.
    ChainForward,
    /// A path of rows listed from its end.
    ChainBackward,
    /// One bad ring through all vertices, nothing else wrong.
    BadRing,
    /// One bad ring of any size, missed by a minute or by a strict row, with a
    /// path into or out of it.
    LoneRing,
    /// A ring whose c sum to 0, often with a strict row or some.
    LevelRing,
    /// Many rows between few vertices.
    Parallel,
    /// Rows of another family with something wrong.
    Damaged,
    /// Words of no meaning.
    Garbage,
}

const LARGEST_LENGTH: i32 = 30_000;

impl Family {
    /// Every family.
    pub const ALL: [Family; 11] = [
        Family::Small,
        Family::Feasible,
        Family::Infeasible,
        Family::ChainForward,
        Family::ChainBackward,
        Family::BadRing,
        Family::LoneRing,
        Family::LevelRing,
        Family::Parallel,
        Family::Damaged,
        Family::Garbage,
    ];

    /// The families whose words are never refused.
    pub const ACCEPTED: [Family; 9] = [
        Family::Small,
        Family::Feasible,
        Family::Infeasible,
        Family::ChainForward,
        Family::ChainBackward,
        Family::BadRing,
        Family::LoneRing,
        Family::LevelRing,
        Family::Parallel,
    ];

    /// The family's name in tables.
    pub fn name(self) -> &'static str {
        match self {
            Family::Small => "small",
            Family::Feasible => "feasible",
            Family::Infeasible => "infeasible",
            Family::ChainForward => "chain forward",
            Family::ChainBackward => "chain backward",
            Family::BadRing => "bad ring",
            Family::LoneRing => "lone ring",
            Family::LevelRing => "level ring",
            Family::Parallel => "parallel",
            Family::Damaged => "damaged",
            Family::Garbage => "garbage",
        }
    }

    /// The words of time rows of this family.
    pub fn words(self, random: &mut Random) -> Vec<i32> {
        match self {
            Family::Small => small(random),
            Family::Feasible => feasible(random),
            Family::Infeasible => infeasible(random),
            Family::ChainForward => chain(random, false),
            Family::ChainBackward => chain(random, true),
            Family::BadRing => bad_ring(random),
            Family::LoneRing => lone_ring(random),
            Family::LevelRing => level_ring(random),
            Family::Parallel => parallel(random),
            Family::Damaged => {
                let whole = random.pick(&Family::ACCEPTED).words(random);
                damage::damaged(random, whole)
            }
            Family::Garbage => garbage(random),
        }
    }
}

fn any_row(random: &mut Random, n: usize, low: i32, high: i32) -> [i32; 4] {
    let (x, y) = (random.below(n) as i32, random.below(n) as i32);
    [x, y, random.below(2) as i32, random.within(low, high)]
}

fn small(random: &mut Random) -> Vec<i32> {
    let n = random.size(1, 7);
    let m = random.size(0, 12);
    let (low, high) = random.pick(&[(-9, 30), (-3, 9), (0, 1), (-LARGEST_LENGTH, LARGEST_LENGTH)]);
    let rows: Vec<[i32; 4]> = (0..m).map(|_| any_row(random, n, low, high)).collect();
    time_words(n, &rows)
}

/// Rows that hold of some hidden times, with little room.
fn feasible(random: &mut Random) -> Vec<i32> {
    let hidden: Vec<i32> = (0..64).map(|_| random.within(0, 10_000)).collect();
    let rows: Vec<[i32; 4]> = (0..256).map(|_| row_around(random, &hidden)).collect();
    time_words(64, &rows)
}

fn row_around(random: &mut Random, hidden: &[i32]) -> [i32; 4] {
    let (x, y) = (random.below(hidden.len()), random.below(hidden.len()));
    let strict = random.below(2) as i32;
    row_between(hidden, x, y, strict, random.within(0, 50))
}

/// A row that the hidden times meet with so much room.
fn row_between(hidden: &[i32], x: usize, y: usize, strict: i32, room: i32) -> [i32; 4] {
    [x as i32, y as i32, strict, hidden[x] - hidden[y] + room + strict]
}

fn infeasible(random: &mut Random) -> Vec<i32> {
    let rows: Vec<[i32; 4]> = (0..256).map(|_| any_row(random, 64, -40, 100)).collect();
    time_words(64, &rows)
}

/// A path with rows of one length, the extremes included. Rows back are so
/// long that nothing is wrong with them.
fn chain(random: &mut Random, backward: bool) -> Vec<i32> {
    let n = random.pick(&[64, 64, 64, 30, 2]);
    let (strict, length) = random.pick(&[(1, -LARGEST_LENGTH), (0, -1), (0, -7), (1, 0)]);
    let mut rows: Vec<[i32; 4]> = (1..n).map(|to| [to - 1, to, strict, length]).collect();
    if length > -100 && random.percent(50) {
        for _ in 0..random.size(1, 60) {
            let to = random.below(n as usize) as i32;
            rows.push([to, random.below(to as usize + 1) as i32, 0, LARGEST_LENGTH]);
        }
    }
    if backward {
        rows.reverse();
    }
    time_words(n as usize, &rows)
}

/// A ring of 64 rows that sums to -1, its vertices and rows in any order.
fn bad_ring(random: &mut Random) -> Vec<i32> {
    let mut vertices: Vec<i32> = (0..64).collect();
    random.shuffle(&mut vertices);
    let mut lengths: Vec<i32> = (0..63).map(|_| random.within(-300, 300)).collect();
    lengths.push(-1 - lengths.iter().sum::<i32>());
    let mut rows: Vec<[i32; 4]> =
        (0..64).map(|at| [vertices[at], vertices[(at + 1) % 64], 0, lengths[at]]).collect();
    if random.percent(50) {
        random.shuffle(&mut rows);
    }
    time_words(64, &rows)
}

/// Hidden times miss one row of a ring, by 1 or because it is strict, and meet
/// its other rows just so. All rows beside have room, so no other cycle is bad.
fn lone_ring(random: &mut Random) -> Vec<i32> {
    let n = random.pick(&[64, 64, 64, 20, 5, 2, 1]);
    let hidden: Vec<i32> = (0..n).map(|_| random.within(0, 10_000)).collect();
    let mut vertices: Vec<usize> = (0..n).collect();
    random.shuffle(&mut vertices);
    let (ring, rest) = vertices.split_at(random.size(1, n));
    let mut rows = vec![];
    for (at, &x) in ring.iter().enumerate() {
        let (strict, room) = if at == 0 { (random.below(2) as i32, -1) } else { (0, 0) };
        let y = ring[(at + 1) % ring.len()];
        rows.push(row_between(&hidden, x, y, strict, room));
    }
    let into = random.percent(50);
    let path = if into { [rest, &ring[..1]].concat() } else { [&ring[..1], rest].concat() };
    for step in path.windows(2) {
        rows.push(row_between(&hidden, step[0], step[1], random.below(2) as i32, 0));
    }
    for _ in 0..random.size(0, 256 - rows.len()) {
        let (x, y) = (random.below(n), random.below(n));
        let strict = random.below(2) as i32;
        rows.push(row_between(&hidden, x, y, strict, random.within(1, 50)));
    }
    match random.below(3) {
        0 => rows.reverse(),
        1 => random.shuffle(&mut rows),
        _ => {}
    }
    time_words(n, &rows)
}

/// Hidden times meet every row of a ring just so, and break the strict ones.
/// All rows beside have room.
fn level_ring(random: &mut Random) -> Vec<i32> {
    let n = random.pick(&[64, 64, 30, 5, 2, 1]);
    let hidden: Vec<i32> = (0..n).map(|_| random.within(0, 10_000)).collect();
    let mut ring: Vec<usize> = (0..n).collect();
    random.shuffle(&mut ring);
    ring.truncate(random.size(1, n));
    let share = random.pick(&[0, 0, 2, 100]);
    let mut rows: Vec<[i32; 4]> = vec![];
    for (at, &x) in ring.iter().enumerate() {
        let strict = i32::from(random.percent(share));
        rows.push(row_between(&hidden, x, ring[(at + 1) % ring.len()], strict, -strict));
    }
    for _ in 0..random.size(0, 256 - rows.len()) {
        rows.push(row_around(random, &hidden));
    }
    random.shuffle(&mut rows);
    time_words(n, &rows)
}

fn parallel(random: &mut Random) -> Vec<i32> {
    let n = random.size(1, 4);
    let m = random.size(20, 256);
    let low = random.pick(&[-2, 0, 1]);
    let rows: Vec<[i32; 4]> = (0..m).map(|_| any_row(random, n, low, 400)).collect();
    time_words(n, &rows)
}

fn garbage(random: &mut Random) -> Vec<i32> {
    let mut words = damage::garbage(random);
    if random.percent(60) && words.len() >= 2 {
        let m = (words.len() - 2) / 4;
        words.truncate(2 + 4 * m);
        words[0] = random.within(1, 4);
        words[1] = m as i32;
        for row in words[2..].chunks_mut(4) {
            soften(random, row);
        }
    }
    words
}

/// Puts most words of a row near what passes.
fn soften(random: &mut Random, row: &mut [i32]) {
    row[0] = if random.percent(99) { random.within(0, 1) } else { row[0] };
    row[1] = if random.percent(99) { random.within(0, 1) } else { row[1] };
    row[2] = if random.percent(98) { row[2] & 1 } else { row[2] };
    row[3] = if random.percent(95) { (row[3] % 30_000).abs() - 5_000 } else { row[3] % 30_003 };
}
