//! Calls of `times`: the worked cases, every refusal with its neighbour that
//! passes, rows at the edge of what fits, and bad rings that are hard to find.

use super::{Entry, Vector, KEPT};
use problems::worked::{self, time_words};

/// All of them.
pub fn all() -> Vec<Vector> {
    let mut vectors = cases();
    vectors.extend(sizes());
    vectors.extend(rows());
    vectors.extend(orders());
    vectors.extend(paths());
    vectors.extend(rings());
    vectors.extend(lone_rings());
    vectors.extend(parallel());
    vectors
}

fn times(name: impl Into<String>, words: Vec<i32>, room: usize) -> Vector {
    Vector { name: name.into(), entry: Entry::Times, words, out: vec![KEPT; room] }
}

/// A call with as much room as any answer needs.
fn roomy(name: impl Into<String>, words: Vec<i32>) -> Vector {
    times(name, words, 131)
}

/// Cases J to L and those with strict rows: room exactly enough, one word too
/// little, and two too many.
fn cases() -> Vec<Vector> {
    worked::times()
        .into_iter()
        .flat_map(|case| {
            let needed = 2 + 2 * case.words[0] as usize;
            [needed, needed - 1, needed + 2]
                .map(|room| times(format!("{}, {room} words", case.name), case.words.clone(), room))
        })
        .collect()
}

fn sizes() -> Vec<Vector> {
    let row = [0, 0, 0, 0];
    let mut vectors = vec![
        roomy("no words", vec![]),
        roomy("one word", vec![1]),
        roomy("one vertex, no rows", vec![1, 0]),
        roomy("64 vertices, no rows", vec![64, 0]),
        times("64 vertices, one word too little", vec![64, 0], 129),
        roomy("256 rows", time_words(1, &[row; 256])),
        roomy("257 rows", time_words(1, &[row; 257])),
        roomy("one word short", time_words(1, &[row])[..5].to_vec()),
        roomy("one word long", [&time_words(1, &[row])[..], &[0]].concat()),
        times("room for the plain parts alone", vec![64, 0], 66),
        times("no room", vec![1, 0], 0),
    ];
    for (n, m) in [(0, 0), (65, 0), (-1, 0), (1, -1), (i32::MIN, 0), (1, i32::MAX)] {
        vectors.push(roomy(format!("n {n}, m {m}"), vec![n, m]));
    }
    vectors
}

fn rows() -> Vec<Vector> {
    let tried = [
        [2, 0, 0, 0],
        [3, 0, 0, 0],
        [0, 2, 0, 0],
        [0, 3, 0, 0],
        [-1, 0, 0, 0],
        [0, -1, 0, 0],
        [i32::MAX, i32::MIN, 0, 0],
        [0, 1, 1, 0],
        [0, 1, 2, 0],
        [0, 1, -1, 0],
        [0, 1, 0, 30_000],
        [0, 1, 0, 30_001],
        [0, 1, 0, -30_000],
        [0, 1, 0, -30_001],
        [0, 1, 1, -30_000],
        [0, 1, 1, -30_001],
        [0, 1, 0, i32::MIN],
        [1, 1, 0, 0],
        [1, 1, 1, 1],
        [1, 1, 1, 0],
        [1, 1, 0, -1],
    ];
    tried.map(|row| roomy(format!("the row {row:?}"), time_words(3, &[row]))).into()
}

/// Two faults at once: the lower number wins, wherever the faults are.
fn orders() -> Vec<Vector> {
    vec![
        roomy("a length first, a vertex last", time_words(2, &[[0, 1, 0, 30_001], [0, 2, 0, 0]])),
        roomy("a strict word first, a vertex last", time_words(2, &[[0, 1, 2, 0], [2, 0, 0, 0]])),
        roomy(
            "a length first, a strict word last",
            time_words(2, &[[0, 1, 0, 30_001], [0, 1, 2, 0]]),
        ),
        times("a length and no room", time_words(2, &[[0, 1, 0, 30_001]]), 3),
        roomy("n 65 and another length", vec![65, 0, 0]),
    ]
}

/// A path through 64 vertices with the extreme lengths, listed either way.
fn paths() -> Vec<Vector> {
    let mut vectors = Vec::new();
    for (strict, length) in [(1, -30_000), (0, -30_000), (0, 30_000), (1, 0)] {
        let mut rows: Vec<[i32; 4]> = (1..64).map(|to| [to - 1, to, strict, length]).collect();
        vectors.push(roomy(format!("a path of {length}, {strict}"), time_words(64, &rows)));
        rows.reverse();
        vectors.push(roomy(format!("the same from its end, {length}"), time_words(64, &rows)));
    }
    vectors
}

/// A ring through 64 vertices: its sum is 0, or just below; and rings of strict
/// rows, with all of a minute to share, and with none.
fn rings() -> Vec<Vector> {
    let ring = |last: [i32; 2]| {
        let mut rows: Vec<[i32; 4]> = (0..63)
            .map(|from| [from, from + 1, 0, if from % 2 == 0 { 500 } else { -480 }])
            .collect();
        rows.push([63, 0, last[0], last[1]]);
        rows
    };
    let exact = -(32 * 500 - 31 * 480);
    let strict = |last: i32| {
        let mut rows: Vec<[i32; 4]> = (1..64).map(|to| [to - 1, to, 1, 0]).collect();
        rows.push([63, 0, 1, last]);
        rows
    };
    let mut turned = ring([0, exact - 1]);
    turned.reverse();
    vec![
        roomy("a ring that sums to 0", time_words(64, &ring([0, exact]))),
        roomy("a ring that sums to -1", time_words(64, &ring([0, exact - 1]))),
        roomy("a ring whose last row is strict", time_words(64, &ring([1, exact]))),
        roomy("a ring of strict rows with a minute", time_words(64, &strict(1))),
        roomy("a ring of strict rows with none", time_words(64, &strict(0))),
        roomy("the ring from its end", time_words(64, &turned)),
        times("the ring with room exactly enough", time_words(64, &turned), 130),
    ]
}

/// One bad ring, its sum -1, with a path into or out of it; a good ring sums to
/// 0. Rows are listed along their walks, and from their end.
fn lone_rings() -> Vec<Vector> {
    let lists = [
        ("a row on itself at a path's end", [path(0, 63, -9), ring(63, 1, -1)].concat()),
        ("a row on itself at a path's start", [ring(0, 1, -1), path(0, 63, -9)].concat()),
        ("a ring of 3 at a path's end", [path(0, 61, -30_000), ring(61, 3, -1)].concat()),
        ("a ring of 3 at a path's start", [ring(0, 3, -1), path(2, 61, -30_000)].concat()),
        ("a ring of 40 at a path's end", [path(0, 24, 7), ring(24, 40, -1)].concat()),
        ("a ring of 40 at a path's start", [ring(0, 40, -1), path(39, 24, -7)].concat()),
        (
            "a ring of 2 behind a good one",
            [ring(0, 61, 0), path(60, 2, -1), ring(62, 2, -1)].concat(),
        ),
        ("a good ring behind one of 2", [ring(0, 2, -1), path(1, 2, -1), ring(3, 61, 0)].concat()),
    ];
    let mut vectors = Vec::new();
    for (name, mut rows) in lists {
        vectors.push(roomy(name, time_words(64, &rows)));
        rows.reverse();
        vectors.push(roomy(format!("{name}, from its end"), time_words(64, &rows)));
    }
    vectors
}

/// So many rows of one length, one after the other.
fn path(first: i32, count: i32, length: i32) -> Vec<[i32; 4]> {
    (first..first + count).map(|from| [from, from + 1, 0, length]).collect()
}

/// A ring through so many vertices: up by 10 a row, and back.
fn ring(first: i32, count: i32, sum: i32) -> Vec<[i32; 4]> {
    let mut rows = path(first, count - 1, 10);
    rows.push([first + count - 1, first, 0, sum - 10 * (count - 1)]);
    rows
}

/// Many rows between two vertices, of which one decides.
fn parallel() -> Vec<Vector> {
    let mut rows: Vec<[i32; 4]> = (0..255).map(|row| [0, 1, 0, 1_000 - row]).collect();
    rows.push([1, 0, 0, -746]);
    let even = time_words(2, &rows);
    rows[255] = [1, 0, 1, -746];
    let below = time_words(2, &rows);
    let back: Vec<[i32; 4]> = (0..256).map(|row| [row % 2, 1 - row % 2, 0, 300 - row]).collect();
    vec![
        roomy("255 rows against one, sum 0", even),
        roomy("255 rows against one, strict", below),
        roomy("128 rows each way", time_words(2, &back)),
    ]
}
