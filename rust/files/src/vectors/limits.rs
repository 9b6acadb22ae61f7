//! Calls of `solve`: the worked cases, the published problems, every refusal
//! with its neighbour that passes, runs that end out of range, and pivots that
//! are settled by division.

use super::{Entry, Vector, KEPT};
use problems::division::Way;
use problems::draft::{at_least, at_most, between, Draft, FREE};
use problems::limits::Family;
use problems::published::published;
use problems::random::Random;
use problems::worked;

/// All of them.
pub fn all() -> Vec<Vector> {
    let mut vectors = cases();
    vectors.extend(sizes());
    vectors.extend(coefficients());
    vectors.extend(kinds_and_limits());
    vectors.extend(orders());
    vectors.extend(blank_rows());
    vectors.extend(no_rows());
    vectors.extend(crossed());
    vectors.extend(ranges());
    vectors.extend(divided());
    vectors
}

fn solve(name: impl Into<String>, words: Vec<i32>, room: usize) -> Vector {
    Vector { name: name.into(), entry: Entry::Solve, words, out: vec![KEPT; room] }
}

/// A call with as much room as any answer needs.
fn roomy(name: impl Into<String>, words: Vec<i32>) -> Vector {
    solve(name, words, 68)
}

/// The worked cases and the published problems: room exactly enough, one word
/// too little, and two too many.
fn cases() -> Vec<Vector> {
    let answered = |case: worked::Limits| (case.name, case.words, case.answer.len());
    let blank = worked::case_i();
    let all = worked::limits()
        .into_iter()
        .map(answered)
        .chain([(blank.name, blank.words, 7)])
        .chain(published().into_iter().map(answered));
    all.flat_map(|(name, words, needed)| {
        [(0, "room enough"), (-1, "one word too little"), (2, "two words more")].map(
            |(more, room)| {
                let name = format!("{name}, {room}");
                solve(name, words.clone(), (needed as i32 + more) as usize)
            },
        )
    })
    .collect()
}

/// A problem of n variables and m rows in which nothing is limited.
fn free(n: usize, m: usize) -> Draft {
    Draft { n, rows: vec![vec![1; n]; m], limits: vec![FREE; n + m] }
}

fn sizes() -> Vec<Vector> {
    let mut vectors = vec![
        roomy("no words", vec![]),
        roomy("one word", vec![1]),
        roomy("two words, the limits missing", vec![1, 0]),
        roomy("n 8, m 16", free(8, 16).words()),
        roomy("n 8, m 17", free(8, 17).words()),
        roomy("n 8, m 24", free(8, 24).words()),
        solve("n 8, m 24, one word too little", free(8, 24).words(), 66),
        solve("no room at all", free(1, 0).words(), 0),
    ];
    for (n, m) in [(0, 0), (9, 0), (-1, 0), (1, 25), (1, -1), (i32::MIN, 0), (8, i32::MAX)] {
        let mut words = free(1, 0).words();
        words[..2].copy_from_slice(&[n, m]);
        vectors.push(roomy(format!("n {n}, m {m}"), words));
    }
    vectors.push(roomy("n 9 with its own length", free(9, 1).words()));
    vectors.push(roomy("m 25 with its own length", free(1, 25).words()));
    let whole = free(2, 3).words();
    vectors.push(roomy("one word short", whole[..whole.len() - 1].to_vec()));
    vectors.push(roomy("one word long", [&whole[..], &[0]].concat()));
    vectors
}

fn coefficients() -> Vec<Vector> {
    let mut vectors = Vec::new();
    for place in [0, 5] {
        for coefficient in [1_000, 1_001, -1_000, -1_001, i32::MAX, i32::MIN] {
            let mut words = free(2, 3).words();
            words[2 + place] = coefficient;
            vectors.push(roomy(format!("coefficient {place} is {coefficient}"), words));
        }
    }
    vectors
}

fn with_limits(variable: usize, limits: [i32; 3]) -> Vec<i32> {
    let mut draft = free(2, 3);
    draft.limits[variable] = limits;
    draft.words()
}

fn kinds_and_limits() -> Vec<Vector> {
    let tried = [
        [3, 0, 0],
        [4, 0, 0],
        [7, 0, 0],
        [-1, 0, 0],
        [i32::MAX, 0, 0],
        [1, 30_000, 0],
        [1, 30_001, 0],
        [1, -30_000, 0],
        [1, -30_001, 0],
        [2, 0, 30_000],
        [2, 0, 30_001],
        [2, 0, -30_000],
        [2, 0, -30_001],
        [3, -30_000, 30_000],
        [3, -30_000, 30_001],
        [3, -30_001, 30_000],
        [3, i32::MIN, i32::MAX],
        [0, 5, 0],
        [0, 0, 5],
        [1, 0, 5],
        [2, 5, 0],
        [1, 5, 30_001],
        [0, 0, -1],
    ];
    [0, 4]
        .into_iter()
        .flat_map(|variable| {
            tried.map(|limits| {
                let name = format!("variable {variable} has {limits:?}");
                roomy(name, with_limits(variable, limits))
            })
        })
        .collect()
}

/// Two faults at once: the lower number wins, wherever the faults are.
fn orders() -> Vec<Vector> {
    let mut kind_and_coefficient = with_limits(0, [7, 0, 0]);
    kind_and_coefficient[7] = 1_001;
    let mut limit_and_kind = with_limits(0, [1, 30_001, 0]);
    let last = limit_and_kind.len() - 3;
    limit_and_kind[last] = 4;
    let mut length_and_coefficient = free(1, 1).words();
    length_and_coefficient[2] = 1_001;
    length_and_coefficient.push(0);
    vec![
        roomy("kind 7 and coefficient 1,001", kind_and_coefficient),
        roomy("limit 30,001 first and kind 4 last", limit_and_kind),
        roomy("length and coefficient", length_and_coefficient),
        solve("limit and no room", with_limits(1, [1, 30_001, 0]), 3),
        solve("n 9 and no room", vec![9, 0], 0),
    ]
}

/// A row of zeros, beside the same with one coefficient of 1 in it, in each
/// place; then a row of zeros together with every other refusal.
fn blank_rows() -> Vec<Vector> {
    let with_blank = |n: usize, m: usize, row: usize| {
        let mut draft = free(n, m);
        draft.rows[row].fill(0);
        draft
    };
    let mut vectors = Vec::new();
    for (n, m, row) in [(1, 1, 0), (3, 4, 0), (3, 4, 2), (3, 4, 3), (8, 24, 23)] {
        let draft = with_blank(n, m, row);
        vectors.push(roomy(format!("row {row} of {m} is blank, {n} columns"), draft.words()));
        for column in 0..n {
            let mut draft = draft.clone();
            draft.rows[row][column] = 1;
            let name = format!("row {row} of {m} has 1 in column {column} of {n}");
            vectors.push(roomy(name, draft.words()));
        }
    }
    vectors
        .push(roomy("both rows are blank", Draft::new(2, &[&[0, 0], &[0, 0]], &[FREE; 4]).words()));
    let crossed = Draft::new(1, &[&[0]], &[between(1, 0), FREE]).words();
    vectors.push(roomy("a blank row and crossed limits", crossed));
    let blank = with_blank(2, 3, 1).words();
    let with = |place: usize, word: i32| {
        let mut words = blank.clone();
        words[place] = word;
        words
    };
    vectors.extend([
        roomy("a blank row and one word of 2", blank[..1].to_vec()),
        roomy("a blank row and m 25", with(1, 25)),
        roomy("a blank row and one word short", blank[..blank.len() - 1].to_vec()),
        roomy("a blank row and coefficient 1,001 after it", with(7, 1_001)),
        roomy("a blank row and kind 4", with(20, 4)),
        roomy("a blank row and a missing limit with a number", with(22, 1)),
        solve("a blank row and one word too little", blank.clone(), 12),
        solve("a blank row and no room", blank, 0),
    ]);
    vectors
}

fn no_rows() -> Vec<Vector> {
    let tried = [FREE, at_least(4), at_least(-4), at_most(4), at_most(-4), between(3, 8)];
    tried
        .into_iter()
        .map(|limits| roomy(format!("no rows, {limits:?}"), Draft::new(1, &[], &[limits]).words()))
        .collect()
}

fn crossed() -> Vec<Vector> {
    let mut vectors = vec![roomy("both limits are 5", with_limits(0, between(5, 5)))];
    for variable in [0, 1, 2, 4] {
        let name = format!("variable {variable} is crossed");
        vectors.push(roomy(name, with_limits(variable, between(6, 5))));
    }
    let mut two = free(2, 3);
    two.limits[1] = between(1, 0);
    two.limits[3] = between(30_000, -30_000);
    vectors.push(roomy("two are crossed", two.words()));
    vectors
}

/// The first random problems that end so: out of range at the second pivot, at
/// a later one, and after many pivots that stay just in range.
fn ranges() -> Vec<Vector> {
    let found = |name: &str, wanted: &dyn Fn(&[i64; 68]) -> bool| {
        let problem = (0..).map(|number| Family::Range.words(&mut Random::of_problem(1, number)));
        let mut answered = problem.map(|words| {
            let mut out = [0; 68];
            reference::solve(&words, &mut out);
            (words, out)
        });
        let (words, _) = answered.find(|(_, out)| wanted(out)).expect("there is one");
        roomy(name, words)
    };
    vec![
        found("out of range at the second pivot", &|out| out[..2] == [3, 1]),
        found("out of range at the third pivot", &|out| out[..2] == [3, 2]),
        found("out of range after 8 pivots or more", &|out| out[0] == 3 && out[1] >= 8),
        found("a denominator above 1,000,000,000", &|out| out[0] == 1 && out[2] > 1_000_000_000),
        found("a multiplier above 1,000,000,000", &|out| {
            out[0] == 2 && out.iter().any(|&word| word > 1_000_000_000)
        }),
    ]
}

/// The first random problems whose run makes a pivot that is settled by
/// division, and goes on to evidence: for each ground and each verdict.
fn divided() -> Vec<Vector> {
    let problem = |number| Family::Edge.words(&mut Random::of_problem(1, number));
    let found = |way: Way, verdict: i64| {
        let wanted = |words: &Vec<i32>| {
            let mut out = [0; 68];
            reference::solve(words, &mut out);
            let mut pivots = reference::pivots(words).into_iter();
            out[0] == verdict
                && pivots.any(|p| Way::of(p.common, &p.entries, p.row, p.column) == way)
        };
        (0..).map(problem).find(wanted).expect("there is one")
    };
    let grounds = [
        (Way::Together, "a pivot and a common number that are large together"),
        (Way::Border, "a border with a large divisor"),
    ];
    grounds
        .into_iter()
        .flat_map(|(way, name)| {
            [(1, "can"), (2, "cannot"), (3, "out of range")]
                .map(|(verdict, told)| roomy(format!("{name}, {told}"), found(way, verdict)))
        })
        .collect()
}
