//! Calls of `solve` with strict limits: every kind, limits that touch, and
//! random marks.

use super::{Entry, Vector, KEPT};
use problems::draft::{above, at_least, at_most, below, between, inside, marked, Draft, FREE};
use problems::limits::Family;
use problems::published::published;
use problems::random::Random;

/// All of them.
pub fn all() -> Vec<Vector> {
    let mut vectors = kinds();
    vectors.extend(orders());
    vectors.extend(starts());
    vectors.extend(equal_limits());
    vectors.extend(ties());
    vectors.extend(marked_published());
    vectors.extend(drawn());
    vectors
}

/// A call of `solve` with one word more than needed.
fn solve(name: impl Into<String>, draft: &Draft) -> Vector {
    let room = 4 + 2 * draft.limits.len();
    Vector { name: name.into(), entry: Entry::Solve, words: draft.words(), out: vec![KEPT; room] }
}

/// A lone variable, and a row of two, each with these limits.
fn on_both(limits: [i32; 3]) -> [(&'static str, Draft); 2] {
    [
        ("a variable", Draft::new(1, &[], &[limits])),
        ("a row", Draft::new(2, &[&[2, -3]], &[FREE, FREE, limits])),
    ]
}

/// Kinds from -1 to 16, with numbers for the limits that they say are there.
fn kinds() -> Vec<Vector> {
    let limits = |kind: i32| [kind, 2 * (kind & 1), 2 * (kind & 2)];
    (-1..=16)
        .flat_map(|kind| {
            on_both(limits(kind)).map(|(on, draft)| solve(format!("kind {kind} on {on}"), &draft))
        })
        .collect()
}

/// A kind that is none, together with another fault.
fn orders() -> Vec<Vector> {
    let two = |first, second| Draft::new(1, &[&[1]], &[first, second]);
    let mut steep = two([8, 0, 0], FREE);
    steep.rows[0][0] = 1_001;
    let mut blank = two([6, 0, 0], FREE);
    blank.rows[0][0] = 0;
    vec![
        solve("kind 4 with limit 30,001", &two([4, 30_001, 0], FREE)),
        solve("limit 30,001 first and kind 9 last", &two(above(30_001), [9, 0, 0])),
        solve("kind 12 and a missing limit with a number", &two([12, 0, 0], [5, 0, 1])),
        solve("coefficient 1,001 and kind 8", &steep),
        solve("kind 6 and a blank row", &blank),
        solve("a strict limit of 30,001", &two(FREE, above(30_001))),
        solve("a strict limit of 30,000", &two(FREE, above(30_000))),
        solve("a strict limit of -30,000", &two(FREE, below(-30_000))),
        solve("kind 5 with an upper word", &two(FREE, [5, 0, 3])),
        solve("kind 10 with a lower word", &two(FREE, [10, 3, 0])),
    ]
}

/// A start beside 0 and beside other limits.
fn starts() -> Vec<Vector> {
    let tried = [
        above(0),
        below(0),
        inside(0, 1),
        inside(-1, 0),
        inside(-1, 1),
        above(3),
        below(-3),
        [7, 0, 1],
        [11, -1, 0],
        [7, -1, 0],
        [11, 0, 1],
    ];
    tried
        .into_iter()
        .flat_map(|limits| {
            on_both(limits)
                .map(|(on, draft)| solve(format!("{on} starts beside {limits:?}"), &draft))
        })
        .collect()
}

/// Lower and upper limit equal or one apart, with every mark.
fn equal_limits() -> Vec<Vector> {
    let mut vectors = Vec::new();
    for (lower, upper) in [(5, 5), (0, 0), (5, 6), (-1, 0), (6, 5)] {
        for (low, up) in [(false, false), (true, false), (false, true), (true, true)] {
            let limits = marked(between(lower, upper), low, up);
            for (on, draft) in on_both(limits) {
                vectors.push(solve(format!("{on} has {limits:?}"), &draft));
            }
        }
    }
    vectors
}

/// Ties that a strict limit decides, and the same without one.
fn ties() -> Vec<Vector> {
    let sum: [&[i32]; 1] = [&[1, 1]];
    let turned: [&[i32]; 2] = [&[1, 1], &[1, -1]];
    let told = |name: &str, limits: [[i32; 3]; 3]| solve(name, &Draft::new(2, &sum, &limits));
    let half = |limits| Draft::new(2, &[&[2, 3], &[1, 0]], &[FREE, FREE, limits, limits]);
    vec![
        told("x >= 2, y >= 2, x+y <= 4", [at_least(2), at_least(2), at_most(4)]),
        told("x >= 2, y >= 2, x+y < 4", [at_least(2), at_least(2), below(4)]),
        told("x > 2, y >= 2, x+y <= 4", [above(2), at_least(2), at_most(4)]),
        told("x > 2, y > 2, x+y < 4", [above(2), above(2), below(4)]),
        told("x > 2, y > 2, x+y < 5", [above(2), above(2), below(5)]),
        told("x < 0, x+y >= 5", [below(0), FREE, at_least(5)]),
        told("x < 1, x+y > 0", [below(1), FREE, above(0)]),
        told("x < 1, y < 1, x+y >= 2", [below(1), below(1), at_least(2)]),
        told("x < 1, y <= 1, x+y > 1", [below(1), at_most(1), above(1)]),
        solve("x+y > 4, x-y < -2", &Draft::new(2, &turned, &[FREE, FREE, above(4), below(-2)])),
        solve(
            "x+y > 0, x-y > 0, x < 0",
            &Draft::new(2, &turned, &[below(0), FREE, above(0), above(0)]),
        ),
        solve("2x+3y > 0, x > 0, as rows", &half(above(0))),
        solve("2x+3y < 0, x < 0, as rows", &half(below(0))),
    ]
}

/// The published problems with strict limits, all or every other one, where the
/// limits are not equal.
fn marked_published() -> Vec<Vector> {
    let mut vectors = Vec::new();
    for case in published() {
        for (name, every) in [("all strict", 1), ("every other limit strict", 2)] {
            let mut words = case.words.clone();
            let first = 2 + (words[0] * words[1]) as usize;
            for three in words[first..].chunks_exact_mut(3).step_by(every) {
                let limits = [three[0], three[1], three[2]];
                let apart = limits[0] != 3 || limits[1] != limits[2];
                three.copy_from_slice(&marked(limits, apart, apart));
            }
            if words != case.words {
                let (name, room) = (format!("{}, {name}", case.name), case.answer.len() + 1);
                vectors.push(Vector { name, entry: Entry::Solve, words, out: vec![KEPT; room] });
            }
        }
    }
    let rows: [&[i32]; 3] = [&[994, -430, 573], &[-372, 983, 902], &[-971, -438, 903]];
    let limits = [FREE, FREE, FREE, above(5), above(5), above(5)];
    vectors.push(solve("small parts over a large D", &Draft::new(3, &rows, &limits)));
    vectors
}

/// The first random problems that end so, each with the checker's word on the
/// answer.
fn drawn() -> Vec<Vector> {
    let found = |name: &str, family: Family, wanted: &dyn Fn(&[i32], &[i64]) -> bool| {
        let mut problems = (0..).map(|number| {
            let words = family.words(&mut Random::of_problem(1, number));
            let mut out = vec![KEPT; 3 + 2 * (words[0] + words[1]) as usize];
            assert_eq!(reference::solve(&words, &mut out), 0);
            (words, out)
        });
        let (words, answer) = problems.find(|(words, out)| wanted(words, out)).expect("one is");
        let name = format!("{name}, {}", family.name());
        let room = vec![KEPT; answer.len()];
        [
            Vector { name: name.clone(), entry: Entry::Solve, words: words.clone(), out: room },
            Vector { name: name + ", its answer", entry: Entry::Check, words, out: answer },
        ]
    };
    let smalls = |out: &[i64]| out[3 + (out.len() - 3) / 2..].to_vec();
    let mut vectors = Vec::new();
    for family in [Family::Strict, Family::Touching] {
        vectors.extend(found("small parts after 3 pivots or more", family, &|_, out| {
            out[0] == 1 && out[1] >= 3 && smalls(out).iter().any(|&small| small != 0)
        }));
        vectors.extend(found("a small part above 20 and one below -20", family, &|_, out| {
            out[0] == 1
                && smalls(out).iter().any(|&small| small > 20)
                && smalls(out).iter().any(|&small| small < -20)
        }));
        vectors.extend(found("a total of 0 after a pivot", family, &|words, out| {
            out[0] == 2 && out[1] >= 1 && total(words, out) == 0
        }));
        vectors.extend(found("a contradiction after 4 pivots or more", family, &|_, out| {
            out[0] == 2 && out[1] >= 4
        }));
    }
    vectors.extend(found("out of range", Family::Strict, &|words, out| {
        out[0] == 3 && kinds_of(words).any(|kind| kind > 3)
    }));
    vectors.extend(found("a small part above 1,000,000", Family::Strict, &|_, out| {
        out[0] == 1 && smalls(out).iter().any(|&small| small > 1_000_000)
    }));
    vectors
}

/// What multipliers make of limits: lower ones added, upper ones taken away.
fn total(words: &[i32], answer: &[i64]) -> i64 {
    let first = 2 + (words[0] * words[1]) as usize;
    let (lower, upper) = answer[3..].split_at((answer.len() - 3) / 2);
    let limits = words[first..].chunks_exact(3);
    let terms = limits.zip(lower.iter().zip(upper));
    terms.map(|(three, (l, u))| i64::from(three[1]) * l - i64::from(three[2]) * u).sum()
}

fn kinds_of(words: &[i32]) -> impl Iterator<Item = i32> + '_ {
    words[2 + (words[0] * words[1]) as usize..].chunks_exact(3).map(|three| three[0])
}
