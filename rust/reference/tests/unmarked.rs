//! Where no limit is strict the answer is that of the run over plain numbers,
//! which stands here once more, and every small part is 0.

use problems::limits::Family;
use problems::random::{seed, Random};
use reference::solve;
use std::collections::BTreeMap;

const LARGEST_NUMBER: i128 = 2_147_483_647;

/// For each basic variable a number for each nonbasic one: `common` times the
/// first is the sum of those times the others.
type Rows = BTreeMap<usize, BTreeMap<usize, i128>>;

struct Plain {
    common: i128,
    rows: Rows,
    values: BTreeMap<usize, i128>,
    /// Lower and upper limit of each variable.
    limits: Vec<[Option<i128>; 2]>,
}

impl Plain {
    fn start(words: &[i32]) -> Plain {
        let (n, m) = (words[0] as usize, words[1] as usize);
        let number = |place: usize| i128::from(words[place]);
        let row = |i: usize| (n + i, (0..n).map(|j| (j, number(2 + i * n + j))).collect());
        let limits: Vec<[Option<i128>; 2]> = (0..n + m)
            .map(|v| {
                let at = 2 + m * n + 3 * v;
                let is = |bit| (words[at] & bit != 0).then_some(());
                [is(1).map(|()| number(at + 1)), is(2).map(|()| number(at + 2))]
            })
            .collect();
        let start = |v: usize| match limits[v] {
            [Some(lower), _] if lower > 0 => (v, lower),
            [_, Some(upper)] if upper < 0 => (v, upper),
            _ => (v, 0),
        };
        Plain {
            common: 1,
            rows: (0..m).map(row).collect(),
            values: (0..n).map(start).collect(),
            limits,
        }
    }

    /// `common` times the value of a variable.
    fn scaled(&self, variable: usize) -> i128 {
        match self.rows.get(&variable) {
            None => self.common * self.values[&variable],
            Some(row) => row.iter().map(|(other, entry)| entry * self.values[other]).sum(),
        }
    }

    /// The lowest basic variable outside a limit: which side, and the limit.
    fn leaving(&self) -> Option<(usize, bool, i128)> {
        self.rows.keys().find_map(|&v| match (self.scaled(v), self.limits[v]) {
            (x, [Some(lower), _]) if x < self.common * lower => Some((v, true, lower)),
            (x, [_, Some(upper)]) if x > self.common * upper => Some((v, false, upper)),
            _ => None,
        })
    }

    fn entering(&self, leaving: usize, rises: bool) -> Option<usize> {
        let suits = |(&w, &entry): &(&usize, &i128)| {
            let [lower, upper] = self.limits[w];
            match entry.signum() * if rises { 1 } else { -1 } {
                1 => upper.is_none_or(|upper| self.values[&w] < upper),
                -1 => lower.is_none_or(|lower| self.values[&w] > lower),
                _ => false,
            }
        };
        self.rows[&leaving].iter().find(suits).map(|(&w, _)| w)
    }

    /// The four rules of a pivot, then lowest common form.
    fn exchange(&mut self, leaving: usize, entering: usize, limit: i128) {
        let d = self.common;
        let mut pivot_row = self.rows.remove(&leaving).expect("it is basic");
        let p = pivot_row.remove(&entering).expect("it is nonbasic");
        for row in self.rows.values_mut() {
            let b = row.remove(&entering).expect("it is nonbasic");
            for (w, a) in row.iter_mut() {
                *a = p * *a - b * pivot_row[w];
            }
            row.insert(leaving, b * d);
        }
        pivot_row.values_mut().for_each(|c| *c *= -d);
        pivot_row.insert(leaving, d * d);
        self.rows.insert(entering, pivot_row);
        self.values.remove(&entering);
        self.values.insert(leaving, limit);
        let entries = self.rows.values().flat_map(BTreeMap::values);
        let divisor = entries.fold(d * p, |sum, &entry| divisor(sum, entry)).abs() * p.signum();
        self.common = d * p / divisor;
        self.rows.values_mut().flat_map(BTreeMap::values_mut).for_each(|entry| *entry /= divisor);
    }

    fn in_range(&self) -> bool {
        let mut entries = self.rows.values().flat_map(BTreeMap::values);
        self.common <= LARGEST_NUMBER && entries.all(|entry| entry.abs() <= LARGEST_NUMBER)
    }

    fn answer(mut self) -> Vec<i128> {
        let variables = self.limits.len();
        let crossed = |limits: &[Option<i128>; 2]| matches!(limits, [Some(l), Some(u)] if l > u);
        let mut multipliers = vec![0; 2 * variables];
        if let Some(v) = self.limits.iter().position(crossed) {
            (multipliers[v], multipliers[variables + v]) = (1, 1);
            return [&[2, 0, 0], &multipliers[..]].concat();
        }
        for pivots in 0.. {
            let Some((leaving, rises, limit)) = self.leaving() else {
                let numerators: Vec<i128> = (0..variables).map(|v| self.scaled(v)).collect();
                return [&[1, pivots, self.common], &numerators[..], &vec![0; variables]].concat();
            };
            let Some(entering) = self.entering(leaving, rises) else {
                multipliers[leaving + if rises { 0 } else { variables }] = self.common;
                for (w, entry) in &self.rows[&leaving] {
                    let side = if (*entry > 0) == rises { variables } else { 0 };
                    multipliers[w + side] = entry.abs();
                }
                return [&[2, pivots, 0], &multipliers[..]].concat();
            };
            self.exchange(leaving, entering, limit);
            if !self.in_range() {
                return [&[3, pivots, 0], &multipliers[..]].concat();
            }
        }
        unreachable!("a run ends")
    }
}

fn divisor(one: i128, other: i128) -> i128 {
    if other == 0 {
        one
    } else {
        divisor(other, one % other)
    }
}

#[test]
fn answers_without_a_strict_limit_are_those_of_plain_numbers() {
    const PROBLEMS: u64 = 6_000;
    let seed = seed();
    println!("SEED={seed}");
    let mut verdicts = [0; 4];
    for problem in 0..PROBLEMS {
        let mut random = Random::of_problem(seed, problem);
        let family = Family::UNMARKED[problem as usize % Family::UNMARKED.len()];
        let words = family.words(&mut random);
        let mut out = vec![0; 3 + 2 * (words[0] + words[1]) as usize];
        assert_eq!(solve(&words, &mut out), 0);
        let found: Vec<i128> = out.iter().map(|&word| i128::from(word)).collect();
        let expected = Plain::start(&words).answer();
        assert_eq!(found, expected, "SEED={seed}, problem {problem}, {family:?}");
        verdicts[out[0] as usize] += 1;
    }
    println!("can, cannot, range: {:?}", &verdicts[1..]);
    assert!(verdicts[1..].iter().all(|&count| count > PROBLEMS / 100), "SEED={seed}");
}
