//! Pivots that are settled by division, which few problems have: how often each
//! ground comes in a family that is made for them, and that every word of those
//! problems is right.

use differential::limits::compare;
use problems::division::Way;
use problems::limits::Family;
use problems::random::{seed, Random};
use std::collections::BTreeMap;

const PROBLEMS: u64 = 10_000;

#[test]
fn pivots_settled_by_division() {
    let seed = seed();
    println!("SEED={seed}");
    let mut ways: BTreeMap<Way, u64> = BTreeMap::new();
    for problem in 0..PROBLEMS {
        let words = Family::Edge.words(&mut Random::of_problem(seed, problem));
        for pivot in reference::pivots(&words) {
            let way = Way::of(pivot.common, &pivot.entries, pivot.row, pivot.column);
            *ways.entry(way).or_default() += 1;
        }
        compare(&mut Random::of_problem(seed, problem), Family::Edge)
            .unwrap_or_else(|what| panic!("SEED={seed}, problem {problem}: {what}"));
    }
    println!("{ways:?}");
    for way in [Way::Together, Way::Border] {
        assert!(ways.get(&way).is_some_and(|&many| many > PROBLEMS / 100), "{way:?}, SEED={seed}");
    }
}
