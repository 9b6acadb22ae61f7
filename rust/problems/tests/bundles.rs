//! Every family of days' files gives what it is for, and so do calls of a writer.

use problems::bundles::{writing, Family};
use problems::random::{seed, Random};
use std::collections::BTreeMap;

/// So many of each family. A least share is four standard deviations below what
/// is expected, or lower.
const FILES: u64 = 2_000;

/// What must at least come, so many times of 1,000.
fn least(family: Family) -> &'static [(u32, u64)] {
    match family {
        Family::Whole | Family::Many => &[(0, 1_000)],
        Family::Long => &[(0, 760), (30, 160)],
        Family::Head => &[(0, 20), (31, 70), (32, 85), (33, 60), (34, 550), (35, 20)],
        Family::Wrapping => &[(0, 7), (34, 600), (35, 290)],
        Family::Cut => &[(30, 400), (33, 2), (35, 490)],
        Family::Garbage => &[(30, 95), (31, 100), (32, 95), (33, 25), (34, 300), (35, 100)],
    }
}

#[test]
fn families_of_files() {
    let seed = seed();
    println!("SEED={seed}");
    for family in Family::ALL {
        let mut numbers: BTreeMap<u32, u64> = BTreeMap::new();
        for number in 0..FILES {
            let file = family.file(&mut Random::of_problem(seed, number));
            let (mut lengths, mut words) = (vec![0; 64], vec![0; 16_384]);
            let told = reference::bundle_read(&file, &mut lengths, &mut words);
            *numbers.entry(told.refused).or_default() += 1;
        }
        println!("{family:?} {numbers:?}");
        for &(number, least) in least(family) {
            let came = numbers.get(&number).copied().unwrap_or(0);
            assert!(
                1_000 * came >= least * FILES,
                "{family:?}: {number} came {came} times, SEED={seed}"
            );
        }
    }
}

#[test]
fn calls_of_a_writer() {
    let seed = seed();
    println!("SEED={seed}");
    let mut numbers: BTreeMap<u32, u64> = BTreeMap::new();
    for number in 0..FILES {
        let (edition, lengths, words) = writing(&mut Random::of_problem(seed, number));
        let number = reference::bundle_write(edition, &lengths, &words, &mut vec![0; 65_536]);
        *numbers.entry(number).or_default() += 1;
    }
    println!("{numbers:?}");
    for (number, least) in [(0, 400), (30, 35), (31, 40), (32, 62), (34, 98), (35, 172)] {
        let came = numbers.get(&number).copied().unwrap_or(0);
        assert!(1_000 * came >= least * FILES, "{number} came {came} times, SEED={seed}");
    }
}
