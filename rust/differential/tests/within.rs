//! The solver within each number of rows from 0 to 30, and within the largest
//! that can be asked for: every word compared, on random problems of every family.

use differential::archive::LINKED;
use differential::limits::{compare_within, needed};
use problems::limits::Family;
use problems::random::{seed, Random};

const PROBLEMS: u64 = if LINKED { 1_700 } else { 170 };

#[test]
fn every_number_of_rows() {
    let seed = seed();
    println!("SEED={seed}");
    let [mut refused, mut more_than_sixteen] = [0; 2];
    for problem in 0..PROBLEMS {
        let mut random = Random::of_problem(seed, problem);
        let family = Family::ALL[problem as usize % Family::ALL.len()];
        let words = family.words(&mut random);
        let before: Vec<i64> = (0..needed(&words) as i64 + 1).map(|place| -9 - place).collect();
        let within = |most_rows| {
            compare_within(most_rows, &words, &before)
                .unwrap_or_else(|what| panic!("SEED={seed}, problem {problem}: {what}: {words:?}"))
        };
        let numbers: Vec<u32> = (0..=30).chain([u32::MAX]).map(within).collect();
        // Once there are rows enough the number stays, and from 24 on there are no more.
        assert!(numbers[24..].iter().all(|number| *number == numbers[24]), "SEED={seed}");
        let fewest = numbers.iter().position(|number| *number == numbers[24]).expect("it is there");
        assert!(numbers[..fewest].iter().all(|number| *number == 2), "SEED={seed}");
        refused += fewest;
        more_than_sixteen += usize::from(fewest > 16);
    }
    println!("{refused} refused within fewer rows, {more_than_sixteen} with more than 16");
    // Four standard deviations below what is expected of the fewer problems.
    let problems = PROBLEMS as usize;
    assert!(refused > 7 * problems && more_than_sixteen > problems / 12, "SEED={seed}");
}
