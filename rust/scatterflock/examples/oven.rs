//! Four zones of an oven in a row: the first stands from 20 to 60 degrees, the
//! last at 180 or more, and neighbours differ by 50 at most.
//!
//! `cargo run --example oven` prints the set points.

use scatterflock::{BuildError, Judgement, Problem, Verdict};

/// Builds the problem, prints its answer and has it checked.
pub fn main() -> Result<(), BuildError> {
    let mut problem = Problem::new(4)?.between(0, 20, 60)?.at_least(3, 180)?;
    for zone in 1..4 {
        let mut step = [0; 4];
        step[zone - 1] = -1;
        step[zone] = 1;
        let sum = problem.add_row(&step)?;
        problem = problem.between(sum, -50, 50)?;
    }

    let answer = problem.solve();
    match &answer.verdict {
        Verdict::Can { over, numerators, .. } => {
            for (zone, numerator) in numerators[..4].iter().enumerate() {
                println!("zone {zone}: {numerator}/{over} degrees");
            }
        }
        Verdict::Cannot { lower, upper } => println!("cannot: {lower:?} {upper:?}"),
        _ => println!("{answer}"),
    }

    // Whoever does not want to believe this program asks the checker.
    let evidence = answer.evidence().expect("it is not out of range");
    assert_eq!(problem.check(&evidence), Ok(Judgement::Accepted));
    Ok(())
}
