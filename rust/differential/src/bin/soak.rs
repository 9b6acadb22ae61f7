//! `soak COUNT` compares so many limit problems, a quarter as many in slices,
//! with traces and as many time rows, a tenth as many sessions, first violations
//! and SMT-LIB texts, written and read, and a hundredth as many days' files and as
//! many sheets, in
//! parts, each with a seed of its own that is printed before it.
//! `SEED=.. soak COUNT` goes through the same parts again.
//!
//! Before these come dense problems beyond the range, a hundredth as many of each
//! size and at most 10,000; in each part a tenth as many pieces of wide evidence.

use differential::report;
use std::process::ExitCode;

/// Problems of one part.
const PART: u64 = 100_000;
/// The most dense problems of each size.
const DENSE: u64 = 10_000;

fn main() -> ExitCode {
    let Some(count) = std::env::args().nth(1).and_then(|count| count.parse().ok()) else {
        eprintln!("soak COUNT: how many problems");
        return ExitCode::FAILURE;
    };
    match soak(problems::random::seed(), count) {
        Ok(()) => ExitCode::SUCCESS,
        Err(difference) => {
            println!("{difference}");
            ExitCode::FAILURE
        }
    }
}

fn soak(first: u64, count: u64) -> Result<(), String> {
    println!("SEED={first}");
    println!("dense: {}", report::dense(first, count.div_ceil(100).min(DENSE))?);
    let mut left = count;
    let mut seed = first;
    while left > 0 {
        let part = left.min(PART);
        println!("SEED={seed}");
        println!("limits: {}", report::limits(seed, part)?);
        println!("slices: {}", report::slices(seed, part.div_ceil(4))?);
        println!("sessions: {}", report::sessions(seed, part.div_ceil(10))?);
        println!("traces: {}", report::traces(seed, part.div_ceil(4))?);
        println!("violations: {}", report::violations(seed, part.div_ceil(10))?);
        println!("smtlib: {}", report::smtlib(seed, part.div_ceil(10))?);
        println!("texts: {}", report::texts(seed, part.div_ceil(10))?);
        println!("times: {}", report::times(seed, part.div_ceil(4))?);
        println!("wide: {}", report::wide(seed, part.div_ceil(10))?);
        println!("days: {}", report::bundles(seed, part.div_ceil(100))?);
        println!("sheets: {}", report::sheets(seed, part.div_ceil(100))?);
        left -= part;
        seed += 1;
    }
    Ok(())
}
