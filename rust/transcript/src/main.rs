//! Compares the definitions with `reference` on random problems, 20,000 or as
//! many as are asked for. `SEED=..` makes the same problems again.

use std::process::ExitCode;

fn main() -> ExitCode {
    let asked = std::env::args().nth(1);
    let problems = asked.map_or(20_000, |count| count.parse().expect("a number of problems"));
    let seed = problems::random::seed();
    println!("SEED={seed}");
    match transcript::comparison::compare(seed, problems) {
        Ok(shares) => {
            println!("{problems} problems: {:?}", shares.outcomes);
            println!("checks: {:?}", shares.checks);
            ExitCode::SUCCESS
        }
        Err(difference) => {
            println!("{difference}");
            ExitCode::FAILURE
        }
    }
}
