//! `peers COUNT` hands the SMT-LIB texts of so many limit problems to other
//! solvers, and compares what they say with the archive's verdicts; where the
//! archive says "out of range", with the reference. `SEED=.. peers COUNT` takes
//! the same problems again. A solver that is not on this machine is left out.

use differential::archive;
use problems::limits::Family;
use problems::random::{seed, Random};
use scatterflock::sizes::{MOST_ANSWER, MOST_SMTLIB};
use std::collections::BTreeMap;
use std::io::Write;
use std::process::{Command, ExitCode, Stdio};

/// The solvers, and how they read a text from standard input.
const PEERS: [(&str, &[&str]); 2] =
    [("z3", &["-smt2", "-in"]), ("cvc5", &["--lang=smt2", "--strict-parsing", "-"])];

fn main() -> ExitCode {
    let Some(count) = std::env::args().nth(1).and_then(|count| count.parse().ok()) else {
        eprintln!("peers COUNT: how many problems");
        return ExitCode::FAILURE;
    };
    match compare(seed(), count) {
        Ok(()) => ExitCode::SUCCESS,
        Err(difference) => {
            println!("{difference}");
            ExitCode::FAILURE
        }
    }
}

fn compare(seed: u64, count: u64) -> Result<(), String> {
    let peers: Vec<_> = PEERS.into_iter().filter(|(name, _)| is_here(name)).collect();
    if peers.is_empty() {
        return Err("neither z3 nor cvc5 is on this machine".to_string());
    }
    let names: Vec<&str> = peers.iter().map(|(name, _)| *name).collect();
    println!("SEED={seed}, {}", names.join(" and "));
    let mut verdicts: BTreeMap<&str, u64> = BTreeMap::new();
    for problem in 0..count {
        let mut random = Random::of_problem(seed, problem);
        let family = Family::ACCEPTED[problem as usize % Family::ACCEPTED.len()];
        let words = family.words(&mut random);
        let (verdict, expected) = verdict(&words);
        let text = text(&words);
        for (name, options) in &peers {
            let said = said(name, options, &text)?;
            if said != expected {
                return Err(format!(
                    "SEED={seed}, problem {problem}: {name} says {said}, and we {verdict}:\n{text}"
                ));
            }
        }
        *verdicts.entry(verdict).or_default() += 1;
    }
    println!("{count} texts, no difference: {verdicts:?}");
    Ok(())
}

fn is_here(name: &str) -> bool {
    let run = Command::new(name).arg("--version").stdout(Stdio::null()).status();
    run.is_ok_and(|status| status.success())
}

/// Our verdict, and what a peer must say.
fn verdict(words: &[i32]) -> (&'static str, &'static str) {
    let mut answer = [0; MOST_ANSWER];
    assert_eq!(archive::solve(words, &mut answer), 0, "{words:?}");
    match answer[0] {
        1 => ("can", "sat"),
        2 => ("cannot", "unsat"),
        _ if reference::can_be_met(words) => ("range, can be met", "sat"),
        _ => ("range, cannot be met", "unsat"),
    }
}

fn text(words: &[i32]) -> String {
    let mut text = vec![0; MOST_SMTLIB];
    let written = archive::smtlib_write(words, &mut text);
    assert_eq!(written.refused, 0, "{words:?}");
    String::from_utf8(text[..written.count].to_vec()).expect("the text is ASCII")
}

/// What a peer prints for a text.
fn said(name: &str, options: &[&str], text: &str) -> Result<String, String> {
    let failed = |error: std::io::Error| format!("{name} does not run: {error}");
    let mut child = Command::new(name)
        .args(options)
        .stdin(Stdio::piped())
        .stdout(Stdio::piped())
        .spawn()
        .map_err(failed)?;
    let mut input = child.stdin.take().expect("it is piped");
    input.write_all(text.as_bytes()).map_err(failed)?;
    drop(input);
    let output = child.wait_with_output().map_err(failed)?;
    Ok(String::from_utf8_lossy(&output.stdout).trim_end().to_string())
}
