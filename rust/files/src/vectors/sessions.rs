//! Sessions: those that are worked by hand, refused openings, outputs that are
//! too short, a run out of range, and random scripts.

use super::{Entry, Vector, KEPT, OPERATIONS};
use problems::limits::Family;
use problems::published::published;
use problems::random::Random;
use problems::sessions::{limits, worked, Operation, Writer};
use problems::worked::case_i;

/// How many random scripts there are of each family.
const DRAWN: u64 = 2;

/// All of them.
pub fn all() -> Vec<Vector> {
    let mut vectors: Vec<Vector> = worked()
        .into_iter()
        .map(|case| {
            let script = case.script.into_iter().map(|(operation, _)| operation).collect();
            session(case.name, case.words, script, 1)
        })
        .collect();
    let blank = case_i();
    vectors.push(session(blank.name, blank.words, idle_script(), 1));
    vectors.push(session("no words", Vec::new(), idle_script(), 1));
    vectors.push(session("nine variables", vec![9, 0], idle_script(), 1));
    let first = worked().remove(0);
    let script = vec![Operation::Check, switch(0, false, true), Operation::Check];
    vectors.push(session("one word too little", first.words, script, -1));
    vectors.push(out_of_range());
    vectors.extend(drawn());
    vectors
}

/// An output with so many words more than needed.
fn session(
    name: impl Into<String>,
    words: Vec<i32>,
    script: Vec<Operation>,
    more: isize,
) -> Vector {
    let needed = match words[..] {
        [n @ 1..=8, m @ 0..=24, ..] => 3 + 2 * (n + m) as usize,
        _ => 5,
    };
    let out = vec![KEPT; needed.saturating_add_signed(more)];
    Vector { name: name.into(), entry: Entry::Session(script), words, out }
}

fn switch(variable: u32, upper: bool, on: bool) -> Operation {
    Operation::Switch { variable, upper, on }
}

/// What a session without limits makes of operations.
fn idle_script() -> Vec<Operation> {
    vec![Operation::Check, switch(0, true, true), switch(0, false, false), switch(1, false, true)]
}

/// A published problem that leads out of range: twice, and once more without
/// its last limit.
fn out_of_range() -> Vector {
    let case = published()
        .into_iter()
        .find(|case| case.answer[0] == 3 && limits(&case.words).len() + 4 <= OPERATIONS)
        .expect("there is one with few limits");
    let limits = limits(&case.words);
    let mut script: Vec<Operation> =
        limits.iter().map(|&(variable, upper)| switch(variable as u32, upper, true)).collect();
    let &(variable, upper) = limits.last().expect("it has limits");
    script.extend([Operation::Check, Operation::Check]);
    script.extend([switch(variable as u32, upper, false), Operation::Check]);
    session(format!("{}, twice", case.name), case.words, script, 0)
}

fn drawn() -> Vec<Vector> {
    let families = Family::ACCEPTED.into_iter().enumerate();
    families
        .flat_map(|(place, family)| {
            (0..DRAWN).map(move |number| {
                let mut random = Random::of_problem(5 + place as u64, number);
                let words = family.words(&mut random);
                let mut script = Writer::new(&words).script(&mut random);
                script.truncate(OPERATIONS - 1);
                script.push(Operation::Check);
                session(format!("{}, script {number}", family.name()), words, script, 0)
            })
        })
        .collect()
}
