//! Runs in slices: the worked cases, refused starts, and outputs that are too
//! short.

use super::{Entry, Vector, KEPT};
use problems::published::published;
use problems::worked;

/// All of them.
pub fn all() -> Vec<Vector> {
    let cases = worked::limits().into_iter().chain(published());
    let mut vectors: Vec<Vector> =
        cases.map(|case| slices(case.name, case.words, case.answer.len() + 1)).collect();
    let first = worked::case_a();
    vectors.push(slices("case A, one word too little", first.words, first.answer.len() - 1));
    let blank = worked::case_i();
    vectors.push(slices(blank.name, blank.words, 7));
    vectors.push(slices("no words", Vec::new(), 7));
    vectors.push(slices("nine variables", vec![9, 0], 67));
    vectors
}

fn slices(name: impl Into<String>, words: Vec<i32>, room: usize) -> Vector {
    Vector { name: name.into(), entry: Entry::Slices, words, out: vec![KEPT; room] }
}
