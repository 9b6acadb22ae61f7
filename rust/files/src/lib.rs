//! The files of the repository that are made and never written by hand.
//!
//! - `shown`: the example problems, `problems/*.words` and the same as text
//! - `vectors`: what the test program `vectors` is asked, on its standard
//!   input, and what `reference` answers, in its file `stdout`
//!
//! And the day's file of docs/formats/bundle.md, which the programs `day` and
//! `audit` are run on, with what `reference` prints for it, and with its sheet; and
//! the text that was edited by hand, problems/lab.smt2, which `lab` is run on.

pub mod shown;
pub mod vectors;

use problems::bundles::{file, ten_bodies};
use std::fs;
use std::path::PathBuf;

/// A file and what stands in it.
pub struct Made {
    /// Where, from the top of the repository.
    pub path: String,
    /// Its bytes.
    pub bytes: Vec<u8>,
}

impl Made {
    /// Where it is on this machine.
    pub fn place(&self) -> PathBuf {
        top().join(&self.path)
    }
}

/// The top of the repository.
pub fn top() -> PathBuf {
    PathBuf::from(env!("CARGO_MANIFEST_DIR")).join("../..")
}

/// All of them.
pub fn made() -> Vec<Made> {
    let vectors = vectors::all();
    let mut made: Vec<Made> = shown::all()
        .into_iter()
        .flat_map(|shown| {
            let bytes = shown.words.iter().flat_map(|word| word.to_le_bytes()).collect();
            [
                Made { path: format!("problems/{}.words", shown.name), bytes },
                Made { path: format!("problems/{}.txt", shown.name), bytes: shown.text().into() },
            ]
        })
        .collect();
    made.push(Made { path: "crates/vectors/stdin".to_string(), bytes: vectors::asked(&vectors) });
    made.push(Made {
        path: "crates/vectors/stdout".to_string(),
        bytes: vectors::answered(&vectors).into_bytes(),
    });
    let day = file(1, &ten_bodies());
    for (program, printed) in
        [("day", reference::day_text(&day)), ("audit", reference::sheet_text(&day))]
    {
        made.push(Made { path: format!("crates/{program}/stdin"), bytes: day.clone() });
        made.push(Made { path: format!("crates/{program}/stdout"), bytes: printed });
    }
    let text = fs::read(top().join("problems/lab.smt2")).unwrap_or_default();
    let printed = reference::lab(&text);
    made.push(Made { path: "crates/lab/stdin".to_string(), bytes: text });
    made.push(Made { path: "crates/lab/stdout".to_string(), bytes: printed });
    made
}
