//! The command: what it prints, where, and with which status.

mod answers;
mod clashes;
mod damaged;
mod day_pages;
mod first;
#[path = "../json/mod.rs"]
mod json;
mod pages;
mod sessions;
mod stable_json;
mod stable_words;
mod strict;
mod times_answers;
mod usage;
mod verdicts;
mod wide;

use std::ffi::OsString;

/// Output, errors and status, with this on standard input.
fn ran(words: &[&str], input: &[u8]) -> (String, String, i32) {
    let words: Vec<OsString> = words.iter().map(OsString::from).collect();
    let ended = command::run(&words, &mut &input[..]);
    (String::from_utf8_lossy(&ended.output).into_owned(), ended.errors, i32::from(ended.status))
}

fn bytes(words: &[i32]) -> Vec<u8> {
    words.iter().flat_map(|word| word.to_le_bytes()).collect()
}
