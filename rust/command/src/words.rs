//! `scatterflock words`: a text as words, or words as a text.

use crate::input::{self, Content};
use crate::options::Options;
use crate::problem::problem;
use crate::{times, Ended, Failure, CAN};
use std::ffi::OsStr;
use std::io::Read;
use text::Holds;

pub fn run(file: &OsStr, options: &Options, stdin: &mut dyn Read) -> Result<Ended, Failure> {
    let input = input::problem(file, stdin)?;
    let holds = match &input.content {
        Content::Text(text) => Holds::of(text),
        _ => None,
    };
    let is_text = matches!(input.content, Content::Text(_) | Content::Smtlib(_));
    let (words, text, parts) = if options.times || holds == Some(Holds::Times) {
        let (_, rows) = times::rows(input)?;
        (rows.words(), rows.text(), rows.parts)
    } else {
        let (_, problem) = problem(input)?;
        (problem.words(), problem.text(), problem.parts)
    };
    Ok(if options.bytes {
        let output = words.iter().flat_map(|word| word.to_le_bytes()).collect();
        Ended { output, errors: String::new(), status: CAN }
    } else if is_text {
        let words: Vec<String> = words.iter().map(i32::to_string).collect();
        let unit = match parts {
            1 => String::new(),
            parts => format!("# Values and limits of names count parts of 1/{parts}.\n"),
        };
        Ended::saying(unit + &words.join(" ") + "\n", CAN)
    } else {
        Ended::saying(text, CAN)
    })
}
