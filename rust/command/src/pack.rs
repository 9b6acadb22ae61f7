//! `scatterflock pack` and `unpack`: a day's file from files, and files from it.

use crate::day::{self, count_text};
use crate::input::{self, Content};
use crate::options::Options;
use crate::problem::problem;
use crate::table::table;
use crate::{Ended, Failure, CAN};
use scatterflock::sizes::FIRST_ROWS;
use scatterflock::{Bundle, Problem, Refusal};
use std::ffi::{OsStr, OsString};
use std::fs;
use std::io::Read;
use std::path::{Path, PathBuf};
use text::limits::Limits;

/// A file that becomes a body.
struct Packed {
    file: String,
    words: Vec<i32>,
    /// How many parts a unit of its text has in the words.
    parts: i32,
}

pub fn pack(
    out: &OsStr,
    files: &[OsString],
    options: &Options,
    stdin: &mut dyn Read,
) -> Result<Ended, Failure> {
    let mut packed = Vec::new();
    for file in files {
        packed.push(read(file, stdin)?);
    }
    let bodies: Vec<&[i32]> = packed.iter().map(|packed| &packed.words[..]).collect();
    let bundle = match options.edition {
        Some(edition) => Bundle::of_edition(edition, &bodies),
        None => Bundle::of(&bodies),
    };
    let bundle = bundle.map_err(|refusal| day::refused(refusal, vec![]))?;
    let bytes = bundle.write();
    if out == "-" {
        return Ok(Ended { output: bytes, errors: String::new(), status: CAN });
    }
    look_before_writing(out)?;
    fs::write(out, bytes).map_err(|error| unwritten(Path::new(out), &error.to_string()))?;
    let lines = packed.iter().enumerate().map(|(number, packed)| {
        let mut notes = Vec::new();
        if packed.parts != 1 {
            notes.push(format!("its values count parts of 1/{}", packed.parts));
        }
        notes.extend(rows_text(&bundle, &packed.words));
        notes.extend(refusal_text(&bundle, &packed.words));
        let body = format!("body {number}");
        vec![body, count_text(&packed.words), packed.file.clone(), notes.join("; ")]
    });
    let lines: Vec<Vec<String>> = lines.collect();
    Ok(Ended::saying(table("", &lines), CAN))
}

/// The words of a file. A text is read; words are taken as they are.
fn read(file: &OsStr, stdin: &mut dyn Read) -> Result<Packed, Failure> {
    let input = input::problem(file, stdin)?;
    let file = input.file.clone();
    let words = match &input.content {
        Content::Text(_) | Content::Smtlib(_) => {
            let (file, problem) = problem(input)?;
            return Ok(Packed { file, words: problem.words(), parts: problem.parts });
        }
        Content::Words(words) => words.clone(),
        Content::Bytes(bytes) if bytes.len() % 4 == 0 => input::words(bytes),
        Content::Bytes(bytes) => {
            let what = format!("its {} bytes are no whole number of words", bytes.len());
            return Err(Failure::Unread { file, what });
        }
    };
    Ok(Packed { file, words, parts: 1 })
}

/// What is told of words that edition 1 would refuse for their rows.
fn rows_text(bundle: &Bundle, words: &[i32]) -> Option<String> {
    let first = Problem::from_words_within(FIRST_ROWS, words).err();
    let is_second = bundle.edition() == 2 && first != Problem::from_words(words).err();
    is_second.then(|| format!("{} rows, which edition 2 allows", words[1]))
}

/// What is told of words that are refused in this file.
fn refusal_text(bundle: &Bundle, words: &[i32]) -> Option<String> {
    let refusal = Problem::from_words_within(bundle.most_rows(), words).err()?;
    Some(format!("refused {}: {refusal}", refusal.number()))
}

/// A file that is there and is no day's file is not written over. What is no file,
/// as a pipe, is not looked at.
fn look_before_writing(out: &OsStr) -> Result<(), Failure> {
    let is_file = fs::metadata(out).is_ok_and(|there| there.is_file());
    if !is_file {
        return Ok(());
    }
    let (_, there) = input::bytes(out, &mut std::io::empty())?;
    if there.is_empty() || Bundle::read(&there).is_ok() {
        return Ok(());
    }
    let what = "it is there and is no day's file, so it is kept; the file to write comes first";
    Err(unwritten_because(Path::new(out), what))
}

fn unwritten(path: &Path, error: &str) -> Failure {
    unwritten_because(path, &format!("it cannot be written: {error}"))
}

fn unwritten_because(path: &Path, what: &str) -> Failure {
    Failure::Unread { file: path.display().to_string(), what: what.to_string() }
}

pub fn unpack(
    file: &OsStr,
    folder: &OsStr,
    options: &Options,
    stdin: &mut dyn Read,
) -> Result<Ended, Failure> {
    let (_, bytes) = input::bytes(file, stdin)?;
    let bundle = day::read(&bytes)?;
    let folder = Path::new(folder);
    let bodies = bundle.bodies().enumerate();
    let files: Vec<Unpacked> =
        bodies.map(|body| Unpacked::new(folder, &bundle, body, options.bytes)).collect();
    if let Some(there) = files.iter().find(|file| file.path.exists()) {
        let what = "it is there already, so nothing is unpacked";
        return Err(unwritten_because(&there.path, what));
    }
    fs::create_dir_all(folder).map_err(|error| unwritten(folder, &error.to_string()))?;
    for file in &files {
        fs::write(&file.path, &file.content)
            .map_err(|error| unwritten(&file.path, &error.to_string()))?;
    }
    let lines = files.into_iter().map(|file| file.line);
    Ok(Ended::saying(table("", &lines.collect::<Vec<Vec<String>>>()), CAN))
}

/// A file that is made of a body.
struct Unpacked {
    path: PathBuf,
    content: Vec<u8>,
    line: Vec<String>,
}

impl Unpacked {
    /// A text, where the words have one and bytes are not asked for. Words with a
    /// row of zeros have one, which says the same.
    fn new(
        folder: &Path,
        bundle: &Bundle,
        (number, words): (usize, &[i32]),
        is_bytes: bool,
    ) -> Unpacked {
        let problem = Problem::from_words_within(bundle.most_rows(), words);
        let has_text = matches!(problem, Ok(_) | Err(Refusal::BlankRow));
        let text = Limits::from_words(words).filter(|_| has_text && !is_bytes);
        let (ending, content) = match text {
            Some(problem) => ("txt", problem.text().into_bytes()),
            None => ("words", words.iter().flat_map(|word| word.to_le_bytes()).collect()),
        };
        let path = folder.join(format!("body-{number:02}.{ending}"));
        let notes = refusal_text(bundle, words).unwrap_or_default();
        let line = vec![path.display().to_string(), count_text(words), notes];
        Unpacked { path, content, line }
    }
}
