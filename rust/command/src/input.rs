//! Files as words or as text.

use crate::digest::digest;
use crate::Failure;
use std::ffi::OsStr;
use std::fs::File;
use std::io::Read;
use text::numbers;
use text::Fault;

/// The most bytes of a file: far more than any problem needs.
const MOST_BYTES: u64 = 1 << 20;

/// What a file holds.
pub struct Input {
    /// The file's name, to tell.
    pub file: String,
    /// Its digest.
    pub digest: String,
    pub content: Content,
}

impl Input {
    /// The text, where it is one.
    pub fn text(&self) -> Option<String> {
        match &self.content {
            Content::Text(text) => Some(text.clone()),
            Content::Smtlib(bytes) => Some(String::from_utf8_lossy(bytes).into_owned()),
            _ => None,
        }
    }
}

pub enum Content {
    Bytes(Vec<u8>),
    Words(Vec<i32>),
    Text(String),
    Smtlib(Vec<u8>),
}

/// Reads a problem: a file `.smt2`, or a text that begins so, is SMT-LIB text; a
/// file `.words`, or one with a zero byte in it, is bytes; a text of bare numbers is
/// words; anything else is text.
pub fn problem(file: &OsStr, stdin: &mut dyn Read) -> Result<Input, Failure> {
    let (name, bytes) = bytes(file, stdin)?;
    let digest = digest(&bytes);
    let is_named = |ending| file != "-" && name.to_ascii_lowercase().ends_with(ending);
    if is_named(".smt2") || !is_named(".words") && is_smtlib(&bytes) {
        let content = Content::Smtlib(unmarked(&name, bytes)?);
        return Ok(Input { file: name, digest, content });
    }
    let is_words = is_named(".words") || bytes.contains(&0) && !is_wide(&bytes);
    if is_words {
        return Ok(Input { file: name, digest, content: Content::Bytes(bytes) });
    }
    let text = text_of(&name, bytes)?;
    let content = if numbers::are_bare(&text) {
        Content::Words(numbers::read(&text).map_err(|fault| bad(&name, &text, fault))?)
    } else {
        Content::Text(text)
    };
    Ok(Input { file: name, digest, content })
}

/// Reads a file that is text.
pub fn any_text(file: &OsStr, stdin: &mut dyn Read) -> Result<(String, String), Failure> {
    let (name, bytes) = bytes(file, stdin)?;
    let text = text_of(&name, bytes)?;
    Ok((name, text))
}

/// The name of a file, to tell, and its bytes.
pub fn bytes(file: &OsStr, stdin: &mut dyn Read) -> Result<(String, Vec<u8>), Failure> {
    let mut bytes = Vec::new();
    let is_stdin = file == "-";
    let name = if is_stdin { "standard input".into() } else { file.to_string_lossy().into_owned() };
    let read = match is_stdin {
        true => stdin.take(MOST_BYTES + 1).read_to_end(&mut bytes),
        false => {
            File::open(file).and_then(|opened| opened.take(MOST_BYTES + 1).read_to_end(&mut bytes))
        }
    };
    let what = match read {
        Err(error) => format!("it cannot be read: {error}"),
        Ok(_) if bytes.len() as u64 > MOST_BYTES => {
            format!("it is longer than {MOST_BYTES} bytes")
        }
        Ok(_) => return Ok((name, bytes)),
    };
    Err(Failure::Unread { file: name, what })
}

/// The text of bytes, but for a mark of byte order at its start.
pub fn text_of(name: &str, bytes: Vec<u8>) -> Result<String, Failure> {
    String::from_utf8(unmarked(name, bytes)?).map_err(|error| {
        let read = String::from_utf8_lossy(&error.as_bytes()[..error.utf8_error().valid_up_to()]);
        let line = read.split('\n').count();
        let last = read.rsplit('\n').next().unwrap_or("");
        let what = "this byte is no text: save it as UTF-8; words as bytes are in a file .words";
        let what = what.to_string();
        let fault = Fault { line, column: last.chars().count() + 1, what };
        bad(name, &read, fault)
    })
}

/// The bytes of a text, but for a mark of byte order at its start.
fn unmarked(name: &str, mut bytes: Vec<u8>) -> Result<Vec<u8>, Failure> {
    if is_wide(&bytes) {
        let what = "this text is UTF-16: save it as UTF-8".to_string();
        return Err(bad(name, "", Fault { line: 1, column: 1, what }));
    }
    if bytes.starts_with(b"\xef\xbb\xbf") {
        bytes.drain(..3);
    }
    Ok(bytes)
}

/// Whether the first line that is no comment of SMT-LIB begins as its texts do.
fn is_smtlib(bytes: &[u8]) -> bool {
    let bytes = bytes.strip_prefix(b"\xef\xbb\xbf").unwrap_or(bytes);
    let lines = bytes.split(|byte| b"\n\r".contains(byte)).map(<[u8]>::trim_ascii);
    let first = lines.into_iter().find(|line| !line.is_empty() && !line.starts_with(b";"));
    first.is_some_and(|line| line.starts_with(b"(set-logic"))
}

/// Whether bytes are a text of UTF-16: with the mark of byte order, or a
/// character and a zero byte by turns.
fn is_wide(bytes: &[u8]) -> bool {
    let is_char = |byte: &u8| matches!(byte, b'\t' | b'\n' | b'\r' | b' '..=b'~');
    let by_turns = |first: usize| {
        bytes.iter().skip(first).step_by(2).all(is_char)
            && bytes.iter().skip(1 - first).step_by(2).all(|&byte| byte == 0)
    };
    let has_mark = bytes.starts_with(b"\xff\xfe") || bytes.starts_with(b"\xfe\xff");
    has_mark || bytes.len() >= 2 && (by_turns(0) || by_turns(1))
}

/// The failure of a text, with the line that is at fault.
pub fn bad(file: &str, text: &str, fault: Fault) -> Failure {
    let line = text.split('\n').nth(fault.line - 1).unwrap_or("").trim_end();
    let line: String = line.chars().map(|c| if c.is_control() { ' ' } else { c }).collect();
    Failure::Bad { file: file.to_string(), fault, line }
}

/// The words of bytes, four each, the lowest first.
pub fn words(bytes: &[u8]) -> Vec<i32> {
    let four = |bytes: &[u8]| i32::from_le_bytes(bytes.try_into().expect("there are four"));
    bytes.chunks_exact(4).map(four).collect()
}
