//! An SMT-LIB text, read back.
//!
//! Renders "Tokens" and "Reading it" of docs/formats/smtlib.md. All texts that there
//! are begin together; each token leaves those that go on with it, and cannot stand
//! where none is left.

use super::ways::{first, Way};

/// A token: its place, and its bytes.
type Token<'a> = (usize, &'a [u8]);

/// Reads the words of a text to the front of a lent slice, and hands back 0 and
/// their count; or 60 and the place where the text is refused; or 7 and 0.
pub fn smtlib_read(text: &[u8], lent: &mut [i32]) -> (u32, usize) {
    let words = match words_of(text) {
        Ok(words) => words,
        Err(place) => return (60, place),
    };
    match lent.get_mut(..words.len()) {
        Some(front) => {
            front.copy_from_slice(&words);
            (0, words.len())
        }
        None => (7, 0),
    }
}

/// The words of a text, or the place where it is refused.
pub fn words_of(text: &[u8]) -> Result<Vec<i32>, usize> {
    let tokens = tokens(text);
    let mut ways: Vec<Way> = vec![first()];
    for &(place, token) in &tokens {
        ways = ways.iter().flat_map(|way| way.behind(token)).collect();
        if ways.is_empty() {
            return Err(place);
        }
    }
    if ways.iter().any(Way::is_over) {
        Ok(said(&tokens))
    } else {
        Err(text.len())
    }
}

/// The tokens of a text.
fn tokens(text: &[u8]) -> Vec<Token<'_>> {
    let mut tokens = Vec::new();
    let mut at = 0;
    while let Some(byte) = text.get(at) {
        let rest = &text[at..];
        let (length, is_token) = match byte {
            b'\t' | b'\n' | b'\r' | b' ' => (1, false),
            b';' => (until(rest, b"\n\r"), false),
            b'(' | b')' => (1, true),
            _ => (until(rest, b"\t\n\r ();"), true),
        };
        if is_token {
            tokens.push((at, &rest[..length]));
        }
        at += length;
    }
    tokens
}

/// How many bytes stand before the first of these, or before the end.
fn until(rest: &[u8], ends: &[u8]) -> usize {
    rest.iter().position(|byte| ends.contains(byte)).unwrap_or(rest.len())
}

/// What the tokens of a problem's text say, in words.
fn said(tokens: &[Token]) -> Vec<i32> {
    let token = |(_, bytes): &Token| String::from_utf8_lossy(bytes).into_owned();
    let tokens: Vec<String> = tokens.iter().map(token).collect();
    let declared = |letter: char| {
        let pairs = tokens.windows(2).filter(|pair| pair[0] == "declare-const");
        pairs.filter(|pair| pair[1].starts_with(letter)).count()
    };
    let (n, m) = (declared('x'), declared('r'));
    let mut words = vec![n as i32, m as i32];
    let mut limits = vec![[0; 3]; n + m];
    for (at, token) in tokens.iter().enumerate() {
        let (kind, side) = match token.as_str() {
            "*" => {
                words.push(number(&tokens[at + 1..]));
                continue;
            }
            ">=" => (1, 1),
            ">" => (5, 1),
            "<=" => (2, 2),
            "<" => (10, 2),
            _ => continue,
        };
        let (letter, place) = tokens[at + 1].split_at(1);
        let place: usize = place.parse().expect("a name has a number");
        let variable = if letter == "x" { place } else { n + place };
        limits[variable][0] += kind;
        limits[variable][side] = number(&tokens[at + 2..]);
    }
    words.extend(limits.concat());
    words
}

/// The number that these tokens begin with: its digits, or `(`, `-` and its digits.
fn number(tokens: &[String]) -> i32 {
    let digits = |token: &String| token.parse::<i32>().expect("it is a number");
    if tokens[0] == "(" {
        -digits(&tokens[2])
    } else {
        digits(&tokens[0])
    }
}
