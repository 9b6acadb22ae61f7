//! A trace of a file: bytes, or a text with a step a line.

use crate::input::{bad, bytes, text_of};
use crate::Failure;
use std::ffi::OsStr;
use std::io::Read;
use text::limits::Limits;
use text::Fault;

/// A trace, and the line of each step where it is a text.
pub struct Trace {
    pub words: Vec<u32>,
    pub lines: Vec<usize>,
}

/// Reads a trace. A file `.words`, or one with a zero byte in it, is bytes, four
/// for each word; anything else is text.
pub fn trace(file: &OsStr, problem: &Limits, stdin: &mut dyn Read) -> Result<Trace, Failure> {
    let (name, bytes) = bytes(file, stdin)?;
    let is_named = file != "-" && name.to_ascii_lowercase().ends_with(".words");
    if is_named || bytes.contains(&0) {
        if !bytes.len().is_multiple_of(4) {
            let what = format!("{} bytes are no whole number of words", bytes.len());
            return Err(Failure::Unread { file: name, what });
        }
        let four = |bytes: &[u8]| u32::from_le_bytes(bytes.try_into().expect("there are four"));
        return Ok(Trace { words: bytes.chunks_exact(4).map(four).collect(), lines: vec![] });
    }
    let text = text_of(&name, bytes)?;
    let mut trace = Trace { words: vec![], lines: vec![] };
    for (number, line) in text.split('\n').enumerate() {
        let step = step(line, number + 1, problem).map_err(|fault| bad(&name, &text, fault))?;
        if let Some(step) = step {
            trace.words.extend(step);
            trace.lines.push(number + 1);
        }
    }
    Ok(trace)
}

/// The step of a line, where it has one.
fn step(line: &str, number: usize, problem: &Limits) -> Result<Option<[u32; 3]>, Fault> {
    let mut parts = Parts { list: parts_of(line), number, at: 0, end: line.chars().count() + 1 };
    if parts.list.is_empty() {
        return Ok(None);
    }
    let leaving = parts.variable(problem, "the variable that leaves")?;
    let entering = parts.variable(problem, "the variable that enters")?;
    let mask = parts.mask(problem)?;
    match parts.next() {
        Some((column, part)) => {
            let what = format!("a step has three parts, and {part} stands behind them");
            Err(Fault { line: number, column, what })
        }
        None => Ok(Some([leaving, entering, mask])),
    }
}

/// The parts of a line before its comment, each with its column.
fn parts_of(line: &str) -> Vec<(usize, String)> {
    let mut parts: Vec<(usize, String)> = Vec::new();
    let mut is_open = false;
    for (at, c) in line.chars().enumerate() {
        match c {
            '#' => break,
            '{' | '}' => {
                parts.push((at + 1, c.to_string()));
                is_open = false;
            }
            c if c.is_whitespace() || c == ',' => is_open = false,
            c if is_open => parts.last_mut().expect("one is open").1.push(c),
            c => {
                parts.push((at + 1, c.to_string()));
                is_open = true;
            }
        }
    }
    parts
}

struct Parts {
    list: Vec<(usize, String)>,
    /// The line.
    number: usize,
    at: usize,
    /// The column behind the last.
    end: usize,
}

impl Parts {
    fn next(&mut self) -> Option<(usize, String)> {
        let part = self.list.get(self.at).cloned();
        self.at += 1;
        part
    }

    fn fault<T>(&self, column: usize, what: String) -> Result<T, Fault> {
        Err(Fault { line: self.number, column, what })
    }

    /// A number, a name, a line's name, or `line` and a number.
    fn variable(&mut self, problem: &Limits, what: &str) -> Result<u32, Fault> {
        let Some((column, part)) = self.next() else {
            return self.fault(self.end, format!("{what} is missing"));
        };
        if let Ok(number) = part.parse() {
            return Ok(number);
        }
        if let Some(variable) = problem.names.iter().position(|name| *name == part) {
            return Ok(variable as u32);
        }
        let line = match part.as_str() {
            "line" => self.next().and_then(|(_, number)| number.parse().ok()),
            label => problem.labels.line_of(label),
        };
        match line.and_then(|line| variable_of(problem, line)) {
            Some(variable) => Ok(variable as u32),
            None => self.fault(column, format!("{what}: {part} is no number, name or line")),
        }
    }

    /// A number, or the variables between braces.
    fn mask(&mut self, problem: &Limits) -> Result<u32, Fault> {
        let what = "the set of basic variables";
        match self.list.get(self.at).cloned() {
            Some((_, part)) if part == "{" => self.at += 1,
            Some((column, part)) => {
                self.at += 1;
                return match part.parse() {
                    Ok(mask) => Ok(mask),
                    Err(_) => self.fault(column, format!("{what}: {part} is no number")),
                };
            }
            None => return self.fault(self.end, format!("{what} is missing")),
        }
        let mut mask = 0;
        loop {
            match self.list.get(self.at) {
                Some((_, part)) if part == "}" => {
                    self.at += 1;
                    return Ok(mask);
                }
                None => return self.fault(self.end, format!("{what} ends before its }}")),
                Some(&(column, _)) => {
                    let variable = self.variable(problem, what)?;
                    if variable >= 32 {
                        return self.fault(column, format!("{what}: {variable} has no bit"));
                    }
                    mask |= 1 << variable;
                }
            }
        }
    }
}

/// The variable that a line limits.
fn variable_of(problem: &Limits, line: usize) -> Option<usize> {
    problem
        .limits
        .iter()
        .position(|limits| limits.iter().flatten().any(|limit| limit.line == Some(line)))
}
