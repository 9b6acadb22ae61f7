//! What the test program `vectors` is asked, and what is right to answer.
//!
//! Its standard input is a count of problems, then for each one: the entry
//! point (0 solve, 1 check, 2 times, 3 a run in slices, 4 a session), the count
//! of words and the words, the count of the output's words and those words as
//! they are before the call (for check: the answer), and for a session its
//! operations. Words are of 32 bits but for the output's, of 64; all are
//! little-endian. It prints a line for each: the number that was returned, a
//! colon, and the words of the output after the call. A cycle may start at any
//! of its rows, so its rows are printed by number; every list here leaves one
//! bad cycle at most.
//!
//! A session has sixteen operations of two words each, what is done and with
//! which variable: 0 nothing, 1 a check, 2 and 3 a lower limit on and off, 4 and
//! 5 an upper one. It has a line for the opening and one for each that is not 0.

mod evidence;
mod limits;
mod sessions;
mod slices;
mod small;
mod strict;
mod taught;
mod times;

use problems::sessions::Operation;

/// An entry point.
#[derive(Debug, Clone, PartialEq, Eq)]
pub enum Entry {
    /// `solve`
    Solve,
    /// `check`
    Check,
    /// `times`
    Times,
    /// A start, and continues by 0, 1, 0, 1 and 5, with a line for each
    Slices,
    /// An opening and operations, with a line for each
    Session(Vec<Operation>),
}

/// How many operations the program reads for a session.
const OPERATIONS: usize = 16;

/// One call.
pub struct Vector {
    /// What it is there for.
    pub name: String,
    /// The function.
    pub entry: Entry,
    /// The words that are read.
    pub words: Vec<i32>,
    /// The output before the call, or the answer to check.
    pub out: Vec<i64>,
}

/// What an output word holds before a call.
pub const KEPT: i64 = -77;

/// All calls, in the order of the lines.
pub fn all() -> Vec<Vector> {
    let mut vectors = limits::all();
    vectors.extend(taught::all());
    vectors.extend(evidence::all());
    vectors.extend(times::all());
    vectors.extend(slices::all());
    vectors.extend(strict::all());
    vectors.extend(small::all());
    vectors.extend(sessions::all());
    vectors
}

/// The bytes of the program's standard input.
pub fn asked(vectors: &[Vector]) -> Vec<u8> {
    let mut bytes = Vec::new();
    put(&mut bytes, vectors.len() as i32);
    for vector in vectors {
        put(&mut bytes, vector.entry.number());
        put(&mut bytes, vector.words.len() as i32);
        vector.words.iter().for_each(|&word| put(&mut bytes, word));
        put(&mut bytes, vector.out.len() as i32);
        vector.out.iter().for_each(|word| bytes.extend(word.to_le_bytes()));
        if let Entry::Session(script) = &vector.entry {
            put_script(&mut bytes, script);
        }
    }
    bytes
}

fn put_script(bytes: &mut Vec<u8>, script: &[Operation]) {
    assert!(script.len() <= OPERATIONS, "a session has at most {OPERATIONS} operations");
    for place in 0..OPERATIONS {
        let (what, variable) = match script.get(place) {
            None => (0, 0),
            Some(Operation::Check) => (1, 0),
            Some(&Operation::Switch { variable, upper, on }) => {
                (2 + 2 * i32::from(upper) + i32::from(!on), variable)
            }
        };
        put(bytes, what);
        bytes.extend(variable.to_le_bytes());
    }
}

fn put(bytes: &mut Vec<u8>, word: i32) {
    bytes.extend(word.to_le_bytes());
}

/// The lines that are right, by `reference`.
pub fn answered(vectors: &[Vector]) -> String {
    vectors.iter().map(Vector::answer).collect()
}

impl Entry {
    /// What it is called in a list.
    pub fn name(&self) -> &'static str {
        match self {
            Entry::Solve => "solve",
            Entry::Check => "check",
            Entry::Times => "times",
            Entry::Slices => "slices",
            Entry::Session(_) => "session",
        }
    }

    /// As the program reads it.
    fn number(&self) -> i32 {
        match self {
            Entry::Solve => 0,
            Entry::Check => 1,
            Entry::Times => 2,
            Entry::Slices => 3,
            Entry::Session(_) => 4,
        }
    }
}

impl Vector {
    /// The line that is right, or of a run in slices and of a session the lines.
    pub fn answer(&self) -> String {
        let mut out = self.out.clone();
        let number = match &self.entry {
            Entry::Solve => reference::solve(&self.words, &mut out),
            Entry::Check => reference::check(&self.words, &out),
            Entry::Times => reference::times(&self.words, &mut out),
            Entry::Slices => return slices(&self.words, out),
            Entry::Session(script) => return session(&self.words, script, out),
        };
        if self.entry == Entry::Times && number == 0 && out[0] == 2 {
            let rows = out[1] as usize;
            out[2..2 + rows].sort_unstable();
        }
        line(number, &out)
    }
}

/// A line for each continue. What one leaves of the output the next is lent.
fn slices(words: &[i32], mut out: Vec<i64>) -> String {
    let mut slice = match reference::Slice::start(words) {
        Ok(slice) => slice,
        Err(number) => return line(number, &out),
    };
    let mut lines = String::new();
    for pivots in [0, 1, 0, 1, 5] {
        let next = slice.go_on(pivots, &mut out);
        lines += &line(next.number, &out);
        slice = next.slice;
    }
    lines
}

/// The words of the problem whose session a refused opening hands back.
const IDLE: [i32; 5] = [1, 0, 0, 0, 0];

/// A line for the opening and for each operation. What one leaves of the output
/// the next is lent.
fn session(words: &[i32], script: &[Operation], mut out: Vec<i64>) -> String {
    let opened = reference::Session::open(words);
    let mut lines = line(opened.as_ref().err().copied().unwrap_or(0), &out);
    let idle = || reference::Session::open(&IDLE);
    let mut session = opened.or_else(|_| idle()).expect("it is a problem");
    for operation in script {
        let number = match *operation {
            Operation::Switch { variable, upper, on } => {
                let next = session.switch(variable, upper, on);
                let number = next.as_ref().err().copied().unwrap_or(0);
                session = next.unwrap_or(session);
                number
            }
            Operation::Check => {
                let (number, next) = session.check(&mut out);
                session = next;
                number
            }
        };
        lines += &line(number, &out);
    }
    lines
}

fn line(number: u32, out: &[i64]) -> String {
    let words: String = out.iter().map(|word| format!(" {word}")).collect();
    format!("{number}:{words}\n")
}
