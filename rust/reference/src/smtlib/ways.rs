//! The texts of all problems, as ways to go on.
//!
//! A way is a list of parts that are still to come. A part is a token, or can be
//! spelled in several ways, and each way can be gone to its end: so there is a text
//! that begins with some tokens exactly where they leave a way.

use std::rc::Rc;

const MOST_VARIABLES: usize = 8;
const MOST_ROWS: usize = 24;
const LARGEST_COEFFICIENT: i32 = 1_000;
const LARGEST_LIMIT: i32 = 30_000;

/// A part of a text.
#[derive(Debug, Clone, Copy)]
enum Part {
    /// Tokens that are the same in every text, with a space between them.
    Fixed(&'static str),
    /// A letter with a number.
    Name(char, usize),
    /// A number from 1 to so much.
    Size(i32),
    /// A number that is so far from 0 at most, and not 0.
    NotZero(i32),
    /// The same, or 0.
    Number(i32),
    /// What follows so many variables.
    Variables(usize),
    /// What follows so many rows of so many variables.
    Rows { n: usize, m: usize },
    /// A row and what it equals.
    Sum { n: usize, row: usize },
    /// The terms from a column on. All before may be 0: then those may not.
    Terms { n: usize, column: usize, is_blank: bool },
    /// The limits from a place on, two for each variable, and the end.
    Limits { n: usize, m: usize, from: usize },
    /// The limit of this place.
    Limit { n: usize, place: usize },
    /// One of two tokens.
    Either(&'static str, &'static str),
}

/// What may still come.
#[derive(Clone)]
pub struct Way(Option<Rc<(Part, Way)>>);

/// Any text.
pub fn first() -> Way {
    use Part::{Fixed, Variables};
    Way(None).with(&[Fixed("( set-logic QF_LRA ) ( declare-const x0 Real )"), Variables(1)])
}

impl Way {
    /// These parts, and then this way.
    fn with(&self, parts: &[Part]) -> Way {
        let link = |way: Way, part: &Part| Way(Some(Rc::new((*part, way))));
        parts.iter().rev().fold(self.clone(), link)
    }

    /// Whether nothing is to come.
    pub fn is_over(&self) -> bool {
        self.0.is_none()
    }

    /// The ways that are left behind a token.
    pub fn behind(&self, token: &[u8]) -> Vec<Way> {
        let Some(link) = &self.0 else { return vec![] };
        let (part, rest) = &**link;
        let is_it = match part {
            Part::Fixed(tokens) => return rest.behind_fixed(tokens, token),
            Part::Name(letter, number) => format!("{letter}{number}").as_bytes() == token,
            Part::Size(most) => is_size(token, *most),
            part => {
                let ways = part.ways().into_iter().map(|parts| rest.with(&parts));
                return ways.flat_map(|way| way.behind(token)).collect();
            }
        };
        if is_it {
            vec![rest.clone()]
        } else {
            vec![]
        }
    }

    fn behind_fixed(&self, tokens: &'static str, token: &[u8]) -> Vec<Way> {
        let (first, others) = tokens.split_once(' ').unwrap_or((tokens, ""));
        match first.as_bytes() == token {
            true if others.is_empty() => vec![self.clone()],
            true => vec![self.with(&[Part::Fixed(others)])],
            false => vec![],
        }
    }
}

impl Part {
    /// The ways to spell a part that is no token.
    fn ways(self) -> Vec<Vec<Part>> {
        use Part::*;
        match self {
            Either(one, other) => vec![vec![Fixed(one)], vec![Fixed(other)]],
            NotZero(most) => vec![vec![Size(most)], vec![Fixed("( -"), Size(most), Fixed(")")]],
            Number(most) => vec![vec![Fixed("0")], vec![NotZero(most)]],
            Variables(n) => {
                let mut ways = vec![vec![Rows { n, m: 0 }]];
                if n < MOST_VARIABLES {
                    ways.push([&declaration('x', n)[..], &[Variables(n + 1)]].concat());
                }
                ways
            }
            Rows { n, m } => {
                let mut body: Vec<Part> = (0..m).map(|row| Sum { n, row }).collect();
                body.push(Limits { n, m, from: 0 });
                let mut ways = vec![body];
                if m < MOST_ROWS {
                    ways.push([&declaration('r', m)[..], &[Rows { n, m: m + 1 }]].concat());
                }
                ways
            }
            Sum { n, row } => {
                let terms = Terms { n, column: 0, is_blank: true };
                let sum = match n {
                    1 => vec![terms],
                    _ => vec![Fixed("( +"), terms, Fixed(")")],
                };
                let (open, close) = ([Fixed("( assert ( ="), Name('r', row)], [Fixed(") )")]);
                vec![[&open[..], &sum, &close].concat()]
            }
            Terms { n, column, .. } if column == n => vec![vec![]],
            Terms { n, column, is_blank } => {
                let term = |number, is_blank| {
                    let next = Terms { n, column: column + 1, is_blank };
                    vec![Fixed("( *"), number, Name('x', column), Fixed(")"), next]
                };
                let mut ways = vec![term(NotZero(LARGEST_COEFFICIENT), false)];
                if !is_blank || column + 1 < n {
                    ways.push(term(Fixed("0"), is_blank));
                }
                ways
            }
            Limits { n, m, from } => {
                let each = from..2 * (n + m);
                let limits =
                    each.map(|place| vec![Limit { n, place }, Limits { n, m, from: place + 1 }]);
                limits.chain([vec![Fixed("( check-sat )")]]).collect()
            }
            Limit { n, place } => {
                let variable = place / 2;
                let name = if variable < n { Name('x', variable) } else { Name('r', variable - n) };
                let relation = if place % 2 == 0 { Either(">=", ">") } else { Either("<=", "<") };
                let number = Number(LARGEST_LIMIT);
                vec![vec![Fixed("( assert ("), relation, name, number, Fixed(") )")]]
            }
            token @ (Fixed(_) | Name(..) | Size(_)) => vec![vec![token]],
        }
    }
}

fn declaration(letter: char, number: usize) -> [Part; 3] {
    [Part::Fixed("( declare-const"), Part::Name(letter, number), Part::Fixed("Real )")]
}

/// Whether a token is a number from 1 to so much, as it is written.
fn is_size(token: &[u8], most: i32) -> bool {
    let number = std::str::from_utf8(token).ok().and_then(|token| token.parse::<i32>().ok());
    number.is_some_and(|number| {
        (1..=most).contains(&number) && number.to_string().as_bytes() == token
    })
}
