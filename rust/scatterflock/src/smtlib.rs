//! A limit problem as SMT-LIB text, and back.

use crate::problem::Problem;
use crate::raw;
use crate::sizes::{MOST_SMTLIB, MOST_WORDS};
use std::error::Error;
use std::fmt;

impl Problem {
    /// Its SMT-LIB text (docs/formats/smtlib.md), for other solvers: version 2,
    /// logic QF_LRA. They say `sat` for "can" and `unsat` for "cannot".
    ///
    /// ```
    /// use scatterflock::Problem;
    ///
    /// let text = Problem::new(1)?.above(0, -5)?.at_most(0, 3)?.to_smtlib();
    /// let lines = [
    ///     "(set-logic QF_LRA)",
    ///     "(declare-const x0 Real)",
    ///     "(assert (> x0 (- 5)))",
    ///     "(assert (<= x0 3))",
    ///     "(check-sat)",
    /// ];
    /// assert_eq!(text.lines().collect::<Vec<&str>>(), lines);
    /// # Ok::<(), scatterflock::BuildError>(())
    /// ```
    #[must_use]
    pub fn to_smtlib(&self) -> String {
        let mut text = vec![0; MOST_SMTLIB];
        let written = raw::smtlib_write(&self.words(), &mut text);
        assert_eq!(
            written.refused, 0,
            "a problem that was built is not refused, and no text is longer"
        );
        text.truncate(written.count);
        String::from_utf8(text).expect("the text is ASCII")
    }

    /// The problem of an SMT-LIB text (docs/formats/smtlib.md): one that
    /// [`to_smtlib`](Problem::to_smtlib) writes, with any white space and comments
    /// between its tokens.
    ///
    /// ```
    /// use scatterflock::{Problem, SmtlibRefusal};
    ///
    /// let text = "(set-logic QF_LRA) (declare-const x0 Real) ; in degrees
    ///     (assert (<= x0 3)) (check-sat)";
    /// let problem = Problem::from_smtlib(text).unwrap();
    /// assert_eq!(problem, Problem::new(1)?.at_most(0, 3)?);
    ///
    /// let refusal = Problem::from_smtlib(text.replace("3", "-3")).unwrap_err();
    /// assert_eq!(refusal, SmtlibRefusal { place: 75 });
    /// assert_eq!(refusal.to_string(), "no text of a problem goes on as this one does at byte 75");
    /// # Ok::<(), scatterflock::BuildError>(())
    /// ```
    ///
    /// # Errors
    ///
    /// The place where any other text is refused.
    pub fn from_smtlib(text: impl AsRef<[u8]>) -> Result<Problem, SmtlibRefusal> {
        let mut words = [0; MOST_WORDS];
        let read = raw::smtlib_read(text.as_ref(), &mut words);
        match read.refused {
            0 => Ok(Problem::read(&words[..read.count])),
            SmtlibRefusal::NUMBER => Err(SmtlibRefusal { place: read.count }),
            number => panic!("there is room for each problem, and this is {number}"),
        }
    }
}

/// Why SMT-LIB text is not read: it has a token that cannot stand where it does.
#[derive(Debug, Clone, Copy, PartialEq, Eq, Hash)]
pub struct SmtlibRefusal {
    /// How many bytes stand before the first token such that no text of a problem
    /// begins with the tokens up to it; the length of a text that ends too early.
    pub place: usize,
}

impl SmtlibRefusal {
    /// The number in docs/formats/smtlib.md.
    pub const NUMBER: u32 = 60;
}

impl fmt::Display for SmtlibRefusal {
    fn fmt(&self, to: &mut fmt::Formatter) -> fmt::Result {
        write!(to, "no text of a problem goes on as this one does at byte {}", self.place)
    }
}

impl Error for SmtlibRefusal {}
