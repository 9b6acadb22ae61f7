//! One limit problem through a session: a random script of switches and checks.
//! After each of them, and after the opening, the first violation and all values
//! are compared.

use crate::archive;
use crate::lent::{fresh, length, lent};
use crate::limits::needed;
use crate::violations;
use problems::limits::Family;
use problems::random::Random;
use problems::sessions::{live_words, Operation, Writer};
use std::collections::BTreeMap;

/// The answer of a problem with nothing to do: a refused opening hands back its
/// session.
const IDLE: [i64; 5] = [1, 0, 1, 0, 0];

/// What became of a session.
pub struct Outcome {
    /// 0, or the refusal of its opening.
    pub number: u32,
    /// How often each kind of check came, and other things worth a count.
    pub checks: BTreeMap<&'static str, u64>,
    /// What each switch and check returned.
    pub calls: Vec<u32>,
}

/// Compares one session of a problem of the family. An error says what differs.
pub fn compare(random: &mut Random, family: Family) -> Result<Outcome, String> {
    let words = family.words(random);
    compare_words(random, &words).map_err(|what| format!("{what}: {words:?}"))
}

fn compare_words(random: &mut Random, words: &[i32]) -> Result<Outcome, String> {
    let opened = archive::session_open(words);
    let expected = reference::Session::open(words);
    let number = expected.as_ref().err().copied().unwrap_or(0);
    if opened.refused != number {
        return Err(format!("opening gives {}, the reference {number}", opened.refused));
    }
    let outcome = Outcome { number, checks: BTreeMap::new(), calls: Vec::new() };
    match expected {
        Err(_) => look_at_idle(opened.session).map(|()| outcome),
        Ok(expected) => {
            let mut pair = Pair { words, found: opened.session, expected, outcome };
            pair.look()?;
            for (place, operation) in Writer::new(words).script(random).into_iter().enumerate() {
                let done = pair.operate(random, operation);
                done.map_err(|what| format!("operation {place}, {operation:?}: {what}"))?;
            }
            Ok(pair.outcome)
        }
    }
}

fn look_at_idle(session: archive::Session) -> Result<(), String> {
    let mut out = IDLE.map(|word| !word);
    let checked = archive::session_check(session, &mut out);
    let switch = |variable, on| {
        archive::session_switch(checked.session.clone(), variable, false, on).refused
    };
    let numbers = [switch(0, true), switch(0, false), switch(1, true)];
    if checked.refused == 0 && out == IDLE && numbers == [42, 42, 41] {
        Ok(())
    } else {
        Err(format!("a refused opening hands back a session that gives {out:?}, {numbers:?}"))
    }
}

/// The archive's session and that of the reference.
struct Pair<'a> {
    words: &'a [i32],
    found: archive::Session,
    expected: reference::Session,
    outcome: Outcome,
}

impl Pair<'_> {
    fn operate(&mut self, random: &mut Random, operation: Operation) -> Result<(), String> {
        match operation {
            Operation::Switch { variable, upper, on } => self.switch(variable, upper, on)?,
            Operation::Check => {
                let length = length(random, needed(self.words));
                self.check(&fresh(random, length))?;
            }
        }
        self.look()
    }

    fn switch(&mut self, variable: u32, upper: bool, on: bool) -> Result<(), String> {
        let was_crossed = self.expected.is_crossed();
        let next = archive::session_switch(self.found.clone(), variable, upper, on);
        let expected = self.expected.switch(variable, upper, on);
        let number = expected.as_ref().err().copied().unwrap_or(0);
        if next.refused != number {
            return Err(format!("a switch gives {}, the reference {number}", next.refused));
        }
        self.found = next.session;
        if let Ok(expected) = expected {
            self.expected = expected;
        }
        self.outcome.calls.push(number);
        if was_crossed && !self.expected.is_crossed() {
            self.count("conflict ended");
        }
        Ok(())
    }

    fn check(&mut self, before: &[i64]) -> Result<(), String> {
        let session = self.found.clone();
        let (found, out) = lent(|_, out| archive::session_check(session, out), self.words, before)?;
        let ((number, expected), wanted) =
            lent(|_, out| self.expected.check(out), self.words, before)?;
        if (found.refused, &out) != (number, &wanted) {
            return Err(format!(
                "a check gives {} {out:?}, the reference {number} {wanted:?}",
                found.refused
            ));
        }
        if number == 0 {
            self.judge(&out)?;
        }
        self.outcome.calls.push(number);
        (self.found, self.expected) = (found.session, expected);
        Ok(())
    }

    /// The answer of a check is evidence about the limits that are on.
    fn judge(&mut self, out: &[i64]) -> Result<(), String> {
        let live = live_words(self.words, |variable, upper| self.expected.is_on(variable, upper));
        let verdict = out[0];
        if verdict != 3 {
            let numbers = [archive::check(&live, out), reference::check(&live, out)];
            if numbers != [8, 8] {
                return Err(format!("the checker gives {numbers:?} for {out:?}, live {live:?}"));
            }
        }
        if verdict == 2 {
            if let Some(limit) = reference::idle(&live, out) {
                return Err(format!("{limit:?} is named for nothing in {out:?}, live {live:?}"));
            }
        }
        self.count(match (verdict, out[1]) {
            (1, 0) => "can",
            (1, _) => "can after pivots",
            (2, _) if self.expected.is_crossed() => "conflict",
            (2, _) => "cannot",
            _ => "range",
        });
        Ok(())
    }

    /// Looks at the first violation, and at all values: on copies every limit is switched off, and a check
    /// then tells D and each value as they stand. What a switch moves because
    /// limits that conflict no longer do, it moves on both copies.
    fn look(&mut self) -> Result<(), String> {
        let first = self.expected.violation();
        violations::same(archive::session_violation(self.found.clone()), Ok(first))?;
        if first.is_some() {
            self.count("violation shown");
        }
        if first.is_some_and(|first| first.over > 1) {
            self.count("violation over D");
        }
        let (mut found, mut expected) = (self.found.clone(), self.expected.clone());
        let variables = (self.words[0] + self.words[1]) as usize;
        for (variable, upper) in (0..variables).flat_map(|v| [(v, false), (v, true)]) {
            if !expected.is_on(variable, upper) {
                continue;
            }
            let next = archive::session_switch(found, variable as u32, upper, false);
            let wanted = expected.switch(variable as u32, upper, false);
            (found, expected) = match (next.refused, wanted) {
                (0, Ok(wanted)) => (next.session, wanted),
                (number, _) => return Err(format!("{variable} cannot be switched off: {number}")),
            };
        }
        let mut out = vec![0; needed(self.words)];
        if archive::session_check(found, &mut out).refused != 0 {
            return Err("a session without limits is not checked".to_string());
        }
        let (over, plain, small) = expected.values();
        let head = [1, 0, over];
        let values = head.into_iter().chain(plain).chain(small);
        if !out.iter().map(|&word| i128::from(word)).eq(values) {
            return Err(format!("the values are {out:?}, the reference {:?}", expected.values()));
        }
        self.count("values seen");
        Ok(())
    }

    fn count(&mut self, name: &'static str) {
        *self.outcome.checks.entry(name).or_default() += 1;
    }
}
