//! A switch, and a check that makes no pivot, beside those of `rust/plain`.
//!
//! What is timed is the next session, with the earlier one kept: the archive's
//! goes in and comes out by value, and plain Rust's is cloned and then changed.
//! Beside them stands plain Rust's session changed in place, where no earlier one
//! is kept.
//!
//! All limits of a problem are on, and are checked. One of them is switched off,
//! and from there on again. Problems that are out of range are left out, since
//! each of their checks makes a pivot.

use crate::measure::interleaved;
use crate::sets::ANSWER;
use problems::limits::Family;
use problems::random::Random;
use problems::sessions::limits;
use scatterflock::raw;
use std::cell::RefCell;
use std::hint::black_box;
use std::ops::Range;

const PROBLEMS: u64 = 600;

/// Sessions that are two lines of the table.
pub struct SessionSet {
    name: &'static str,
    cases: Vec<Case>,
}

struct Case {
    /// The limit that is switched: its variable, and whether it is the upper one.
    limit: (u32, bool),
    /// With all limits on, and with all but that one.
    plain: [plain::Session; 2],
    archive: [raw::Session; 2],
}

/// How a session is had: what is done with some of the cases.
struct Way<'a> {
    switch: Box<dyn Fn(Range<usize>) + 'a>,
    check: Box<dyn Fn(Range<usize>) + 'a>,
}

/// Tiny and full-size problems.
pub fn sets(seed: u64) -> [SessionSet; 2] {
    [Family::Tiny, Family::Full].map(|family| {
        let case = |problem| {
            let mut random = Random::of_problem(seed, problem);
            let words = family.words(&mut random);
            Case::new(&mut random, &words)
        };
        SessionSet { name: family.name(), cases: (0..PROBLEMS).filter_map(case).collect() }
    })
}

pub fn heading() -> String {
    format!(
        "{:28}{:>8}{:>15}{:>8}{:>11}{:>8}",
        "ns a call of a session", "plain", "scatterflock", "ratio", "in place", "ratio"
    )
}

impl SessionSet {
    /// The line of a switch, and that of a check without pivots.
    pub fn lines(&self) -> String {
        let in_place: RefCell<Vec<_>> =
            RefCell::new(self.cases.iter().map(|case| case.plain[0].clone()).collect());
        let ways = [self.plain(), self.archive(), self.in_place(&in_place)];
        let switch = interleaved(&ways, self.cases.len(), |way, few| (way.switch)(few));
        let check = interleaved(&ways, self.cases.len(), |way, few| (way.check)(few));
        let line = |what: &str, times: &[f64], calls: f64| {
            let [plain, archive, in_place] = [0, 1, 2].map(|way| times[way] / calls);
            format!(
                "{:28}{plain:8.1}{archive:15.1}{:8.2}{in_place:11.1}{:8.2}",
                format!("{what}, {}", self.name),
                archive / plain,
                in_place / plain
            )
        };
        [line("switch", &switch, 2.0), line("check without pivots", &check, 1.0)].join("\n")
    }

    fn plain(&self) -> Way<'_> {
        Way {
            switch: Box::new(|few| {
                for Case { limit: (variable, upper), plain, .. } in &self.cases[few] {
                    for (session, on) in plain.iter().zip([false, true]) {
                        let mut next = black_box(session).clone();
                        assert_eq!(next.switch(*variable, *upper, on), 0);
                        black_box(&next);
                    }
                }
            }),
            check: Box::new(|few| {
                let mut out = [0; ANSWER];
                for case in &self.cases[few] {
                    let mut next = black_box(&case.plain[0]).clone();
                    assert_eq!(next.check(black_box(&mut out)), 0);
                    black_box(&next);
                }
            }),
        }
    }

    fn archive(&self) -> Way<'_> {
        Way {
            switch: Box::new(|few| {
                for Case { limit: (variable, upper), archive, .. } in &self.cases[few] {
                    for (session, on) in archive.iter().zip([false, true]) {
                        let next = switched(session, *variable, *upper, on);
                        assert_eq!(black_box(&next).refused, 0);
                    }
                }
            }),
            check: Box::new(|few| {
                let mut out = [0; ANSWER];
                for case in &self.cases[few] {
                    let next = checked(&case.archive[0], &mut out);
                    assert_eq!(black_box(&next).refused, 0);
                }
            }),
        }
    }

    fn in_place<'a>(&'a self, sessions: &'a RefCell<Vec<plain::Session>>) -> Way<'a> {
        Way {
            switch: Box::new(|few| {
                let mut sessions = sessions.borrow_mut();
                for (case, session) in self.cases[few.clone()].iter().zip(&mut sessions[few]) {
                    let (variable, upper) = case.limit;
                    for on in [false, true] {
                        assert_eq!(black_box(&mut *session).switch(variable, upper, on), 0);
                    }
                }
            }),
            check: Box::new(|few| {
                let mut out = [0; ANSWER];
                for session in &mut sessions.borrow_mut()[few] {
                    assert_eq!(black_box(session).check(black_box(&mut out)), 0);
                }
            }),
        }
    }
}

impl Case {
    /// None where there is no limit, or where the check is out of range.
    fn new(random: &mut Random, words: &[i32]) -> Option<Case> {
        let given = limits(words);
        let (variable, upper) = *given.get(random.below(given.len().max(1)))?;
        let variable = variable as u32;
        let mut plain = plain::Session::open(words).expect("the words are a problem");
        let mut archive = raw::session_open(words).session;
        for (variable, upper) in given {
            assert_eq!(plain.switch(variable as u32, upper, true), 0);
            archive = raw::session_switch(archive, variable as u32, upper, true).session;
        }
        let [mut out, mut same] = [[0; ANSWER]; 2];
        assert_eq!(plain.check(&mut out), 0);
        archive = raw::session_check(archive, &mut same).session;
        assert_eq!(out, same);
        let mut less = plain.clone();
        assert_eq!(less.switch(variable, upper, false), 0);
        let archive_less = raw::session_switch(archive.clone(), variable, upper, false).session;
        let (plain, archive) = ([plain, less], [archive, archive_less]);
        (out[0] != 3).then_some(Case { limit: (variable, upper), plain, archive })
    }
}

/// The archive's switch, with one copy of the session: where the call is written
/// out in a loop, Rust makes two.
#[inline(never)]
fn switched(session: &raw::Session, variable: u32, upper: bool, on: bool) -> raw::Switched {
    raw::session_switch(session.clone(), variable, upper, on)
}

/// The archive's check, in the same way.
#[inline(never)]
fn checked(session: &raw::Session, out: &mut [i64]) -> raw::Checked {
    raw::session_check(session.clone(), out)
}
