//! Scripts of edits of full-size problems: each edit switches a limit and checks.
//! That is timed in a session, which goes on from where it was, and by solving
//! the problem with the limits that are on anew.
//!
//! At the start all limits are on. An edit switches one of them off, or one of
//! those that are off on again; at most four are off at a time. The time of an
//! edit in a session has that of its switch in it. Beside it stand the times of
//! a switch, and of a check that finds nothing to do.

use crate::sets::ANSWER;
use problems::limits::Family;
use problems::random::Random;
use problems::sessions::{limits, live_words};
use problems::strict::with_marks;
use scatterflock::raw::{self, Session};
use std::hint::black_box;
use std::time::Instant;

const EDITS: usize = 1_000;
const SCRIPTS: u64 = 8;
const ROUNDS: usize = 20;
/// How many edits are timed at once.
const FEW: usize = 20;
/// How many limits are off at most.
const MOST_OFF: usize = 4;

/// Scripts that are one line of the table.
pub struct EditSet {
    name: &'static str,
    scripts: Vec<Script>,
}

struct Script {
    /// With all limits on, and checked.
    start: Session,
    edits: Vec<Edit>,
}

struct Edit {
    variable: u32,
    upper: bool,
    on: bool,
    /// The problem afterwards.
    live: Vec<i32>,
}

/// Full-size problems, without strict limits and with.
pub fn sets(seed: u64) -> [EditSet; 2] {
    let full = |random: &mut Random| Family::Full.words(random);
    let strict = |random: &mut Random| {
        let words = Family::Full.words(random);
        with_marks(random, &words)
    };
    [EditSet::new("full", seed, full), EditSet::new("full, strict", seed, strict)]
}

pub fn heading() -> String {
    format!(
        "{:15}{:>13}{:>14}{:>8}{:>14}{:>12}{:>11}{:>11}",
        "ns an edit",
        "solved anew",
        "in a session",
        "ratio",
        "pivots anew",
        "in session",
        "a switch",
        "no pivots"
    )
}

impl EditSet {
    fn new(name: &'static str, seed: u64, words: fn(&mut Random) -> Vec<i32>) -> EditSet {
        let script = |problem| {
            let mut random = Random::of_problem(seed, problem);
            let words = words(&mut random);
            Script::new(&mut random, &words)
        };
        EditSet { name, scripts: (0..SCRIPTS).map(script).collect() }
    }

    /// ns an edit, pivots an edit, and ns of a switch and of a check alone.
    pub fn line(&self) -> String {
        let mean = |of: fn(&Script) -> f64| {
            self.scripts.iter().map(of).sum::<f64>() / self.scripts.len() as f64
        };
        let (anew, session) = (mean(Script::anew), mean(Script::in_session));
        format!(
            "{:15}{anew:13.0}{session:14.0}{:8.2}{:14.1}{:12.1}{:11.0}{:11.0}",
            self.name,
            session / anew,
            mean(Script::pivots_anew),
            mean(Script::pivots_in_session),
            mean(Script::switch),
            mean(Script::check_again),
        )
    }
}

impl Script {
    fn new(random: &mut Random, words: &[i32]) -> Script {
        let mut on = limits(words);
        let mut off = Vec::new();
        let mut start = raw::session_open(words).session;
        for &(variable, upper) in &on {
            start = raw::session_switch(start, variable as u32, upper, true).session;
        }
        start = raw::session_check(start, &mut [0; ANSWER]).session;
        let edits = (0..EDITS).map(|_| {
            let turns_on = off.len() == MOST_OFF || (!off.is_empty() && random.percent(50));
            let (from, to) = if turns_on { (&mut off, &mut on) } else { (&mut on, &mut off) };
            let (variable, upper) = from.swap_remove(random.below(from.len()));
            to.push((variable, upper));
            let live = live_words(words, |variable, upper| on.contains(&(variable, upper)));
            Edit { variable: variable as u32, upper, on: turns_on, live }
        });
        let edits = edits.collect();
        Script { start, edits }
    }

    fn in_session(&self) -> f64 {
        self.timed(self.start.clone(), edited)
    }

    fn anew(&self) -> f64 {
        self.timed((), solved)
    }

    fn switch(&self) -> f64 {
        self.timed(self.start.clone(), |session, edit, _| switched(session, edit))
    }

    /// The start checked over and over: no pivot is left to make.
    fn check_again(&self) -> f64 {
        self.timed(self.start.clone(), |session, _, out| checked(session, out))
    }

    fn pivots_in_session(&self) -> f64 {
        self.pivots(self.start.clone(), edited)
    }

    fn pivots_anew(&self) -> f64 {
        self.pivots((), solved)
    }

    /// ns an edit: the least time of each few edits counts.
    fn timed<S: Clone>(&self, start: S, step: impl Fn(S, &Edit, &mut Out) -> S) -> f64 {
        let mut least = vec![f64::INFINITY; EDITS.div_ceil(FEW)];
        for _ in 0..ROUNDS {
            let (mut state, mut out) = (start.clone(), [0; ANSWER]);
            for (few, least) in self.edits.chunks(FEW).zip(&mut least) {
                let before = Instant::now();
                for edit in few {
                    state = step(state, black_box(edit), black_box(&mut out));
                }
                *least = least.min(before.elapsed().as_nanos() as f64);
            }
        }
        least.iter().sum::<f64>() / EDITS as f64
    }

    /// The mean count of pivots.
    fn pivots<S>(&self, start: S, step: impl Fn(S, &Edit, &mut Out) -> S) -> f64 {
        let (mut state, mut out, mut pivots) = (start, [0; ANSWER], 0);
        for edit in &self.edits {
            state = step(state, edit, &mut out);
            pivots += out[1];
        }
        pivots as f64 / EDITS as f64
    }
}

type Out = [i64; ANSWER];

fn switched(session: Session, edit: &Edit) -> Session {
    let next = raw::session_switch(session, edit.variable, edit.upper, edit.on);
    assert_eq!(next.refused, 0);
    next.session
}

fn checked(session: Session, out: &mut Out) -> Session {
    let next = raw::session_check(session, out);
    assert_eq!(next.refused, 0);
    next.session
}

fn edited(session: Session, edit: &Edit, out: &mut Out) -> Session {
    checked(switched(session, edit), out)
}

fn solved((): (), edit: &Edit, out: &mut Out) {
    assert_eq!(raw::solve(&edit.live, out), 0);
}
