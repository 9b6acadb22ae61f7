//! Sessions: limits that are switched on and off, and checked again.

use crate::answer::Answer;
use crate::problem::{Side, PRESENT, STRICT};
use crate::raw;
use crate::refusal::{Refusal, SwitchRefusal};
use crate::sizes::MOST_ANSWER;

/// A problem whose limits are switched on and off one at a time. Each check
/// goes on from where the last one ended, and answers for the limits that are
/// on.
///
/// ```
/// use scatterflock::{check, Judgement, Session, Side};
///
/// // x >= 5, y >= 3, 2x + y <= 12, x - 3y <= 2
/// let words = [2, 2, 2, 1, 1, -3, 1, 5, 0, 1, 3, 0, 2, 0, 12, 2, 0, 2];
/// let mut session = Session::open(&words)?;
/// session.switch_on(0, Side::Lower)?;
/// session.switch_on(1, Side::Lower)?;
/// session.switch_on(2, Side::Upper)?;
/// let clash = session.check();
/// assert_eq!(
///     clash.to_string(),
///     "cannot, after 0 pivots: 2 x lower 0, 1 x lower 1, 1 x upper 2"
/// );
/// let evidence = clash.evidence().unwrap();
/// assert_eq!(check(&session.live_words(), &evidence)?, Judgement::Accepted);
///
/// // Without the first of them x can fall.
/// session.switch_off(0, Side::Lower)?;
/// assert_eq!(session.check().to_string(), "can, after 1 pivot: 9/2, 6/2, 24/2, -9/2");
/// # Ok::<(), Box<dyn std::error::Error>>(())
/// ```
#[derive(Debug, Clone)]
pub struct Session {
    state: raw::Session,
    words: Vec<i32>,
    /// Of each variable, lower and upper: whether the limit is on.
    on: Vec<[bool; 2]>,
}

impl Session {
    /// A session of the limit problem of these words. Every limit is off, and
    /// each of the problem's own variables is 0.
    ///
    /// # Errors
    ///
    /// The refusal of words that are no problem: the first that applies.
    pub fn open(words: &[i32]) -> Result<Session, Refusal> {
        let opened = raw::session_open(words);
        match opened.refused {
            0 => {
                let on = vec![[false; 2]; (words[0] + words[1]) as usize];
                Ok(Session { state: opened.session, words: words.to_vec(), on })
            }
            number => Err(Refusal::try_from(number).expect("opening returns 0 or a refusal")),
        }
    }

    /// Switches a limit on.
    ///
    /// # Errors
    ///
    /// There is no such variable, it has no such limit, or the limit is on
    /// already: the first that applies. Then nothing changes.
    pub fn switch_on(&mut self, variable: usize, side: Side) -> Result<(), SwitchRefusal> {
        self.switch(variable, side, true)
    }

    /// Switches on every limit that is off.
    ///
    /// ```
    /// use scatterflock::{Problem, Side};
    ///
    /// let mut oven = Problem::named(&["zone1", "zone2"])?;
    /// oven.limit(&[("zone1", 1)], ..=60)?;
    /// oven.limit(&[("zone2", 1)], 120..)?;
    /// let step = oven.limit(&[("zone2", 1), ("zone1", -1)], ..=50)?;
    ///
    /// let mut session = oven.session();
    /// session.switch_all_on();
    /// assert!(session.check().evidence().is_some_and(|words| words[0] == 2));
    /// session.switch_off(step, Side::Upper)?;
    /// assert!(session.check().fractions().is_some());
    /// # Ok::<(), Box<dyn std::error::Error>>(())
    /// ```
    ///
    /// # Panics
    ///
    /// If a limit that is there and off could not be switched on: that it can is
    /// proved.
    pub fn switch_all_on(&mut self) {
        let first = self.words.len() - 3 * self.on.len();
        for variable in 0..self.on.len() {
            for side in [Side::Lower, Side::Upper] {
                let is_there = self.words[first + 3 * variable] & PRESENT[side as usize] != 0;
                if is_there && !self.is_on(variable, side) {
                    self.switch_on(variable, side).expect("it is there, and off");
                }
            }
        }
    }

    /// Switches a limit off.
    ///
    /// # Errors
    ///
    /// There is no such variable, it has no such limit, or the limit is off
    /// already: the first that applies. Then nothing changes.
    pub fn switch_off(&mut self, variable: usize, side: Side) -> Result<(), SwitchRefusal> {
        self.switch(variable, side, false)
    }

    fn switch(&mut self, variable: usize, side: Side, on: bool) -> Result<(), SwitchRefusal> {
        let number = u32::try_from(variable).map_err(|_| SwitchRefusal::NoVariable)?;
        let next = raw::session_switch(self.state.clone(), number, side == Side::Upper, on);
        self.state = next.session;
        match next.refused {
            0 => {
                self.on[variable][side as usize] = on;
                Ok(())
            }
            number => {
                Err(SwitchRefusal::try_from(number).expect("a switch returns 0 or a refusal"))
            }
        }
    }

    /// Whether a limit is on. One that there is not never is.
    #[must_use]
    pub fn is_on(&self, variable: usize, side: Side) -> bool {
        self.on.get(variable).is_some_and(|on| on[side as usize])
    }

    /// Answers for the limits that are on. Its pivots are those of this check
    /// alone.
    pub fn check(&mut self) -> Answer {
        let mut out = [0; MOST_ANSWER];
        let next = raw::session_check(self.state.clone(), &mut out);
        self.state = next.session;
        Answer::read(&out[..3 + 2 * self.on.len()])
    }

    /// What the archive keeps of it.
    pub(crate) fn raw(&self) -> raw::Session {
        self.state.clone()
    }

    /// The words of the problem with the limits that are on and no others:
    /// what an answer of [`check`](Session::check) is evidence about.
    #[must_use]
    pub fn live_words(&self) -> Vec<i32> {
        let mut words = self.words.clone();
        let first = words.len() - 3 * self.on.len();
        for (three, on) in words[first..].chunks_exact_mut(3).zip(&self.on) {
            for side in [0, 1].into_iter().filter(|&side| !on[side]) {
                three[0] &= !(PRESENT[side] | STRICT[side]);
                three[1 + side] = 0;
            }
        }
        words
    }
}
