//! `scatterflock edit`: limits of a text switched off and on again, line by line,
//! with an answer after each switch.

use crate::clash::{counted, reference, sum_text};
use crate::found::widened;
use crate::problem::{all_limits, problem, refused_words, Values};
use crate::table::table;
use crate::{input, own, Ended, Failure, BAD, CAN, CANNOT, RANGE};
use scatterflock::{Judgement, Session, WideVerdict};
use std::ffi::OsStr;
use std::io::{BufRead, Write};
use text::limits::{Limits, Side};

const HELP: &str = "\
off 4         switches off what line 4 sets; the name of a line will do too
off 4 upper   its upper limit alone; lower likewise
on 4          switches it on again
back          takes the last switch back
list          the limits, and which of them are off
why           the sum of the last clash, or how far each limit is from being broken
";

/// A limit: its variable and its side.
type Limit = (usize, Side);

struct Editor {
    problem: Limits,
    session: Session,
    /// Earlier sessions, to come back to.
    before: Vec<Session>,
    /// The last answer.
    verdict: Option<WideVerdict>,
    /// Whether a command was not understood.
    has_slip: bool,
}

/// Reads commands and answers each at once. The status is that of the last
/// answer, or that of a bad text where a command was not understood.
pub fn run(file: &OsStr, lines: &mut dyn BufRead, out: &mut dyn Write) -> Result<Ended, Failure> {
    let (_, problem) = problem(input::problem(file, &mut std::io::empty())?)?;
    let words = problem.words();
    let session = Session::open(&words).map_err(|refusal| refused_words(&problem, refusal))?;
    let mut editor =
        Editor { problem, session, before: Vec::new(), verdict: None, has_slip: false };
    for limit in all_limits(&editor.problem) {
        editor.switch(limit, true)?;
    }
    let mut said = editor.answered()?;
    let mut line = String::new();
    loop {
        if out.write_all(said.as_bytes()).and_then(|()| out.flush()).is_err() {
            break;
        }
        line.clear();
        if lines.read_line(&mut line).unwrap_or(0) == 0 {
            break;
        }
        said = editor.told(line.split('#').next().unwrap_or("").trim())?;
    }
    let status = match editor.verdict {
        _ if editor.has_slip => BAD,
        Some(WideVerdict::Can { .. }) => CAN,
        Some(WideVerdict::Cannot { .. }) => CANNOT,
        None => RANGE,
    };
    Ok(Ended { output: Vec::new(), errors: String::new(), status })
}

fn side_of(side: Side) -> scatterflock::Side {
    match side {
        Side::Lower => scatterflock::Side::Lower,
        Side::Upper => scatterflock::Side::Upper,
    }
}

impl Editor {
    fn is_on(&self, (variable, side): Limit) -> bool {
        self.session.is_on(variable, side_of(side))
    }

    fn switch(&mut self, (variable, side): Limit, on: bool) -> Result<(), Failure> {
        let side = side_of(side);
        let done = match on {
            true => self.session.switch_on(variable, side),
            false => self.session.switch_off(variable, side),
        };
        done.map_err(|_| Failure::Contradicted)
    }

    fn told(&mut self, line: &str) -> Result<String, Failure> {
        let words: Vec<&str> = line.split_whitespace().collect();
        match words[..] {
            [] => Ok(String::new()),
            ["list"] => Ok(self.list()),
            ["why"] => Ok(self.why()),
            ["back"] => match self.before.pop() {
                None => Ok("there is nothing to take back\n".to_string()),
                Some(session) => {
                    self.session = session;
                    self.answered()
                }
            },
            [what @ ("on" | "off"), line, ref rest @ ..] => {
                let sides = match rest {
                    [] => Some(&Side::BOTH[..]),
                    ["lower"] => Some(&Side::BOTH[..1]),
                    ["upper"] => Some(&Side::BOTH[1..]),
                    _ => None,
                };
                let line = self.problem.labels.line_of(line).or_else(|| line.parse().ok());
                match (sides, line) {
                    (Some(sides), Some(line)) => self.switched(line, sides, what == "on"),
                    _ => Ok(self.slip()),
                }
            }
            ["help"] => Ok(HELP.to_string()),
            _ => Ok(self.slip()),
        }
    }

    /// What is said of a command that there is not.
    fn slip(&mut self) -> String {
        self.has_slip = true;
        format!("that is no command:\n{HELP}")
    }

    fn switched(&mut self, line: usize, sides: &[Side], on: bool) -> Result<String, Failure> {
        let set = all_limits(&self.problem).into_iter().filter(|&(variable, side)| {
            let limit = self.problem.limits[variable][side as usize];
            limit.is_some_and(|limit| limit.line == Some(line)) && sides.contains(&side)
        });
        let set: Vec<Limit> = set.collect();
        if set.is_empty() {
            self.has_slip = true;
            return Ok(format!("line {line} sets no such limit\n"));
        }
        let other: Vec<Limit> = set.into_iter().filter(|&limit| self.is_on(limit) != on).collect();
        if other.is_empty() {
            return Ok(format!("line {line} is {} already\n", if on { "on" } else { "off" }));
        }
        self.before.push(self.session.clone());
        for limit in other {
            self.switch(limit, on)?;
        }
        self.answered()
    }

    fn list(&self) -> String {
        let rows = all_limits(&self.problem).into_iter().map(|limit| {
            let said = self.problem.limit_text(limit.0, limit.1).unwrap_or_default();
            let place = reference(&self.problem, limit.0, limit.1);
            vec![place, said, if self.is_on(limit) { "" } else { "off" }.to_string()]
        });
        table("", &rows.collect::<Vec<_>>())
    }

    /// The problem without the limits that are off.
    fn live(&self) -> Limits {
        let off = all_limits(&self.problem).into_iter().filter(|&limit| !self.is_on(limit));
        off.fold(self.problem.clone(), |live, (variable, side)| live.without(variable, side))
    }

    /// The answer for what is on, in one line. The checker has accepted it, and it is
    /// right in the text's own numbers.
    fn answered(&mut self) -> Result<String, Failure> {
        let answer = self.session.check();
        self.verdict = widened(&answer.verdict);
        if let Some(evidence) = answer.evidence() {
            let accepted = scatterflock::check(&self.session.live_words(), &evidence);
            let agrees = own::agrees(&self.live(), &self.verdict);
            if accepted != Ok(Judgement::Accepted) || !agrees {
                return Err(Failure::Contradicted);
            }
        }
        if let Some(values) = Values::of(&self.problem, &self.verdict) {
            let names = self.problem.names.iter().enumerate();
            let said = names.map(|(at, name)| format!("{name} = {}", values.at(at)));
            return Ok(format!("can      {}\n", said.collect::<Vec<_>>().join(", ")));
        }
        let Some(WideVerdict::Cannot { lower, upper }) = &self.verdict else {
            return Ok("range\n".to_string());
        };
        let named = counted(&self.problem, [lower, upper]).into_iter();
        let named = named.map(|(variable, side, times)| {
            let said = self.problem.limit_text(variable, side).unwrap_or_default();
            let often = if times == 1 { String::new() } else { format!("{times} times ") };
            format!("{often}{} ({said})", reference(&self.problem, variable, side))
        });
        Ok(format!("cannot   {}\n", named.collect::<Vec<_>>().join(", ")))
    }

    /// What the last answer rests on.
    fn why(&self) -> String {
        if let Some(WideVerdict::Cannot { lower, upper }) = &self.verdict {
            return sum_text(&self.problem, &counted(&self.problem, [lower, upper]));
        }
        let Some(values) = Values::of(&self.problem, &self.verdict) else {
            return "a number grew beyond 2147483647\n".to_string();
        };
        let on = all_limits(&self.problem).into_iter().filter(|&limit| self.is_on(limit));
        let rows = on.map(|(variable, side)| {
            let said = self.problem.limit_text(variable, side).unwrap_or_default();
            let spare = values.spare((variable, side));
            vec![reference(&self.problem, variable, side), said, format!("{spare} to spare")]
        });
        table("#   ", &rows.collect::<Vec<_>>())
    }
}
