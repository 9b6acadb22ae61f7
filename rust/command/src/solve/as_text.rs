//! An answer in the reader's words.

use super::{Each, Shown};
use crate::clash::{added_up, loosened, reference, sum_text, Counted};
use crate::problem::{all_limits, is_one_value, left_out, place, Values};
use crate::table::table;
use crate::{Ended, CAN, CANNOT, RANGE};
use scatterflock::sizes::LARGEST_NUMBER;
use scatterflock::WideVerdict;
use text::limits::Side;

impl Shown {
    fn accepted(&self) -> String {
        let left_out = left_out(self.text.as_deref(), "limits");
        let said = self.how().into_iter().map(|sentence| format!("# {sentence}\n"));
        self.first_line() + &left_out + &said.collect::<String>()
    }

    /// How it was decided.
    pub(super) fn how(&self) -> Vec<String> {
        let pivots_taken = pivots(self.answer.pivots);
        match self.answer.left_range_after {
            None => {
                vec![format!(
                    "The proved checker has accepted this answer. It took {pivots_taken}."
                )]
            }
            Some(after) => vec![
                format!(
                    "After {} a number grew beyond {LARGEST_NUMBER}. In wide numbers the run went \
                     on, and ended after {pivots_taken}.",
                    pivots(after)
                ),
                "The proved checker of wide evidence has accepted this answer.".to_string(),
            ],
        }
    }

    pub(super) fn can(&self, values: Values) -> Ended {
        let mut said = format!("can\n\n{}\n", self.values(values));
        for (title, rows) in [
            ("How far each limit is from being broken", self.spares(values)),
            ("Rows without limits", self.free_rows(values)),
        ] {
            if !rows.is_empty() {
                said += &format!("# {title}:\n{}#\n", table("#   ", &rows));
            }
        }
        Ended::saying(said + &self.small(values) + &self.accepted(), CAN)
    }

    fn values(&self, values: Values) -> String {
        let named = self.problem.names.iter().enumerate().map(|(variable, name)| {
            let value = values.at(variable);
            let said = format!("{name} = {value}");
            let read = value.read_as().map(|read| format!("# {read}"));
            [Some(said), read].into_iter().flatten().collect()
        });
        table("", &named.collect::<Vec<Vec<String>>>())
    }

    /// What the small amount may be, where there is one.
    pub(super) fn small(&self, values: Values) -> String {
        if values.small.iter().all(|&small| small == 0) {
            return String::new();
        }
        let end = self.small_below(values).map(|end| format!(" and below {end}"));
        let end = end.unwrap_or_default();
        let example = self.example(values).map_or(String::new(), |(amount, numbers)| {
            let named = self.problem.names.iter().zip(numbers);
            let said = named.map(|(name, number)| format!("{name} = {number}"));
            format!(
                "# With {amount} for it: {}. The checker has accepted that too.\n",
                said.collect::<Vec<String>>().join(", ")
            )
        });
        format!(
            "# Put any amount above 0{end} for small, the same one everywhere: all limits hold.\n\
             {example}"
        )
    }

    /// Each limit, with what is left.
    fn spares(&self, values: Values) -> Vec<Vec<String>> {
        let problem = &self.problem;
        let limits = all_limits(problem).into_iter();
        let told = limits
            .filter(|&(variable, side)| side == Side::Lower || !is_one_value(problem, variable));
        told.map(|(variable, side)| {
            let spare = values.spare((variable, side));
            let far = match (spare.plain.numerator, spare.plain.read_as()) {
                (0, _) if spare.sign() == 0 => "met exactly".to_string(),
                (0, _) => "a small amount to spare".to_string(),
                (_, None) => format!("{spare} to spare"),
                (_, Some(read)) => format!("{spare} to spare, {read}"),
            };
            let mut limit = problem.limit_text(variable, side).unwrap_or_default();
            if is_one_value(problem, variable) {
                limit = limit.replace(">=", "=");
            }
            place(problem, variable, side).into_iter().chain([limit, far]).collect()
        })
        .collect()
    }

    /// What the rows without limits come to.
    fn free_rows(&self, values: Values) -> Vec<Vec<String>> {
        let problem = &self.problem;
        let sums = problem.names.len()..problem.limits.len();
        let free = sums.filter(|&sum| problem.limits[sum] == [None; 2]);
        free.map(|sum| {
            let value = values.at(sum);
            let read = value.read_as().map_or(String::new(), |read| format!(", {read}"));
            vec![format!("{} = {value}{read}", problem.left(sum))]
        })
        .collect()
    }

    pub(super) fn cannot(&self, counted: &[Counted], each: Option<Each>) -> Ended {
        let named = counted.iter().map(|&(variable, side, times)| {
            let limit = self.problem.limit_text(variable, side).unwrap_or_default();
            let reference = reference(&self.problem, variable, side);
            vec![format!("{times} times {reference}"), format!("# {limit}")]
        });
        let said = format!(
            "cannot\n\n{}\n# Each as \"at least\", so many times, and all of them added up:\n{}#\n\
             # No values meet these limits together.\n\
             {}{}{}{}",
            table("", &named.collect::<Vec<Vec<String>>>()),
            sum_text(&self.problem, counted),
            self.needed(),
            self.enough(counted),
            each.map_or(String::new(), |each| self.others(counted, each)),
            self.accepted()
        );
        Ended::saying(said, CANNOT)
    }

    /// That nothing is idle, which is proved of the solver's own answers.
    fn needed(&self) -> &'static str {
        match self.answer.left_range_after {
            None => {
                "# Each of them is needed for that: drop any one, and the others named here can be \
                 met.\n"
            }
            Some(_) => "",
        }
    }

    /// How far each limit has to be loosened, all others as they are.
    fn enough(&self, counted: &[Counted]) -> String {
        let (_, sum) = added_up(&self.problem, counted);
        let rows = counted.iter().map(|&limit| {
            let (variable, side, _) = limit;
            let to = loosened(&self.problem, limit, &sum).plain;
            let to = match to.decimal() {
                (decimal, true) => decimal,
                (decimal, false) => format!("{to}, about {decimal}"),
            };
            let sign = if side == Side::Lower { ">=" } else { "<=" };
            let said = format!("{} {sign} {to}", self.problem.left(variable));
            vec![reference(&self.problem, variable, side), said]
        });
        let rows: Vec<Vec<String>> = rows.collect();
        let how = if sum.sign == ">" { "beyond this" } else { "to this" };
        format!(
            "#\n# One of them loosened {how}, and this clash is over (another may show then):\n{}#\n",
            table("#   ", &rows)
        )
    }

    /// For each limit that counts, what the others allow: those that are named, and
    /// all of the file.
    fn others(&self, counted: &[Counted], each: Each) -> String {
        let unknown = || "a number grew beyond 2147483647, so no values are shown".to_string();
        let [named, rest] = [true, false].map(|is_named| {
            let rows = counted.iter().zip(&each).map(|(&(variable, side, _), (verdict, rest))| {
                let said = match is_named {
                    true => self.in_short(verdict).unwrap_or_else(unknown),
                    false => rest.told(),
                };
                vec![format!("without {}", reference(&self.problem, variable, side)), said]
            });
            table("#   ", &rows.collect::<Vec<Vec<String>>>())
        });
        format!(
            "# One of them left out, and all other limits kept:\n{rest}#\n\
             # One of them left out, and the others named here alone:\n{named}#\n"
        )
    }

    /// The values of a "can" in one line.
    fn in_short(&self, verdict: &Option<WideVerdict>) -> Option<String> {
        let values = Values::of(&self.problem, verdict)?;
        let names = self.problem.names.iter().enumerate();
        let named = names.map(|(at, name)| format!("{name} = {}", values.at(at)));
        Some(named.collect::<Vec<String>>().join(", "))
    }

    /// The answer in one line.
    fn told(&self) -> String {
        if let Some(values) = self.in_short(&self.answer.verdict) {
            return format!("can: {values}");
        }
        let Some(WideVerdict::Cannot { lower, upper }) = &self.answer.verdict else {
            return "range: a number grew beyond 2147483647".to_string();
        };
        let named = self.counted([lower, upper]).into_iter();
        let named = named.map(|(variable, side, _)| reference(&self.problem, variable, side));
        format!("cannot still, for {}", named.collect::<Vec<String>>().join(", "))
    }

    pub(super) fn range(&self) -> Ended {
        let pivots = pivots(self.answer.pivots);
        let said = format!(
            "range\n\n# After {pivots} a number grew beyond 2147483647, and the run ended.\n\
             # That says nothing about the limits: they may be such as can be met, or not.\n\
             # With --wide the run goes on in numbers of any size, and decides it.\n{}",
            self.first_line()
        );
        Ended::saying(said, RANGE)
    }
}

/// How many pivots, in words.
pub(super) fn pivots(count: u64) -> String {
    match count {
        1 => "1 pivot".to_string(),
        count => format!("{count} pivots"),
    }
}
