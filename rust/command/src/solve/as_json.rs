//! An answer as JSON.

use super::{Each, Shown};
use crate::clash::{added_up, loosened, Counted};
use crate::problem::{all_limits, Values};
use crate::{json, Ended, CAN, CANNOT, RANGE};
use scatterflock::WideVerdict;
use text::limits::Side;

impl Shown {
    pub(super) fn can_json(&self, values: Values) -> Ended {
        let problem = &self.problem;
        let limits = all_limits(problem).into_iter().map(|(variable, side)| {
            let spare = values.spare((variable, side));
            let mut fields = self.limit_json(variable, side);
            fields.push(("spare", json::inner(&json::pair(spare))));
            json::inner(&fields)
        });
        let below = self.small_below(values);
        let below = below.map_or("null".to_string(), |end| json::inner(&json::fraction(end)));
        let example = self.example(values).map_or("null".to_string(), |(_, numbers)| {
            let named = problem.names.iter().zip(numbers);
            json::list(named.map(|(name, number)| {
                let mut fields = vec![("name", json::text(name))];
                fields.extend(json::number(number));
                json::inner(&fields)
            }))
        });
        let fields = [
            ("values", self.values_json(values)),
            ("small_below", below),
            ("example", example),
            ("limits", json::list(limits)),
        ];
        self.json("can", &fields, CAN)
    }

    /// The value of each name.
    fn values_json(&self, values: Values) -> String {
        json::list(self.problem.names.iter().enumerate().map(|(variable, name)| {
            let mut fields = vec![("name", json::text(name))];
            fields.extend(json::pair(values.at(variable)));
            json::inner(&fields)
        }))
    }

    pub(super) fn limit_json(&self, variable: usize, side: Side) -> Vec<(&'static str, String)> {
        let limit = self.problem.limits[variable][side as usize];
        let said = self.problem.limit_text(variable, side).unwrap_or_default();
        let line = limit.and_then(|limit| limit.line);
        let label = line.and_then(|line| self.problem.labels.of_line(line));
        vec![
            ("line", json::line(limit.and_then(|limit| limit.line))),
            ("name", label.map_or("null".to_string(), json::text)),
            ("limit", json::text(&said)),
            ("side", json::text(side.name())),
        ]
    }

    fn json(&self, verdict: &str, fields: &[(&str, String)], status: u8) -> Ended {
        let is_checked = verdict != "range";
        let mut all = vec![
            ("verdict", json::text(verdict)),
            ("file", json::text(&self.file)),
            ("pivots", self.answer.pivots.to_string()),
            ("checked", is_checked.to_string()),
        ];
        if let Some(after) = self.answer.left_range_after {
            all.extend([("wide", true.to_string()), ("left_range_after", after.to_string())]);
        }
        all.extend(fields.iter().cloned());
        all.extend(self.first_json().map(|first| ("first", first)));
        all.push(("left_out", json::left_out(self.text.as_deref())));
        Ended::saying(json::object(&all), status)
    }

    pub(super) fn cannot_json(&self, counted: &[Counted], each: Option<Each>) -> Ended {
        let (_, sum) = added_up(&self.problem, counted);
        let limits = counted.iter().enumerate().map(|(place, &(variable, side, times))| {
            let mut fields = self.limit_json(variable, side);
            fields.push(("times", times.to_string()));
            let to = loosened(&self.problem, (variable, side, times), &sum);
            fields.push(("loosened", json::inner(&json::pair(to))));
            if let Some((others, rest)) = each.as_ref().map(|each| &each[place]) {
                let others = Values::of(&self.problem, others);
                let others = others.map_or("null".to_string(), |values| self.values_json(values));
                fields.extend([("without", others), ("rest", rest.in_short_json())]);
            }
            json::inner(&fields)
        });
        let limits = json::list(limits);
        let sum = json::text(&format!("{} {} {}", sum.left, sum.sign, sum.right.as_text()));
        self.json("cannot", &[("limits", limits), ("sum", sum)], CANNOT)
    }

    /// The verdict, with values or with the limits that clash.
    fn in_short_json(&self) -> String {
        if let Some(values) = Values::of(&self.problem, &self.answer.verdict) {
            let fields = [("verdict", json::text("can")), ("values", self.values_json(values))];
            return json::inner(&fields);
        }
        let Some(WideVerdict::Cannot { lower, upper }) = &self.answer.verdict else {
            return json::inner(&[("verdict", json::text("range"))]);
        };
        let limits = self.counted([lower, upper]).into_iter().map(|(variable, side, times)| {
            let mut fields = self.limit_json(variable, side);
            fields.push(("times", times.to_string()));
            json::inner(&fields)
        });
        json::inner(&[("verdict", json::text("cannot")), ("limits", json::list(limits))])
    }

    pub(super) fn range_json(&self) -> Ended {
        self.json("range", &[], RANGE)
    }
}
