//! The first violation: which limit the run finds broken at its start.

use super::Shown;
use crate::fraction::Pair;
use crate::json;
use crate::problem::place;
use text::limits::Side;

impl Shown {
    /// The limit, and by how much it is broken, as the text has it.
    fn first(&self) -> Option<(usize, Side, Pair)> {
        let shown = scatterflock::first_violation(&self.problem.words()).ok().flatten()?;
        let side = match shown.side {
            scatterflock::Side::Lower => Side::Lower,
            scatterflock::Side::Upper => Side::Upper,
        };
        let over = i128::from(shown.over) * i128::from(self.problem.scale(shown.variable));
        let parts = [shown.shortfall, shown.small].map(i128::from);
        Some((shown.variable, side, Pair::new(parts, over)))
    }

    /// A line about it, where it is asked for.
    pub(super) fn first_line(&self) -> String {
        if !self.with_first {
            return String::new();
        }
        let Some((variable, side, by)) = self.first() else {
            return "# At the start no limit of a sum is broken.\n".to_string();
        };
        let limit = self.problem.limit_text(variable, side).unwrap_or_default();
        let line = place(&self.problem, variable, side);
        let limit = line.map_or(limit.clone(), |line| format!("{line}, {limit},"));
        let read = by.plain.read_as().map_or(String::new(), |read| format!(", {read}"));
        format!("# At the start {limit} is broken by {by}{read}.\n")
    }

    /// The same as JSON.
    pub(super) fn first_json(&self) -> Option<String> {
        self.with_first.then(|| match self.first() {
            None => "null".to_string(),
            Some((variable, side, by)) => {
                let mut fields = self.limit_json(variable, side);
                fields.push(("by", json::inner(&json::pair(by))));
                json::inner(&fields)
            }
        })
    }
}
