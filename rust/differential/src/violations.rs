//! The first violation of one limit problem; `sessions` asks for those of a
//! session.

use crate::archive;
use problems::limits::Family;
use problems::random::Random;
use reference::Violation;

/// What became of a problem.
pub struct Outcome {
    /// 0, or the refusal of its words.
    pub number: u32,
    /// What is shown of it.
    pub shown: Shown,
}

/// What is shown of a start.
#[derive(Debug, Clone, Copy, PartialEq, Eq)]
pub enum Shown {
    /// Nothing: each basic variable is within its limits.
    Nothing,
    /// One is below its lower limit.
    Below,
    /// One is above its upper limit.
    Above,
    /// One is outside, and by small amounts too.
    Small,
}

/// Compares one problem of the family. An error says what differs.
pub fn compare(random: &mut Random, family: Family) -> Result<Outcome, String> {
    let words = family.words(random);
    let wanted = reference::first_violation(&words);
    same(archive::first_violation(&words), wanted).map_err(|what| format!("{what}: {words:?}"))?;
    let number = wanted.err().unwrap_or(0);
    let shown = match wanted.ok().flatten() {
        None => Shown::Nothing,
        Some(first) if first.shortfall.1 != 0 => Shown::Small,
        Some(first) if first.below => Shown::Below,
        Some(_) => Shown::Above,
    };
    Ok(Outcome { number, shown })
}

/// Every number of what the archive shows, against the reference. An error says
/// what differs.
pub fn same(
    found: archive::Violation,
    wanted: Result<Option<Violation>, u32>,
) -> Result<(), String> {
    let numbers = (
        i128::from(found.refused),
        found.violated,
        i128::from(found.variable),
        found.rises,
        i128::from(found.denominator),
        (i128::from(found.shortfall), i128::from(found.small)),
    );
    let expected = match wanted {
        Err(number) => (number.into(), false, 0, false, 0, (0, 0)),
        Ok(None) => (0, false, 0, false, 0, (0, 0)),
        Ok(Some(first)) => {
            (0, true, first.variable as i128, first.below, first.over, first.shortfall)
        }
    };
    if numbers == expected {
        Ok(())
    } else {
        Err(format!("{numbers:?} is shown, the reference {expected:?}"))
    }
}
