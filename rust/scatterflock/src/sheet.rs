//! The auditor's sheet of a day's file.

use crate::bundle::Bundle;
use crate::raw;
use crate::refusal::Refusal;
use crate::sizes::MOST_SHEET;
use std::fmt;

/// Exact totals over the bodies of a [`Bundle`]. They are read from the proved
/// text, which [`Sheet`] prints again.
#[derive(Debug, Clone, PartialEq, Eq, Hash)]
pub struct Sheet {
    /// How many bodies there are. Each is counted in one of the next four.
    pub bodies: u64,
    /// How many can be met.
    pub can: u64,
    /// How many cannot.
    pub cannot: u64,
    /// How many runs left the range.
    pub range: u64,
    /// How many are refused, by refusal, in the order in which they are asked.
    pub refused: Vec<(Refusal, u64)>,
    /// The pivots of all verdicts together.
    pub pivots: u64,
    /// The most pivots of one.
    pub largest: u64,
    /// The lowest body that has so many, counted from 0; none without a verdict.
    pub reached: Option<u64>,
    /// For each variable in how many "cannot" answers its limits are named.
    pub named: Vec<Named>,
}

/// In how many "cannot" answers the limits of a variable are named.
#[derive(Debug, Clone, Copy, PartialEq, Eq, Hash)]
pub struct Named {
    /// Its lower limit.
    pub lower: u64,
    /// Its upper limit.
    pub upper: u64,
}

impl Bundle {
    /// Its totals, as they are proved.
    ///
    /// ```
    /// use scatterflock::Bundle;
    ///
    /// // x is at least 5; x is from 1 to 0; and what is no problem
    /// let bodies = [&[1, 0, 1, 5, 0][..], &[1, 0, 3, 1, 0], &[7]];
    /// let sheet = Bundle::of(&bodies)?.sheet();
    /// assert_eq!((sheet.bodies, sheet.can, sheet.cannot, sheet.range), (3, 1, 1, 0));
    /// assert_eq!((sheet.refused[0].0.number(), sheet.refused[0].1), (1, 1));
    /// assert_eq!((sheet.largest, sheet.reached), (0, Some(0)));
    /// assert_eq!((sheet.named[0].lower, sheet.named[0].upper), (1, 1));
    /// # Ok::<(), scatterflock::BundleRefusal>(())
    /// ```
    #[must_use]
    pub fn sheet(&self) -> Sheet {
        Sheet::read(&sheet(&self.write())).expect("a bundle's sheet has every line")
    }
}

/// The sheet of the bytes of a day's file, byte for byte as it is proved, or one
/// line where they are refused.
///
/// ```
/// assert_eq!(scatterflock::sheet(&[0; 8]), "refused 31\n");
/// ```
#[must_use]
pub fn sheet(file: &[u8]) -> String {
    let mut text = vec![0; MOST_SHEET];
    let length = raw::sheet(file, &mut text);
    text.truncate(length);
    String::from_utf8(text).expect("the sheet is letters and digits")
}

impl Sheet {
    /// From its lines, all of them.
    fn read(text: &str) -> Option<Sheet> {
        let mut lines = text.lines();
        let mut count = |name: &str| number(lines.next()?.strip_prefix(name)?);
        let [bodies, can, cannot, range] =
            [count("bodies ")?, count("can ")?, count("cannot ")?, count("range ")?];
        let counted = |&refusal: &Refusal| {
            let name = format!("refused {} ", refusal.number());
            Some((refusal, count(&name)?))
        };
        let refused = Refusal::ALL.iter().filter(|&&refusal| refusal != Refusal::Short);
        let refused = refused.map(counted).collect::<Option<Vec<_>>>()?;
        let pivots = count("pivots ")?;
        let (largest, body) = lines.next()?.strip_prefix("largest ")?.split_once(" body ")?;
        let reached = if body == "none" { None } else { Some(number(body)?) };
        let named = lines.enumerate().map(named).collect::<Option<Vec<Named>>>()?;
        let largest = number(largest)?;
        Some(Sheet { bodies, can, cannot, range, refused, pivots, largest, reached, named })
    }
}

fn number(digits: &str) -> Option<u64> {
    digits.parse().ok()
}

fn named((variable, line): (usize, &str)) -> Option<Named> {
    let (lower, upper) = line.strip_prefix(&format!("{variable} lower "))?.split_once(" upper ")?;
    Some(Named { lower: number(lower)?, upper: number(upper)? })
}

/// The lines of the sheet, as they are proved.
impl fmt::Display for Sheet {
    fn fmt(&self, to: &mut fmt::Formatter) -> fmt::Result {
        let Sheet { bodies, can, cannot, range, .. } = self;
        write!(to, "bodies {bodies}\ncan {can}\ncannot {cannot}\nrange {range}\n")?;
        for (refusal, count) in &self.refused {
            writeln!(to, "refused {} {count}", refusal.number())?;
        }
        let body = self.reached.map_or("none".to_string(), |body| body.to_string());
        writeln!(to, "pivots {}\nlargest {} body {body}", self.pivots, self.largest)?;
        for (variable, Named { lower, upper }) in self.named.iter().enumerate() {
            writeln!(to, "{variable} lower {lower} upper {upper}")?;
        }
        Ok(())
    }
}
