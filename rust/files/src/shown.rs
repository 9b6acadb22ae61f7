//! The example inputs of the program: cases A to I and a few ovens.

use crate::top;
use problems::draft::{at_least, at_most, between, Draft, FREE};
use problems::worked;
use std::fs;
use text::limits::Limits;

/// A problem with the name of its file.
pub struct Shown {
    /// The file's name, without an ending.
    pub name: String,
    /// The problem.
    pub words: Vec<i32>,
    /// What each of its variables is called.
    pub names: Vec<String>,
}

impl Shown {
    /// The problem as text, under the first line of its page.
    pub fn text(&self) -> String {
        let page = top().join(format!("problems/{}.md", self.name));
        let page = fs::read_to_string(&page).unwrap_or_default();
        let title = page.lines().next().unwrap_or("# ");
        let mut problem = Limits::from_words(&self.words).expect("it is not refused by its sizes");
        problem.names.clone_from(&self.names);
        format!("{title}\n\n{}", problem.text())
    }
}

/// All of them.
pub fn all() -> Vec<Shown> {
    let blank = worked::case_i();
    let cases = worked::lettered()
        .into_iter()
        .map(|case| (case.name, case.words))
        .chain([(blank.name, blank.words)])
        .map(|(name, words)| {
            let names = ["x", "y"].into_iter().take(words[0] as usize);
            let names = names.map(str::to_string).collect();
            Shown { name: name.to_lowercase(), words, names }
        });
    let ovens = [
        ("oven-ramp", numbered("zone", 4), ramp(180)),
        ("oven-steep", numbered("zone", 4), ramp(260)),
        ("oven-shares", numbered("heater", 3), shares()),
        ("oven-eight", numbered("zone", 8), eight()),
        ("oven-three", [numbered("soak", 3), numbered("peak", 3)].concat(), three()),
        ("oven-tiny-shares", numbered("heater", 4), tiny_shares()),
    ];
    let ovens = ovens.into_iter().map(|(name, names, draft)| Shown {
        name: name.to_string(),
        words: draft.words(),
        names,
    });
    cases.chain(ovens).collect()
}

/// So many names, with a number each.
fn numbered(each: &str, count: usize) -> Vec<String> {
    (0..count).map(|number| format!("{each}{number}")).collect()
}

/// The step from each zone to the next.
fn steps(zones: usize) -> Vec<Vec<i32>> {
    (1..zones)
        .map(|zone| (0..zones).map(|z| i32::from(z == zone) - i32::from(z + 1 == zone)).collect())
        .collect()
}

/// Four zones, the first from 20 to 60 degrees, the last at least so warm, and
/// no step over 50.
fn ramp(last: i32) -> Draft {
    let limits = [between(20, 60), FREE, FREE, at_least(last)];
    let limits = limits.into_iter().chain([between(-50, 50); 3]).collect();
    Draft { n: 4, rows: steps(4), limits }
}

/// Three zones that heat each other: what each heater gives reaches the zones
/// beside it by a share.
fn shares() -> Draft {
    let rows: [&[i32]; 4] = [&[7, 2, 0], &[2, 7, 2], &[0, 2, 7], &[1, 1, 1]];
    let heaters = [between(0, 300); 3];
    let zones = [between(1_000, 1_000), at_least(1_200), between(1_000, 1_000), at_most(450)];
    Draft::new(3, &rows, &[&heaters[..], &zones].concat())
}

/// Eight zones with 16 rows: seven steps, six bends, and three sums of power.
fn eight() -> Draft {
    let mut rows = steps(8);
    let mut limits = vec![between(20, 40)];
    limits.extend([between(20, 400); 6]);
    limits.push(at_least(300));
    limits.extend([between(0, 45); 7]);
    for zone in 2..8 {
        rows.push((0..8).map(|z| bend(zone, z)).collect());
        limits.push(between(-15, 15));
    }
    rows.push(vec![3, 2, 1, 0, 0, 0, 0, 0]);
    limits.push(at_most(400));
    rows.push(vec![0, 0, 0, 2, 3, 2, 0, 0]);
    limits.push(at_least(900));
    rows.push(vec![0, 0, 0, 0, 0, 1, 2, 3]);
    limits.push(at_most(1_700));
    Draft { n: 8, rows, limits }
}

/// How much a zone counts where the slope may change but little.
fn bend(zone: usize, other: usize) -> i32 {
    match zone.checked_sub(other) {
        Some(0 | 2) => 1,
        Some(1) => -2,
        _ => 0,
    }
}

/// Three zones, followed from the soak of a ramp to its peak: 20 rows. Zones are
/// not far apart and rise nearly alike, and each heater gives what its zone
/// loses, to the zones beside it too.
fn three() -> Draft {
    let mut limits = [[between(140, 180); 3], [between(230, 250); 3]].concat();
    let mut rows = Vec::new();
    let mut row = |coefficients: [i32; 6], limit: [i32; 3]| {
        rows.push(coefficients.to_vec());
        limits.push(limit);
    };
    row([-1, 1, 0, 0, 0, 0], between(0, 8));
    row([0, -1, 1, 0, 0, 0], between(0, 8));
    row([-1, 0, 1, 0, 0, 0], at_least(9));
    row([0, 0, 0, -1, 1, 0], between(-3, 3));
    row([0, 0, 0, 0, -1, 1], between(-3, 3));
    row([0, 0, 0, -1, 0, 1], between(-4, 4));
    row([-1, 0, 0, 1, 0, 0], at_most(80));
    row([0, -1, 0, 0, 1, 0], at_most(80));
    row([0, 0, -1, 0, 0, 1], at_most(80));
    row([1, -1, 0, -1, 1, 0], between(-6, 6));
    row([0, 1, -1, 0, -1, 1], between(-6, 6));
    row([1, 0, -1, -1, 0, 1], between(-9, 9));
    row([5, -2, 0, 0, 0, 0], at_most(500));
    row([-2, 7, -2, 0, 0, 0], at_most(520));
    row([0, -2, 5, 0, 0, 0], at_most(540));
    row([0, 0, 0, 5, -2, 0], between(700, 720));
    row([0, 0, 0, -2, 7, -2], between(705, 725));
    row([0, 0, 0, 0, -2, 5], between(715, 735));
    row([3, 3, 3, 0, 0, 0], at_most(1_420));
    row([0, 0, 0, 3, 3, 3], at_most(2_130));
    Draft { n: 6, rows, limits }
}

/// Each heater gives the next zone a thousandth of what it gives its own. The
/// first must get something, and the last heater must be off.
fn tiny_shares() -> Draft {
    let rows: [&[i32]; 3] = [&[-1, 1_000, 0, 0], &[0, -1, 1_000, 0], &[0, 0, -1, 1_000]];
    let limits = [at_least(1), FREE, FREE, at_most(0), at_least(0), at_least(0), at_least(0)];
    Draft::new(4, &rows, &limits)
}
