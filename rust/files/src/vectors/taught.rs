//! Calls of `solve`: problems that are worked in lecture notes on the method
//! and are not among cases A to I. docs/PROBLEMS.md says which are left out.

use super::{Entry, Vector, KEPT};
use problems::draft::{at_least, at_most, between, Draft, FREE};

/// All of them.
pub fn all() -> Vec<Vector> {
    drafts()
        .into_iter()
        .map(|(name, draft)| Vector {
            name: name.to_string(),
            entry: Entry::Solve,
            words: draft.words(),
            out: vec![KEPT; 68],
        })
        .collect()
}

fn drafts() -> Vec<(&'static str, Draft)> {
    let farkas: [&[i32]; 4] = [&[-1, 0], &[2, 1], &[0, -1], &[1, -3]];
    let slack: [&[i32]; 3] = [&[-1, 1, -1], &[1, 0, 1], &[2, -1, 0]];
    let slack_limits =
        |goal| [at_least(0), at_least(0), at_least(0), at_most(2), between(goal, 3), at_most(4)];
    let vertex: [&[i32]; 3] = [&[1, 1, 0, 0], &[1, 0, -1, 0], &[0, 1, 0, -1]];
    vec![
        (
            "-x <= -5, 2x + y <= 12, -y <= -3, x - 3y <= 2",
            Draft::new(
                2,
                &farkas,
                &[FREE, FREE, at_most(-5), at_most(12), at_most(-3), at_most(2)],
            ),
        ),
        ("x + 3y = 3", Draft::new(2, &[&[1, 3]], &[FREE, FREE, between(3, 3)])),
        (
            "4x - 3y + 6z <= 10, x + y - z <= 1",
            Draft::new(
                3,
                &[&[4, -3, 6], &[1, 1, -1]],
                &[FREE, FREE, FREE, at_most(10), at_most(1)],
            ),
        ),
        ("x <= 0 and x >= 10", Draft::new(1, &[&[1], &[1]], &[FREE, at_most(0), at_least(10)])),
        (
            "x >= y, y >= 2, 2x + y <= 7",
            Draft::new(
                2,
                &[&[1, -1], &[0, 1], &[2, 1]],
                &[FREE, FREE, at_least(0), at_least(2), at_most(7)],
            ),
        ),
        ("a slack form from its start", Draft::new(3, &slack, &slack_limits(0))),
        ("a slack form with its goal at the most", Draft::new(3, &slack, &slack_limits(3))),
        (
            "-x - 3y <= -12, x + y <= 10, -x + y <= -7, from 0",
            Draft::new(
                2,
                &[&[-1, -3], &[1, 1], &[-1, 1]],
                &[at_least(0), at_least(0), at_most(-12), at_most(10), at_most(-7)],
            ),
        ),
        (
            "y >= z, z >= y + 1",
            Draft::new(2, &[&[1, -1], &[-1, 1]], &[FREE, FREE, at_least(0), at_least(1)]),
        ),
        (
            "y >= z, x >= y + 1, z >= x + 1",
            Draft::new(
                3,
                &[&[0, 1, -1], &[1, -1, 0], &[-1, 0, 1]],
                &[FREE, FREE, FREE, at_least(0), at_least(1), at_least(1)],
            ),
        ),
        (
            "3x + y + 2z = 6, x + z = 1, 2x + 2y + z = 2",
            Draft::new(
                3,
                &[&[3, 1, 2], &[1, 0, 1], &[2, 2, 1]],
                &[FREE, FREE, FREE, between(6, 6), between(1, 1), between(2, 2)],
            ),
        ),
        (
            "x, y, z1, z2 >= 0, x + y <= 3, x - z1 <= 2, y - z2 <= 2",
            Draft::new(
                4,
                &vertex,
                &[
                    at_least(0),
                    at_least(0),
                    at_least(0),
                    at_least(0),
                    at_most(3),
                    at_most(2),
                    at_most(2),
                ],
            ),
        ),
        (
            "x + y >= 1, x - y >= -1",
            Draft::new(2, &[&[1, 1], &[1, -1]], &[FREE, FREE, at_least(1), at_least(-1)]),
        ),
        (
            "the same, each variable as a difference of two from 0",
            Draft::new(
                4,
                &[&[1, -1, 1, -1], &[1, -1, -1, 1]],
                &[at_least(0), at_least(0), at_least(0), at_least(0), at_least(1), at_least(-1)],
            ),
        ),
        (
            "x >= 0, y >= 0, x >= 2, y >= 2, x + y <= 3, all as rows",
            Draft::new(
                2,
                &[&[1, 0], &[0, 1], &[1, 0], &[0, 1], &[1, 1]],
                &[FREE, FREE, at_least(0), at_least(0), at_least(2), at_least(2), at_most(3)],
            ),
        ),
    ]
}
