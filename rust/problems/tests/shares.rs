//! Every family gives what it is for: a good share of each verdict, of
//! refusals where they are meant, and of accepted and rejected evidence.

use problems::evidence::bent;
use problems::random::{seed, Random};
use problems::{limits, points, times};
use std::collections::BTreeMap;

type Shares = BTreeMap<String, usize>;

fn count(shares: &mut Shares, what: String) {
    *shares.entry(what).or_default() += 1;
}

/// So many times of 100.
fn share(shares: &Shares, what: &str) -> usize {
    let all: usize = shares.values().sum();
    100 * shares.get(what).copied().unwrap_or(0) / all
}

fn verdict(returned: u32, verdict: i64) -> String {
    match (returned, verdict) {
        (0, 1) => "can".to_string(),
        (0, 2) => "cannot".to_string(),
        (0, _) => "range".to_string(),
        (number, _) => format!("refused {number}"),
    }
}

/// So many that no least share is missed by chance: each is five standard
/// deviations below what is expected.
const PROBLEMS: u64 = 4_000;

/// The verdicts of a family, and what the checker says of bent answers.
fn limit_shares(family: limits::Family, seed: u64) -> (Shares, Shares) {
    let (mut verdicts, mut evidence) = (Shares::new(), Shares::new());
    for problem in 0..PROBLEMS {
        let mut random = Random::of_problem(seed, problem);
        let words = family.words(&mut random);
        let mut out = [0; 67];
        let returned = reference::solve(&words, &mut out);
        count(&mut verdicts, verdict(returned, out[0]));
        if returned == 0 {
            let length = 3 + 2 * (words[0] + words[1]) as usize;
            let bent = bent(&mut random, &words, &out[..length]);
            count(&mut evidence, reference::check(&words, &bent).to_string());
        }
    }
    println!("{:11} {verdicts:?}, bent {evidence:?}", family.name());
    (verdicts, evidence)
}

/// What a family of limit problems must at least have, in 100.
fn least_limit_shares(family: limits::Family) -> &'static [(&'static str, usize)] {
    match family {
        limits::Family::Range => &[("can", 8), ("cannot", 8), ("range", 12)],
        limits::Family::Edge => &[("can", 20), ("cannot", 20), ("range", 8)],
        limits::Family::AnySize => &[("can", 20), ("cannot", 8), ("range", 1)],
        limits::Family::BlankRows => {
            &[("can", 4), ("cannot", 3), ("refused 6", 1), ("refused 10", 30)]
        }
        limits::Family::Damaged => &[
            ("can", 4),
            ("cannot", 4),
            ("refused 2", 2),
            ("refused 3", 10),
            ("refused 4", 4),
            ("refused 5", 4),
            ("refused 6", 5),
        ],
        limits::Family::Garbage => &[
            ("can", 5),
            ("cannot", 5),
            ("refused 1", 5),
            ("refused 2", 8),
            ("refused 3", 5),
            ("refused 6", 3),
        ],
        _ => &[("can", 10), ("cannot", 10)],
    }
}

#[test]
fn limit_families() {
    let seed = seed();
    println!("SEED={seed}");
    for family in limits::Family::ALL {
        let (verdicts, evidence) = limit_shares(family, seed);
        for &(what, least) in least_limit_shares(family) {
            assert!(share(&verdicts, what) >= least, "{family:?}: {what}, SEED={seed}");
        }
        for (what, least) in [("7", 1), ("8", 15), ("9", 30)] {
            assert!(share(&evidence, what) >= least, "{family:?}: bent {what}, SEED={seed}");
        }
    }
}

/// What multipliers make of limits: lower ones added, upper ones taken away.
fn total(words: &[i32], answer: &[i64]) -> i64 {
    let variables = (words[0] + words[1]) as usize;
    let limits = words[2 + (words[0] * words[1]) as usize..].chunks_exact(3).enumerate();
    limits
        .map(|(v, three)| {
            let (lower, upper) = (i64::from(three[1]), i64::from(three[2]));
            lower * answer[3 + v] - upper * answer[3 + variables + v]
        })
        .sum()
}

/// Small parts come up, and contradictions by a strict limit alone, after a
/// pivot too.
#[test]
fn small_amounts_decide() {
    let seed = seed();
    println!("SEED={seed}");
    let least = [(limits::Family::Strict, [15, 5, 1]), (limits::Family::Touching, [20, 20, 10])];
    for (family, least) in least {
        let [mut small, mut even, mut later] = [0; 3];
        for problem in 0..1_000 {
            let words = family.words(&mut Random::of_problem(seed, problem));
            let mut out = [0; 67];
            assert_eq!(reference::solve(&words, &mut out), 0);
            let half = 3 + (words[0] + words[1]) as usize;
            small += usize::from(out[0] == 1 && out[half..].iter().any(|&word| word != 0));
            let is_even = out[0] == 2 && total(&words, &out) == 0;
            even += usize::from(is_even);
            later += usize::from(is_even && out[1] > 0);
        }
        let found = [small, even, later];
        println!(
            "{:11} {found:?} with small parts, a total of 0, and after a pivot",
            family.name()
        );
        assert!(found.iter().zip(least).all(|(&found, least)| found >= 10 * least), "SEED={seed}");
    }
}

#[test]
fn accepted_families_are_accepted() {
    let seed = seed();
    for problem in 0..2_000 {
        let mut random = Random::of_problem(seed, problem);
        let family = random.pick(&limits::Family::ACCEPTED);
        let mut out = [0; 67];
        assert_eq!(reference::solve(&family.words(&mut random), &mut out), 0, "SEED={seed}");
        let family = random.pick(&times::Family::ACCEPTED);
        let mut out = [0; 130];
        assert_eq!(reference::times(&family.words(&mut random), &mut out), 0, "SEED={seed}");
    }
}

#[test]
fn problems_around_points() {
    let seed = seed();
    println!("SEED={seed}");
    for (name, draft) in points::SETS {
        let mut verdicts = Shares::new();
        for problem in 0..1_000 {
            let words = draft(&mut Random::of_problem(seed, problem)).words();
            let mut out = [0; 67];
            let returned = reference::solve(&words, &mut out);
            count(&mut verdicts, verdict(returned, out[0]));
        }
        println!("{name:11} {verdicts:?}");
        for (what, least) in [("can", 45), ("cannot", 10)] {
            assert!(share(&verdicts, what) >= least, "{name}: {what}, SEED={seed}");
        }
    }
}

fn time_shares(family: times::Family, seed: u64) -> Shares {
    let mut verdicts = Shares::new();
    for problem in 0..1_500 {
        let words = family.words(&mut Random::of_problem(seed, problem));
        let mut out = [0; 130];
        let returned = reference::times(&words, &mut out);
        count(&mut verdicts, verdict(returned, out[0]));
    }
    println!("{:14} {verdicts:?}", family.name());
    verdicts
}

/// What a family of time rows must at least have, in 100.
fn least_time_shares(family: times::Family) -> &'static [(&'static str, usize)] {
    match family {
        times::Family::Small => &[("can", 20), ("cannot", 20)],
        times::Family::Parallel => &[("can", 20), ("cannot", 5)],
        times::Family::Infeasible => &[("cannot", 95)],
        times::Family::BadRing | times::Family::LoneRing => &[("cannot", 100)],
        times::Family::LevelRing => &[("can", 40), ("cannot", 20)],
        times::Family::Damaged => &[
            ("can", 5),
            ("cannot", 3),
            ("refused 12", 2),
            ("refused 13", 10),
            ("refused 14", 8),
            ("refused 15", 5),
            ("refused 16", 1),
        ],
        times::Family::Garbage => &[
            ("can", 4),
            ("cannot", 5),
            ("refused 11", 5),
            ("refused 12", 4),
            ("refused 13", 8),
            ("refused 14", 6),
        ],
        _ => &[("can", 100)],
    }
}

#[test]
fn time_families() {
    let seed = seed();
    println!("SEED={seed}");
    for family in times::Family::ALL {
        let verdicts = time_shares(family, seed);
        for &(what, least) in least_time_shares(family) {
            assert!(share(&verdicts, what) >= least, "{family:?}: {what}, SEED={seed}");
        }
    }
}
