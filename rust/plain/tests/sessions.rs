//! Sessions of `plain` against those of `reference`: the worked ones and random
//! scripts of every family, every number and every word of the output compared.

use problems::limits::Family;
use problems::random::{seed, Random};
use problems::sessions::{worked, Operation, Reply, Writer};
use std::collections::BTreeMap;

const SESSIONS: u64 = 6_800;

/// How often each number was returned, and each verdict written.
type Counts = BTreeMap<&'static str, BTreeMap<i64, u64>>;

#[test]
fn worked_sessions() {
    for case in worked() {
        let mut session = plain::Session::open(&case.words).expect("the words are a problem");
        for (place, (operation, expected)) in case.script.into_iter().enumerate() {
            let reply = match operation {
                Operation::Switch { variable, upper, on } => {
                    Reply::Number(session.switch(variable, upper, on))
                }
                Operation::Check => {
                    let mut out = vec![-77; 3 + 2 * (case.words[0] + case.words[1]) as usize];
                    assert_eq!(session.check(&mut out), 0, "{}, {place}", case.name);
                    Reply::Answer(out)
                }
            };
            assert_eq!(reply, expected, "{}, {place}", case.name);
        }
    }
}

#[test]
fn random_sessions() {
    let seed = seed();
    println!("SEED={seed}");
    let mut counts = Counts::new();
    for session in 0..SESSIONS {
        let mut random = Random::of_problem(seed, session);
        let family = Family::ALL[session as usize % Family::ALL.len()];
        let words = family.words(&mut random);
        compare(&mut random, &words, &mut counts)
            .unwrap_or_else(|what| panic!("SEED={seed}, session {session}, {family:?}: {what}"));
    }
    println!("{counts:?}");
    for (what, number, least) in [
        ("open", 0, SESSIONS / 2),
        ("switch", 0, 5 * SESSIONS),
        ("switch", 41, SESSIONS / 4),
        ("switch", 42, SESSIONS / 4),
        ("switch", 43, SESSIONS / 20),
        ("switch", 44, SESSIONS / 20),
        ("check", 0, 5 * SESSIONS),
        ("check", 7, SESSIONS / 10),
        ("verdict", 1, 2 * SESSIONS),
        ("verdict", 2, SESSIONS / 2),
        ("verdict", 3, SESSIONS / 100),
    ] {
        let found = counts[what].get(&number).copied().unwrap_or(0);
        assert!(found > least, "{what} {number}: {found}, SEED={seed}");
    }
}

/// One random script, call by call. An error says what differs.
fn compare(random: &mut Random, words: &[i32], counts: &mut Counts) -> Result<(), String> {
    let (mut found, mut expected) =
        match (plain::Session::open(words), reference::Session::open(words)) {
            (Ok(found), Ok(expected)) => (found, expected),
            (found, expected) => return same(counts, "open", found.err(), expected.err()),
        };
    same(counts, "open", Some(0), Some(0))?;
    for operation in Writer::new(words).script(random) {
        match operation {
            Operation::Switch { variable, upper, on } => {
                let next = expected.switch(variable, upper, on);
                let number = next.as_ref().err().copied().unwrap_or(0);
                same(counts, "switch", Some(found.switch(variable, upper, on)), Some(number))?;
                expected = next.unwrap_or(expected);
            }
            Operation::Check => {
                let length =
                    if random.percent(95) { random.size(67, 76) } else { random.size(0, 67) };
                let mut out: Vec<i64> = (0..length).map(|place| -1_000 - place as i64).collect();
                let mut wanted = out.clone();
                let number = found.check(&mut out);
                let (expected_number, next) = expected.check(&mut wanted);
                same(counts, "check", Some(number), Some(expected_number))?;
                if out != wanted {
                    return Err(format!("a check gives {out:?}, the reference {wanted:?}"));
                }
                if number == 0 {
                    *counts.entry("verdict").or_default().entry(out[0]).or_default() += 1;
                }
                expected = next;
            }
        }
        look(words, &found, &expected)?;
    }
    Ok(())
}

/// Counts a number that both give.
fn same(
    counts: &mut Counts,
    what: &'static str,
    found: Option<u32>,
    expected: Option<u32>,
) -> Result<(), String> {
    if found != expected {
        return Err(format!("{what}: {found:?}, the reference {expected:?}"));
    }
    let number = i64::from(found.unwrap_or(0));
    *counts.entry(what).or_default().entry(number).or_default() += 1;
    Ok(())
}

/// Looks at all values: on copies every limit is switched off, and a check then
/// tells D and each value as they stand.
fn look(
    words: &[i32],
    found: &plain::Session,
    expected: &reference::Session,
) -> Result<(), String> {
    let (mut found, mut expected) = (found.clone(), expected.clone());
    let variables = (words[0] + words[1]) as usize;
    for (variable, upper) in (0..variables).flat_map(|v| [(v, false), (v, true)]) {
        if expected.is_on(variable, upper) {
            let next = expected.switch(variable as u32, upper, false);
            expected = next.expect("a limit that is on is switched off");
            found.switch(variable as u32, upper, false);
        }
    }
    let mut out = vec![0; 3 + 2 * variables];
    found.check(&mut out);
    let (over, plain, small) = expected.values();
    let values = [1, 0, over].into_iter().chain(plain).chain(small);
    if out.iter().map(|&word| i128::from(word)).eq(values) {
        Ok(())
    } else {
        Err(format!("the values are {out:?}, the reference's {:?}", expected.values()))
    }
}
