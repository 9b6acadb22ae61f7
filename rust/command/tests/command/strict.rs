//! Strict limits.

use super::{json, ran};
use problems::limits::Family;
use problems::random::{seed, Random};
use std::fs;
use std::path::PathBuf;

/// What `solve` prints, and whether `check` accepts it.
fn solved(problem: &str) -> (String, bool) {
    let (said, errors, _) = ran(&["solve", "-"], problem.as_bytes());
    assert_eq!(errors, "", "{problem}");
    let name = format!("strict-{:?}.txt", std::thread::current().id());
    let path = PathBuf::from(env!("CARGO_TARGET_TMPDIR")).join(name);
    fs::write(&path, problem).unwrap();
    let accepted = ran(&["check", path.to_str().unwrap(), "-"], said.as_bytes()).2 == 0;
    (said, accepted)
}

#[test]
fn strict_limits() {
    for (problem, lines) in [
        (
            "names x\nx > 0",
            "x = 0 + small   # just above 0\n# Put any amount above 0 for small, the",
        ),
        (
            "names x\n0 < x < 1",
            "#   line 2   x > 0   a small amount to spare\n#   line 2   x < 1   1 - small to",
        ),
        (
            "names x\n0 < x < 1\nfree row 3 x",
            "#   3 x = 0 + 3 small, just above 0\n# Put any amount above 0 and below 1 ",
        ),
        ("names x y\nx > 0\ny < 3\nx + y > 3", "x = 3 + small   # just above 3\ny = 0"),
        (
            "names x\n5 < x <= 5",
            "1 times line 2 lower   # x > 5\n#    x >  5\n#   -x >= -5\n#    0 >  0",
        ),
        (
            "names x y\nx <= 0\ny < 3\nx + y >= 3",
            "1 times line 3   # y < 3\n#      -y >  -3\n#       0 >  0",
        ),
    ] {
        let (said, accepted) = solved(problem);
        assert!(accepted, "{problem}: {said}");
        for line in lines.split('\n') {
            let is_there = said.lines().any(|other| other.starts_with(line));
            assert!(is_there, "{problem}: no {line} in\n{said}");
        }
    }
}

#[test]
fn strict_answers_are_read_back() {
    let seed = seed();
    println!("SEED={seed}");
    let mut small = 0;
    for problem in 0..500 {
        let mut random = Random::of_problem(seed, problem);
        let family = random.pick(&[Family::Strict, Family::Touching]);
        let words = family.words(&mut random);
        let words: Vec<String> = words.iter().map(i32::to_string).collect();
        let (said, accepted) = solved(&words.join(" "));
        assert!(accepted || said.starts_with("range"), "SEED={seed}: {words:?} {said}");
        small += usize::from(said.contains(" small "));
    }
    println!("{small} with small parts");
    assert!(small > 20, "{small} with small parts, SEED={seed}");
}

#[test]
fn strict_limits_as_json() {
    let (said, _, status) = ran(&["--json", "solve", "-"], b"names x\n2 < x < 7");
    assert_eq!(status, 0);
    assert!(json::is_one_line(&said));
    let small = "\"decimal\":\"2\",\"exact\":false,\"small\":{\"numerator\":1,\"denominator\":1}";
    assert!(said.contains(small), "{said}");
    assert!(said.contains("\"small_below\":{\"numerator\":5,\"denominator\":1}"), "{said}");
    let (said, _, _) = ran(&["--json", "solve", "-"], b"names x\n2 < x < 2");
    assert!(said.contains("\"sum\":\"0 > 0\""), "{said}");
    let beyond = json::read(&said).unwrap().at("limits").list()[0].at("loosened").clone();
    assert_eq!(beyond.at("exact"), &json::Json::False);
    assert_eq!(beyond.at("small").at("numerator").number(), -1);
}

#[test]
fn what_breaks_strict_limits() {
    let path = PathBuf::from(env!("CARGO_TARGET_TMPDIR")).join("melting.txt");
    fs::write(&path, "names solder\n20 <= solder < 217\n").unwrap();
    for (value, what) in [
        ("217", "#   line 2   solder < 217   met exactly, and it is strict"),
        ("217 + 1/2 small", "#   line 2   solder < 217   by a small amount"),
        ("218 - 2 small", "#   line 2   solder < 217   by 1 - 2 small"),
        ("20 - small", "#   line 2   solder >= 20   by a small amount"),
        ("39/2", "#   line 2   solder >= 20   by 1/2"),
    ] {
        let answer = format!("can\nsolder = {value}\n");
        let (said, _, status) = ran(&["check", path.to_str().unwrap(), "-"], answer.as_bytes());
        assert_eq!((said.lines().last(), status), (Some(what), 1), "{value}");
    }
    for value in ["217 - small", "217 - 1/2147483647 small", "216 + 17179869176 small", "20"] {
        let answer = format!("can\nsolder = {value}\n");
        assert_eq!(ran(&["check", path.to_str().unwrap(), "-"], answer.as_bytes()).2, 0, "{value}");
    }
}
