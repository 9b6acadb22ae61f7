//! Wide answers: where the run leaves its range, and nowhere else.

use super::{json, ran};
use problems::limits::Family;
use problems::random::{seed, Random};
use problems::wide::dense;
use std::fs;
use std::path::PathBuf;
use text::limits::Limits;

fn oven() -> String {
    let path = PathBuf::from(env!("CARGO_MANIFEST_DIR")).join("../../problems/oven-couplings.txt");
    fs::read_to_string(path).unwrap()
}

/// The same oven, whose last heater gets too little.
fn cold_oven() -> String {
    oven().replace("20 <= h8 <= 300", "20 <= h8 <= 235")
}

fn file(name: &str, text: &str) -> String {
    let path = PathBuf::from(env!("CARGO_TARGET_TMPDIR")).join(name);
    fs::write(&path, text).unwrap();
    path.to_str().unwrap().to_string()
}

#[test]
fn range_unless_a_wide_answer_is_asked_for() {
    for (text, verdict, status) in [(oven(), "can", 0), (cold_oven(), "cannot", 1)] {
        let (said, _, narrow) = ran(&["solve", "-"], text.as_bytes());
        assert!(said.starts_with("range\n\n# After 4 pivots"), "{said}");
        assert!(said.contains("With --wide"), "{said}");
        let (said, errors, wide) = ran(&["solve", "--wide", "-"], text.as_bytes());
        assert_eq!((narrow, wide, errors.as_str()), (2, status, ""), "{said}");
        assert!(said.starts_with(&format!("{verdict}\n\n")), "{said}");
        assert!(
            said.contains("# After 4 pivots a number grew beyond 2147483647. In wide"),
            "{said}"
        );
        let last = "# The proved checker of wide evidence has accepted this answer.\n";
        assert!(said.ends_with(last), "{said}");
        assert!(!said.contains("Each of them is needed"), "{said}");
        let (page, _, paged) = ran(&["--page", "solve", "--wide", "-"], text.as_bytes());
        assert_eq!(paged, status);
        assert!(page.contains("The proved checker of wide evidence has accepted"), "{page}");
    }
}

#[test]
fn wide_answers_as_json() {
    let (said, _, status) = ran(&["--json", "solve", "--wide", "-"], oven().as_bytes());
    let told = json::read(&said).unwrap();
    assert_eq!((status, told.at("verdict").text()), (0, "can"));
    assert_eq!(told.at("wide"), &json::Json::True);
    assert_eq!(told.at("checked"), &json::Json::True);
    assert!(said.contains("\"pivots\":8,\"checked\":true,\"wide\":true,\"left_range_after\":4,"));
    let (said, _, status) = ran(&["--json", "solve", "--wide", "-"], cold_oven().as_bytes());
    let told = json::read(&said).unwrap();
    assert_eq!((status, told.at("verdict").text()), (1, "cannot"));
    assert!(said.contains("\"sum\":\"0 >= "), "{said}");
    let (said, _, _) = ran(&["--json", "solve", "-"], cold_oven().as_bytes());
    assert!(!said.contains("wide") && said.contains("\"range\""), "{said}");
}

#[test]
fn wide_words_are_checked() {
    for (text, status) in [(oven(), 0), (cold_oven(), 1)] {
        let path = file("checked.txt", &text);
        let (words, _, found) = ran(&["--words", "solve", "--wide", &path], b"");
        assert_eq!(found, status);
        assert_eq!(words.split_whitespace().count(), 6 + 8 * 16);
        let (said, _, found) = ran(&["check", "--wide", &path, "-"], words.as_bytes());
        assert_eq!(found, 0, "{said}");
        assert!(said.contains("The proved checker of wide evidence says that"), "{said}");
        let bent = words.replacen(' ', " 1", 1);
        assert_eq!(ran(&["check", "--wide", &path, "-"], bent.as_bytes()).2, 0, "{bent}");
        let short: Vec<&str> = words.split_whitespace().skip(1).collect();
        let (said, _, found) = ran(&["check", "--wide", &path, "-"], short.join(" ").as_bytes());
        assert_eq!((found, said.lines().next()), (3, Some("refused 7")));
    }
}

/// What is wrong with a wide answer is told too.
#[test]
fn why_a_wide_answer_is_not_accepted() {
    let path = file("why-wide.txt", "names x y\n0 <= x <= 9\ny >= 2\nx + y <= 3\n");
    let wide = |numbers: [i128; 7], verdict: i64| {
        let words =
            numbers.into_iter().flat_map(problems::wide::limbs).map(|word| word.to_string());
        format!("{verdict} 0 {}", words.collect::<Vec<String>>().join(" "))
    };
    let large = 1 << 80;
    for (answer, told) in [
        (wide([large, 2 * large, 2 * large, 4 * large, 0, 0, 0], 1), "line 4   x + y <= 3   by 1"),
        (wide([large, 0, 2 * large, large, 0, 0, 0], 1), "is said to be 1, and comes to 2"),
        (wide([0, 0, 2, 2, 0, 0, 0], 1), "Its denominator is 0, and has to be from 1 to"),
        (wide([1, 1 << 120, 0, 1 << 120, 0, 0, 0], 1), "Too large for it are the numbers of"),
        (wide([0, 0, 1, 0, 0, 0, 1], 2), "Added up they leave names over"),
        (wide([0, 0, 0, 1, 0, 0, 0], 2), "there is no such limit"),
        (wide([0, 0, -1, 0, 0, 0, 0], 2), "-1 times line 3"),
        (wide([0; 7], 3), "Its first word is 3"),
        (wide([0; 7], 1).replace("1 0 0", "1 0 -1"), "A word of its numbers is out of range"),
        ("can\nx = 2\ny = 2".to_string(), "line 4   x + y <= 3   by 1"),
    ] {
        let (said, _, status) = ran(&["check", "--wide", &path, "-"], answer.as_bytes());
        assert_eq!(status, 1, "{answer}");
        let start = "not accepted\n\n# The proved checker of wide evidence does not take this for";
        assert!(said.starts_with(start) && said.contains(told), "{answer}: {said}");
    }
    let (_, _, status) = ran(&["check", "--wide", &path, "-"], b"can\nx = 1/2\ny = 2");
    assert_eq!(status, 0);
}

/// In range nothing is different.
#[test]
fn the_same_in_range() {
    let seed = seed();
    println!("SEED={seed}");
    let [mut same, mut other] = [0; 2];
    for number in 0..400 {
        let mut random = Random::of_problem(seed, number);
        let family = Family::ACCEPTED[number as usize % Family::ACCEPTED.len()];
        let text = Limits::from_words(&family.words(&mut random)).unwrap().text();
        for option in ["--json", "--words", "--page"] {
            let narrow = ran(&[option, "solve", "-"], text.as_bytes());
            let wide = ran(&[option, "solve", "--wide", "-"], text.as_bytes());
            if narrow.2 == 2 {
                assert!(wide.2 < 2, "SEED={seed}: {text}");
                other += 1;
            } else {
                assert_eq!(narrow, wide, "SEED={seed}: {text}");
                same += 1;
            }
        }
    }
    assert!(same > 600 && other > 10, "{same}, {other}, SEED={seed}");
}

/// Dense problems are all decided, and what is shown has no number that wrapped:
/// the text of an answer, its sums and its JSON are made with overflow checks.
#[test]
fn dense_problems_are_shown() {
    let seed = seed();
    println!("SEED={seed}");
    for number in 0..60 {
        let mut random = Random::of_problem(seed, number);
        let size = random.pick(&[100, 1_000]);
        let text = Limits::from_words(&dense(&mut random, size)).unwrap().text();
        for words in [&["solve", "--wide", "-"][..], &["--json", "solve", "--wide", "-"]] {
            let (said, errors, status) = ran(words, text.as_bytes());
            assert!(status < 2 && errors.is_empty(), "SEED={seed}: {said}{errors}{text}");
        }
    }
}
