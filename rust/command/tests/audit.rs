//! `audit`: what it prints, and with which status.

mod json;

use problems::audits::audited;
use problems::bundles::{file, ten_bodies};
use problems::random::{seed, Random};
use std::ffi::OsString;
use std::fs;

/// Output, errors and status, with this on standard input.
fn ran(words: &[&str], input: &[u8]) -> (String, String, i32) {
    let words: Vec<OsString> = words.iter().map(OsString::from).collect();
    let ended = command::run(&words, &mut &input[..]);
    (String::from_utf8(ended.output).unwrap(), ended.errors, i32::from(ended.status))
}

#[test]
fn the_proved_sheet() {
    let day = file(1, &ten_bodies());
    let proved = fs::read_to_string(files::top().join("crates/audit/stdout")).unwrap();
    assert_eq!(ran(&["audit", "--bare", "-"], &day), (proved, String::new(), 0));
    assert_eq!(ran(&["audit", "--bare", "-"], &day[..7]).0, "refused 30\n");
    assert_eq!(ran(&["audit", "--bare", "-"], &day[..7]).2, 3);
}

#[test]
fn words_beside_every_line() {
    let day = file(1, &ten_bodies());
    let (said, errors, status) = ran(&["audit", "-"], &day);
    assert_eq!((errors.as_str(), status), ("", 0));
    let bare = ran(&["audit", "--bare", "-"], &day).0;
    assert_eq!(said.lines().count(), bare.lines().count());
    for (line, bare) in said.lines().zip(bare.lines()) {
        let words = line.strip_prefix(bare).unwrap_or_else(|| panic!("{line} is not {bare}"));
        assert!(words.starts_with("   ") && words.trim().contains(' '), "{line}");
    }
    for line in [
        "bodies 10          bodies of the file, edition 1; each is counted in one of the next lines",
        "cannot 3           the limits clash",
        "refused 4 1        refused: a coefficient is not from -1,000 to 1,000",
        "largest 2 body 0   the most pivots of one answer, and the first body that has so many",
        "0 lower 2 upper 1  clashes that name the lower limit of variable 0: 2, the upper: 1",
        "31 lower 0 upper 0 no clash names a limit of variable 31",
    ] {
        let squeezed = |line: &str| line.split_whitespace().collect::<Vec<&str>>().join(" ");
        assert!(said.lines().any(|said| squeezed(said) == squeezed(line)), "no {line} in\n{said}");
    }
    let empty = ran(&["audit", "-"], &file(2, &[])).0;
    assert!(empty.contains("body none   no body has an answer\n"), "{empty}");
}

#[test]
fn the_page_shows_what_is_printed() {
    let ten = ten_bodies();
    let said = ran(&["audit", "-"], &file(1, &[ten[1].clone(), ten[9].clone()])).0;
    let page = fs::read_to_string(files::top().join("docs/formats/sheet.md")).unwrap();
    let shown = page.lines().skip_while(|line| !line.contains("$ scatterflock audit")).skip(1);
    let shown: Vec<&str> = shown.map_while(|line| line.strip_prefix("    ")).collect();
    assert!(shown.len() > 9, "{shown:?}");
    for line in shown.into_iter().filter(|&line| line != "..") {
        assert!(said.lines().any(|said| said == line), "no {line} in\n{said}");
    }
}

#[test]
fn as_json() {
    let (said, _, status) = ran(&["--json", "audit", "-"], &file(2, &ten_bodies()));
    assert_eq!(status, 0);
    let told = json::read(&said).unwrap();
    for (field, count) in [
        ("edition", 2),
        ("bodies", 10),
        ("can", 2),
        ("cannot", 3),
        ("range", 1),
        ("pivots", 6),
        ("largest", 2),
        ("body", 0),
    ] {
        assert_eq!(told.at(field).number(), count, "{field}");
    }
    let refused: Vec<(i64, i64)> = told
        .at("refused")
        .list()
        .iter()
        .map(|refused| (refused.at("number").number(), refused.at("count").number()))
        .collect();
    assert_eq!(refused, [(1, 2), (2, 0), (3, 1), (4, 1), (5, 0), (6, 0), (10, 0)]);
    let named = told.at("named").list();
    assert_eq!(named.len(), 32);
    let [lower, upper] = ["lower", "upper"].map(|side| named[0].at(side).number());
    assert_eq!((named[0].at("variable").number(), lower, upper), (0, 2, 1));
    assert!(ran(&["--json", "audit", "-"], &file(1, &[])).0.contains("\"body\":null"));
}

#[test]
fn what_is_refused() {
    let (said, _, status) = ran(&["audit", "-"], &[0; 8]);
    assert!(said.starts_with("refused 31\n\n# "), "{said}");
    assert_eq!(status, 3);
    let told = json::read(&ran(&["--json", "audit", "-"], &[0; 8]).0).unwrap();
    assert_eq!(told.at("number").number(), 31);
    let (said, _, status) = ran(&["audit", "-"], b"x >= 1\n");
    assert!(said.contains("scatterflock pack"), "{said}");
    assert_eq!(status, 3);
    for words in [&["audit"][..], &["audit", "a", "b"], &["--json", "--bare", "audit", "-"]] {
        assert_eq!(ran(words, b"").2, 4, "{words:?}");
    }
}

#[test]
fn random_days() {
    let seed = seed();
    println!("SEED={seed}");
    for number in 0..200 {
        let day = audited(&mut Random::of_problem(seed, number));
        let [bare, text, told] =
            ["--bare", "--", "--json"].map(|option| ran(&[option, "audit", "-"], &day));
        assert_eq!([bare.2, text.2, told.2], [0; 3], "SEED={seed}, {number}");
        assert!(text.0.lines().zip(bare.0.lines()).all(|(said, line)| said.starts_with(line)));
        let told = json::read(&told.0).unwrap();
        let line = format!("cannot {}\n", told.at("cannot").number());
        assert!(bare.0.contains(&line), "SEED={seed}, {number}: {line}");
    }
}
