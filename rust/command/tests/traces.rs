//! `scatterflock trace` and `scatterflock replay`, over files and over texts.

use std::ffi::OsString;
use std::fs;
use std::path::PathBuf;

fn top() -> PathBuf {
    PathBuf::from(env!("CARGO_MANIFEST_DIR")).join("../..")
}

fn ran(words: &[&str], stdin: &[u8]) -> (String, String, u8) {
    let words: Vec<OsString> = words.iter().map(OsString::from).collect();
    let ended = command::run(&words, &mut &stdin[..]);
    (String::from_utf8_lossy(&ended.output).into_owned(), ended.errors, ended.status)
}

fn a() -> String {
    top().join("problems/a.txt").to_string_lossy().into_owned()
}

fn replay(trace: &[u8]) -> (String, String, u8) {
    ran(&["replay", &a(), "-"], trace)
}

/// Case A's trace as bytes.
fn bytes(trace: &[u32]) -> Vec<u8> {
    trace.iter().flat_map(|word| word.to_le_bytes()).collect()
}

#[test]
fn what_is_traced_is_accepted() {
    for file in fs::read_dir(top().join("problems")).unwrap() {
        let file = file.unwrap().path();
        if !file.extension().is_some_and(|end| end == "txt" || end == "words") {
            continue;
        }
        let name = file.to_string_lossy();
        let (trace, _, status) = ran(&["trace", &name], b"");
        if status != 0 {
            continue;
        }
        let (said, errors, status) = ran(&["replay", &name, "-"], trace.as_bytes());
        assert_eq!((errors.as_str(), status), ("", 0), "{name}: {said}");
        assert!(said.starts_with("accepted\n"), "{name}: {said}");

        let ask = ["trace", "--bytes", &name].map(OsString::from);
        let words = command::run(&ask, &mut &b""[..]).output;
        let (said, _, status) = ran(&["replay", &name, "-"], &words);
        assert_eq!(status, 0, "{name}: {said}");
    }
}

#[test]
fn numbers_names_and_lines() {
    for text in [
        "2 0 25\n4 1 11\n",
        "line 4 x 25 # a comment\n\n# another\nline 6 y {x y line 5}\n",
        "2 x {0, 3, 4}\r\n4 y {x, y, line 5}",
    ] {
        let (said, errors, status) = replay(text.as_bytes());
        assert_eq!((errors.as_str(), status), ("", 0), "{text}: {said}");
    }
    assert_eq!(replay(&bytes(&[2, 0, 25, 4, 1, 11])).2, 0);
}

#[test]
fn what_is_wrong_is_told() {
    for (text, what) in [
        ("2 0 25\n3 1 11", "In step 1 (line 2) the trace says that line 5 leaves; in the run line 6 does."),
        ("2 0 25\n4 0 11", "In step 1 (line 2) the trace says that x enters; in the run y does."),
        ("2 0 57", "x, line 5, line 6, 5 (no variable) are basic afterwards; in the run x, line 5, line 6 are."),
        ("9 0 25", "9, which is no variable, leaves; in the run line 4 does."),
        ("2 0 0", "the trace says that none are basic afterwards"),
        ("", "Its steps, 0, are the run's own, and the run goes on: line 4 leaves and x enters"),
        ("2 0 25\n4 1 11\n0 0 0", "The run is over after 2 steps, and the trace has more."),
    ] {
        let (said, errors, status) = replay(text.as_bytes());
        assert_eq!((errors.as_str(), status), ("", 1), "{text}: {said}");
        assert!(said.starts_with("not accepted\n\n# ") && said.contains(what), "{text}: {said}");
    }
    let (said, _, status) = replay(&bytes(&[2, 0, 25, 4]));
    assert_eq!(
        (said.as_str(), status),
        ("refused 51\n\n# 4 words are not three for each step\n", 3)
    );
}

#[test]
fn faults_have_a_place() {
    for (text, line, column, what) in [
        ("2 0", 1, 4, "the set of basic variables is missing"),
        ("2", 1, 2, "the variable that enters is missing"),
        ("2 0 25 7", 1, 8, "a step has three parts, and 7 stands behind them"),
        ("2 0 25\n4 z 11", 2, 3, "the variable that enters: z is no number, name or line"),
        ("line 3 0 25", 1, 1, "the variable that leaves: line is no number, name or line"),
        ("2 0 x", 1, 5, "the set of basic variables: x is no number"),
        ("2 0 {x, 32}", 1, 9, "the set of basic variables: 32 has no bit"),
        ("2 0 {x", 1, 7, "the set of basic variables ends before its }"),
        ("-1 0 25", 1, 1, "the variable that leaves: -1 is no number, name or line"),
    ] {
        let (said, errors, status) = replay(text.as_bytes());
        assert_eq!((said.as_str(), status), ("", 4), "{text}");
        let place = format!("standard input:{line}:{column}: {what}\n");
        assert!(errors.starts_with(&place), "{text}: {errors}");
    }
    let (_, errors, status) = replay(&[0, 0, 0, 0, 1]);
    assert_eq!((errors.contains("5 bytes are no whole number of words"), status), (true, 5));
}

#[test]
fn json() {
    let (said, _, status) = ran(&["--json", "trace", &a()], b"");
    let steps =
        r#"{"steps":[{"leaving":2,"entering":0,"mask":25},{"leaving":4,"entering":1,"mask":11}]}"#;
    assert_eq!((said.trim_end(), status), (steps, 0));
    let (said, _, status) = ran(&["--json", "replay", &a(), "-"], b"2 0 25\n4 1 25\n");
    assert!(said.starts_with(r#"{"accepted":false,"number":52,"reason":"#), "{said}");
    assert!(said.contains("in the run x, y, line 5 are. There line 6 leaves"), "{said}");
    let end = r#""step":1,"word":2,"run":{"leaving":4,"entering":1,"mask":11}}"#;
    assert!(said.trim_end().ends_with(end) && status == 1, "{said}");
    let (said, _, status) = ran(&["--json", "replay", &a(), "-"], b"2 0 25\n4 1 11\n");
    assert!(said.starts_with(r#"{"accepted":true,"number":0,"#) && status == 0, "{said}");
}
