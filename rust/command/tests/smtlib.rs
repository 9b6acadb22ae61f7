//! `scatterflock smtlib`: what it prints, where, and with which status; and SMT-LIB
//! texts, read wherever a problem is.

use problems::worked;
use std::ffi::OsString;

const CASE_A: &str = "problems/a.words";

/// Output, errors and status, with this on standard input.
fn ran(words: &[&str], input: &[u8]) -> (String, String, u8) {
    let words: Vec<OsString> = words.iter().map(OsString::from).collect();
    let ended = command::run(&words, &mut &input[..]);
    (String::from_utf8(ended.output).unwrap(), ended.errors, ended.status)
}

#[test]
fn a_problem_in_any_form_has_one_text() {
    let words = worked::case_a().words;
    let bare: Vec<String> = words.iter().map(i32::to_string).collect();
    let bytes: Vec<u8> = words.iter().flat_map(|word| word.to_le_bytes()).collect();
    let text = "names x y\nx + y >= 2\n2 x - y >= 0\n2 y - x >= 1\n";
    let mut expected = vec![0; 400];
    let (number, count) = reference::smtlib_write(&words, &mut expected);
    assert_eq!((number, count), (0, 330));
    let expected = String::from_utf8(expected[..count].to_vec()).unwrap();
    for input in [bare.join(" ").as_bytes(), &bytes, text.as_bytes()] {
        assert_eq!(ran(&["smtlib", "-"], input), (expected.clone(), String::new(), 0));
    }
    let file = files::top().join(CASE_A);
    assert_eq!(ran(&["smtlib", file.to_str().unwrap()], b"").0, expected);
}

#[test]
fn parts_are_told_beside_the_text() {
    let (said, errors, status) = ran(&["smtlib", "-"], b"names x\nx < 2.5\n");
    assert!(said.ends_with("(assert (< x0 5))\n(check-sat)\n"), "{said}");
    assert_eq!(errors, "scatterflock: the x of this text count parts of 1/2\n");
    assert_eq!(status, 0);
}

#[test]
fn what_is_refused_has_no_text() {
    let blank = ran(&["smtlib", "-"], b"names x\n0 x >= 1\n");
    assert!(blank.0.starts_with("refused 10\n") && blank.0.contains("line 2: "), "{blank:?}");
    assert_eq!(blank.2, 3);
    assert!(ran(&["smtlib", "-"], b"9 0").0.starts_with("refused 2\n"));
    assert_eq!(ran(&["smtlib", "-"], b"names x\nx >= y\n").2, 4);
    assert_eq!(ran(&["smtlib", "-"], b"times a b\na < b\n").2, 4);
    assert_eq!(ran(&["smtlib"], b"").2, 4);
    assert_eq!(ran(&["smtlib", "--json", "-"], b"1 0 0 0 0").2, 4);
    assert!(ran(&["smtlyb", "-"], b"").1.contains("is it smtlib?"));
}

const EDITED: &str = "problems/lab.smt2";
const FAULT: &str = "docs/formats/fault.smt2";

/// A file of the repository.
fn file(path: &str) -> String {
    files::top().join(path).to_str().unwrap().to_string()
}

/// A file with this in it, that is there until the test ends.
fn written(name: &str, content: &[u8]) -> String {
    let path = std::path::Path::new(env!("CARGO_TARGET_TMPDIR")).join(name);
    std::fs::write(&path, content).unwrap();
    path.to_str().unwrap().to_string()
}

#[test]
fn a_text_is_read_wherever_a_problem_is() {
    let edited = file(EDITED);
    let words = "2 1 1 1 5 0 0 10 0 3 5 3 0";
    assert_eq!(ran(&["words", &edited], b""), (format!("{words}\n"), String::new(), 0));
    let solved = ran(&["solve", &edited], b"");
    assert!(solved.0.starts_with("can\n") && solved.0.contains("x0 = 3 + small"), "{solved:?}");
    let of_words = ran(&["solve", "--words", "-"], words.as_bytes());
    assert_eq!(ran(&["solve", "--words", &edited], b""), of_words);
    assert_eq!(ran(&["check", &edited, "-"], of_words.0.as_bytes()).2, 0);
    assert_eq!(ran(&["check", &edited, "-"], solved.0.as_bytes()).2, 0);
    let traced = |(said, _, _): (String, String, u8)| said.split('#').next().map(str::to_string);
    let [of_file, of_words] = [(edited.as_str(), ""), ("-", words)]
        .map(|(file, input)| traced(ran(&["trace", file], input.as_bytes())));
    assert_eq!((of_file.as_deref(), of_words.as_deref()), (Some("2 0 1   "), Some("2 0 1   ")));
    assert_eq!(ran(&["smtlib", &edited], b""), ran(&["smtlib", "-"], words.as_bytes()));
    let packed = |input: &str| {
        let words = ["pack", "-", input].map(OsString::from);
        command::run(&words, &mut std::io::empty()).output
    };
    let words_of_file = written("lab.txt", words.as_bytes());
    assert_eq!(packed(&edited), packed(&words_of_file));
    let text = std::fs::read(&edited).unwrap();
    assert_eq!(ran(&["words", "-"], &text).0, format!("{words}\n"));
    let marked = [&b"\xef\xbb\xbf"[..], &text].concat();
    assert_eq!(ran(&["words", "-"], &marked).0, format!("{words}\n"));
    assert_eq!(ran(&["words", &written("marked.SMT2", &marked)], b"").0, format!("{words}\n"));
}

#[test]
fn limits_are_told_by_their_lines() {
    let text = "(set-logic QF_LRA)\n(declare-const x0 Real)\n; (< x0 0)\n(assert (>= x0\n 5))\n\
                (assert (<= x0 4))\n(check-sat)\n";
    let clash = ran(&["solve", "-"], text.as_bytes());
    assert_eq!(clash.2, 1);
    for line in ["1 times line 4   # x0 >= 5\n", "1 times line 6   # x0 <= 4\n"] {
        assert!(clash.0.contains(line), "{}", clash.0);
    }
    let name = written("clash.smt2", text.as_bytes());
    let edited = ran(&["edit", &name], b"off 6\n");
    assert!(edited.0.ends_with("can      x0 = 5\n"), "{}", edited.0);
    assert_eq!(ran(&["check", &name, "-"], clash.0.as_bytes()).2, 0);
    let page = ran(&["--page", "solve", &name], b"").0;
    assert!(page.contains("(assert (&gt;= x0") || page.contains("(assert (>= x0"), "{page}");
    // In one line they cannot be told apart so.
    let joined = ran(&["solve", "-"], text.replace("; (< x0 0)", "").replace('\n', " ").as_bytes());
    assert!(joined.0.contains("lower 0") && joined.0.contains("upper 0"), "{}", joined.0);
}

#[test]
fn a_text_that_is_refused_shows_its_token() {
    let (said, errors, status) = ran(&["solve", &file(FAULT)], b"");
    let shown =
        "03 cannot stand here: no text of a problem goes on with it\n  (assert (> x0 03))\n";
    assert!(errors.ends_with(&format!(":6:15: {shown}  {}^\n", " ".repeat(14))), "{errors}");
    assert_eq!((said.as_str(), status), ("", 4));
    let json = ran(&["--json", "solve", &file(FAULT)], b"").0;
    assert!(json.contains("\"line\":6") && json.contains("\"column\":15"), "{json}");
    let refused = |text: &[u8]| ran(&["words", &written("refused.smt2", text)], b"").1;
    let ends = refused(b"(set-logic QF_LRA)");
    assert!(ends.contains(":1:19: the text ends too early\n  (set-logic QF_LRA)\n"), "{ends}");
    assert!(refused(b"").contains(":1:1: the text ends too early\n"));
    let unknown = refused("; \u{e9}\u{e9}\n(set-logic \u{e9}; no\n".as_bytes());
    assert!(unknown.contains(":2:12: \u{e9} cannot stand here"), "{unknown}");
    assert!(refused(b"; \xff\xfe\xff (\xff\n(\x00a)").contains(":2:2: \u{fffd}a cannot"));
    let long = refused(&[b"(", &[b'a'; 200][..]].concat());
    assert!(long.contains(&format!(":1:2: {}.. cannot", "a".repeat(40))), "{long}");
    let wide: Vec<u8> = "(set-logic".bytes().flat_map(|byte| [byte, 0]).collect();
    assert!(refused(&wide).contains("UTF-16"));
    let times = ran(&["times", &file(EDITED)], b"");
    assert!(times.1.contains("scatterflock solve answers them") && times.2 == 4, "{times:?}");
}
