//! Answers that are handed in.

use super::{bytes, json, ran};
use problems::published::published;
use problems::worked;
use std::fs;
use std::path::PathBuf;

/// What is wrong with an answer is told, and by how much.
#[test]
fn why_an_answer_is_not_accepted() {
    let path = PathBuf::from(env!("CARGO_TARGET_TMPDIR")).join("why.txt");
    fs::write(&path, "names x y\n0 <= x < 9\ny >= 2\nx + y <= 3\n2 x - y >= 1\n").unwrap();
    for (answer, told) in [
        ("can\nx = 2\ny = 2", "These values break\n#   line 4   x + y <= 3   by 1"),
        (
            "can\nx = 0 + 17179869177 small\ny = 2",
            "Too large for it are the numbers of\n#   x\n#   x + y\n#   2 x - y",
        ),
        ("1 0 0 1 2 3 1 0 0 0 0", "Its denominator is 0, and has to be from 1 to 2147483647."),
        (
            "1 0 2 2 4 7 0 0 0 0 1",
            "Sums are not what is said:\n#   x + y     is said to be 7/2, and comes to 3\n\
             #   2 x - y   is said to be 0 + 1/2 small, and comes to 0",
        ),
        ("3 0 0 0 0 0 0 0 0 0 0", "Its first word is 3: 1 is \"can\", 2 is \"cannot\"."),
        ("2 0 1 0 0 0 0 0 0 0 0", "Its third word is 1, and 0 in a \"cannot\"."),
        (
            "2 0 0 -1 0 2 0 0 1 0 0",
            "It cannot count\n#   -1 times line 2 lower   from 0 to 2147483647 times\n\
             #   1 times upper 1         there is no such limit\n\
             #   2 times lower 2         there is no such limit",
        ),
        (
            "cannot\n1 times line 3\n1 times line 4",
            "Added up they leave names over, so the sum is no contradiction:\n\
             #        y >= 2\n#   -x - y >= -3\n#   ------------\n#       -x >= -1",
        ),
        (
            "cannot\n1 times line 2 lower\n1 times line 2 upper",
            "Added up they are no contradiction:\n\
             #    x >= 0\n#   -x >  -9\n#   --------\n#    0 >  -9",
        ),
        ("cannot", "Added up they are no contradiction:\n#   ------\n#   0 >= 0"),
    ] {
        let words = ["check", path.to_str().unwrap(), "-"];
        let (said, _, status) = ran(&words, answer.as_bytes());
        let start = "not accepted\n\n# The proved checker does not take this for evidence.";
        assert_eq!((said, status), (format!("{start} {told}\n"), 1), "{answer}");
        let (said, _, _) = ran(&["--json", words[0], words[1], "-"], answer.as_bytes());
        let json = json::read(&said).unwrap();
        assert_eq!(json.at("accepted"), &json::Json::False);
        assert!(told.starts_with(json.at("reason").text()), "{said}");
    }
}

/// The words of an answer are those that the archive gives, and check takes them.
#[test]
fn answers_as_words() {
    for case in worked::limits().into_iter().chain(published()) {
        let path = PathBuf::from(env!("CARGO_TARGET_TMPDIR")).join("asked.words");
        fs::write(&path, bytes(&case.words)).unwrap();
        let file = path.to_str().unwrap();
        let (said, _, status) = ran(&["--words", "solve", file], b"");
        let words: Vec<String> = case.answer.iter().map(i64::to_string).collect();
        assert_eq!(
            (said.trim_end(), i64::from(status) + 1),
            (&words.join(" ")[..], case.answer[0])
        );
        let judged = ran(&["check", file, "-"], said.as_bytes()).2;
        assert_eq!(judged, i32::from(status == 2), "{}", case.name);
    }
    assert_eq!(ran(&["--words", "--json", "solve", "-"], b"").2, 4);
}

#[test]
fn what_solve_prints_check_accepts() {
    for case in worked::limits().into_iter().chain(published()) {
        let path = PathBuf::from(env!("CARGO_TARGET_TMPDIR")).join("problem.words");
        fs::write(&path, bytes(&case.words)).unwrap();
        let file = path.to_str().unwrap();
        let (answer, _, status) = ran(&["solve", file], b"");
        assert_eq!(i64::from(status) + 1, case.answer[0], "{}", case.name);
        if status == 2 {
            continue;
        }
        let (said, _, accepted) = ran(&["check", file, "-"], answer.as_bytes());
        assert_eq!(accepted, 0, "{}: {said}", case.name);
        let words: Vec<String> = case.answer.iter().map(i64::to_string).collect();
        assert_eq!(ran(&["check", file, "-"], words.join(" ").as_bytes()).2, 0);
        let short = &words[..words.len() - 1];
        assert_eq!(ran(&["check", file, "-"], short.join(" ").as_bytes()).2, 3);
        let json = ran(&["--json", "solve", file], b"");
        assert_eq!(json.2, status);
        assert!(json.0.contains("\"checked\":true") && json::is_one_line(&json.0), "{}", json.0);
    }
}
