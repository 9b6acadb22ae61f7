//! Answers to time rows that are handed in.

use super::{json, ran};
use problems::random::{seed, Random};
use problems::times::Family;
use problems::worked;
use std::fs;
use std::path::PathBuf;

/// The name of a file with this in it, one for each test.
fn written(of: &str, text: &str) -> String {
    let path = PathBuf::from(env!("CARGO_TARGET_TMPDIR")).join(format!("times-{of}.txt"));
    fs::write(&path, text).unwrap();
    path.to_str().unwrap().to_string()
}

fn joined<T: ToString>(words: &[T]) -> String {
    words.iter().map(T::to_string).collect::<Vec<String>>().join(" ")
}

/// What `times` prints of words, and of their text, is accepted, and so are its
/// words; with a word less they are refused.
#[test]
fn what_times_prints_check_accepts() {
    let seed = seed();
    println!("SEED={seed}");
    let mut cases: Vec<Vec<i32>> = worked::times().into_iter().map(|case| case.words).collect();
    for family in Family::ACCEPTED {
        for problem in 0..6 {
            cases.push(family.words(&mut Random::of_problem(seed, problem)));
        }
    }
    let mut verdicts = [0, 0];
    for words in cases {
        let bare = written("bare", &joined(&words));
        let named = written("named", &ran(&["words", "--times", &bare], b"").0);
        for ask in [vec!["check", "--times", &bare, "-"], vec!["check", &named, "-"]] {
            let (said, _, status) = ran(&["times", ask[ask.len() - 2]], b"");
            verdicts[status as usize] += 1;
            let (told, _, judged) = ran(&ask, said.as_bytes());
            assert!(judged == 0 && told.starts_with("accepted\n"), "{words:?}: {said}{told}");
            let (said, _, again) = ran(&["--words", "times", ask[ask.len() - 2]], b"");
            assert_eq!((again, ran(&ask, said.as_bytes()).2), (status, 0), "{said}");
            let short = said.trim_end().rsplit_once(' ').unwrap().0;
            let (told, _, judged) = ran(&ask, short.as_bytes());
            assert!(judged == 3 && told.starts_with("refused 17\n"), "{short}: {told}");
        }
    }
    assert!(verdicts.iter().all(|&count| count > 20), "{verdicts:?}");
}

/// A row of a text with parts of a minute: x - y < c, or at most c.
struct Row {
    x: usize,
    y: usize,
    is_strict: bool,
    c: (i64, i64),
}

/// Any fractions are judged as the numbers say it, though the checker takes whole
/// words.
#[test]
fn fractions_are_judged_exactly() {
    let seed = seed();
    println!("SEED={seed}");
    let mut found = [0, 0];
    for problem in 0..2_000 {
        let mut random = Random::of_problem(seed, problem);
        let over = random.pick(&[1, 2, 4, 6]);
        let rows: Vec<Row> = (0..random.size(1, 5))
            .map(|_| {
                let x = random.below(3);
                let c = (i64::from(random.within(-2, 12)), over);
                Row { x, y: (x + random.size(1, 2)) % 3, is_strict: random.percent(50), c }
            })
            .collect();
        let times: Vec<(i64, i64)> = (0..3)
            .map(|_| (i64::from(random.within(-8, 8)), random.pick(&[1, 2, 3, 4, 12])))
            .collect();
        let mut text = "times t0 t1 t2\nfree t0 t1 t2\n".to_string();
        for Row { x, y, is_strict, c: (above, below) } in &rows {
            let sign = if *is_strict { "<" } else { "<=" };
            text += &format!("row t{x} - t{y} {sign} {above}/{below}\n");
        }
        let listed = times.iter().enumerate();
        let answer = listed.fold("can\n".to_string(), |said, (name, (above, below))| {
            said + &format!("t{name} = {above}/{below}\n")
        });
        let is_met = rows.iter().all(|row| {
            let twelfths = |(above, below): (i64, i64)| above * 12 / below;
            let apart = twelfths(times[row.x]) - twelfths(times[row.y]);
            apart < twelfths(row.c) + i64::from(!row.is_strict)
        });
        let (said, errors, status) =
            ran(&["check", &written("fractions", &text), "-"], answer.as_bytes());
        assert_eq!(status, i32::from(!is_met), "{text}{answer}{said}{errors}");
        found[usize::from(is_met)] += 1;
    }
    assert!(found.iter().all(|&count| count > 200), "{found:?}");
}

const ROWS: &str = "times a b c\na + 30 <= b\n5 <= c - b < 10\nshift: c - a <= 34.5\n";

/// What is wrong with an answer is told, and by how much.
#[test]
fn why_times_are_not_accepted() {
    let file = written("why", ROWS);
    for (answer, told) in [
        (
            "can\na = 0\nb = 29.5\nc = 39.5",
            "These times break\n#   line 2   a - b <= -30    by 1/2 of a minute\n\
             #   line 3   c - b < 10      met exactly, and it is strict\n\
             #   shift    c - a <= 34.5   by 5 minutes",
        ),
        (
            "can\na = 06:30\nb = 07:00\nc = 425",
            "These times break\n#   shift   c - a <= 34.5   by 1/2 of a minute",
        ),
        (
            "can\na = 1/3\nb = 31\nc = 36",
            "These times break\n#   shift   c - a <= 34.5   by 7/6 of a minute",
        ),
        ("1 3 0 59 69 0 0 1", "These times break\n#   line 2   a - b <= -30    by 1/2 of a minute"),
        ("1 3 0 60 80 0 0 1", "These times break\n#   line 3   c - b < 10      by a small amount"),
        (
            "1 3 0 60 81 0 0 1",
            "These times break\n#   line 3   c - b < 10      by 1/2 + 1/2 small minutes",
        ),
        ("1 2 0 60 70 0 0 0", "Its second word is 2, and there are 3 times."),
        ("3 3 0 0 0 0 0 0", "Its first word is 3: 1 is \"can\", 2 is \"cannot\"."),
        ("cannot", "It has 0 rows, and has to have from 1 to 3."),
        ("2 4 0 1 2 3 0 0", "It has 4 rows, and has to have from 1 to 3."),
        ("2 1 4 0 0 0 0 0", "There is no row 4."),
        ("2 1 -1 0 0 0 0 0", "There is no row -1."),
        ("2 2 1 2 0 0 0 7", "Behind its rows a word is not 0."),
        (
            "cannot\nline 2\nline 3 lower",
            "Its rows do not lead round:\n\
             #   line 3 lower   c - b >= 5   leads to c, and the next from a",
        ),
        (
            "cannot\nline 3 lower\nline 3 upper",
            "Added up they are no contradiction:\n\
             #   b - c <= -5\n#   c - b <  10\n#   -----------\n#       0 <  5",
        ),
    ] {
        let words = ["check", &file, "-"];
        let (said, errors, status) = ran(&words, answer.as_bytes());
        let start = "not accepted\n\n# The proved checker of time rows does not take this for \
                     evidence.";
        assert_eq!((errors.as_str(), status), ("", 1), "{answer}: {said}");
        assert!(said.starts_with(&format!("{start} {told}\n")), "{answer}: {said}");
        let (said, _, status) = ran(&["--json", "check", &file, "-"], answer.as_bytes());
        let json = json::read(&said).unwrap();
        assert_eq!((json.at("accepted"), status), (&json::Json::False, 1));
        assert!(told.starts_with(json.at("reason").text()), "{said}");
    }
    let twice = written("twice", "times a b\na - b <= 5\nb - a <= 5\n");
    let (said, _, _) = ran(&["check", &twice, "-"], b"2 2 0 0 0 0");
    assert!(said.contains(" lead round:\n#   line 2   a - b <= 5   leads to b, and"), "{said}");
    let alone = written("alone", "times a b\nrow a - a <= -1\na - b <= 5\n");
    let (said, _, _) = ran(&["check", &alone, "-"], b"2 2 0 0 0 0");
    assert!(said.contains(" Two of its rows lead from a.\n"), "{said}");
}

/// Times that nobody has worked out as `times` does, and rows by their lines.
#[test]
fn times_of_anybody() {
    let file = written("later", &ROWS.replace("34.5", "35"));
    for answer in
        ["can\nb = 30\nc = 35\na = 0", "can\na = 06:30\nb = 07:00\nc = 07:05", "1 3 -9 21 26 0 0 0"]
    {
        let (said, errors, status) = ran(&["check", &file, "-"], answer.as_bytes());
        let shown = "# The proved checker of time rows says that these times meet all rows.";
        assert!(status == 0 && said.contains(shown), "{answer}: {said}{errors}");
        let (said, ..) = ran(&["--json", "check", &file, "-"], answer.as_bytes());
        assert_eq!(said, "{\"accepted\":true}\n");
    }
    let file = written("clash", ROWS);
    let (said, _, status) = ran(&["times", &file], b"");
    assert!(status == 1 && said.contains("\nline 3 lower   # c - b >= 5\n"), "{said}");
    let (said, _, status) = ran(&["check", &file, "-"], b"cannot\nshift\nrow 0\nline 3 lower\n");
    let shown = "# The proved checker of time rows says that these rows cannot be met together.";
    assert!(status == 0 && said.contains(shown), "{said}");
}

#[test]
fn faults_of_answers_to_time_rows() {
    let file = written("faults", ROWS);
    for (answer, place) in [
        ("", "1:1: there is no answer in this text"),
        ("a = 3\n", "1:1: an answer begins with a line can or cannot"),
        ("can\na = 0\nb = 30\n", "3:7: c has no time"),
        ("can\na = 0\na = 1\n", "3:1: a has a time already"),
        ("can\nd = 0\n", "2:1: d is no name of the rows"),
        ("can\na = 0 + small\n", "2:5: here stands a name, =, and its time"),
        ("can\na =\n", "2:4: here stands a name, =, and its time"),
        ("can\n3 = a\n", "2:1: here stands a name, =, and its time"),
        ("can\na\n", "2:1: here stands a name, =, and its time"),
        ("can\na = 1/2000000011\nb = 1/2000000033\n", "3:1: over one denominator"),
        ("can\na = 9000000000000000000\nb = 0\nc = 0\n", "4:6: a time is too large"),
        ("cannot\nline 3\n", "2:1: line 3 of the rows makes two: say lower or upper"),
        ("cannot\nline 2 lower\n", "2:1: line 2 of the rows makes no such row"),
        ("cannot\nline 9\n", "2:1: line 9 of the rows makes no such row"),
        ("cannot\nrow 4\n", "2:1: there is no such row"),
        ("cannot\n2 times line 2\n", "2:1: here stands a row"),
        ("cannot\nline 2 uper\n", "2:1: here stands a row"),
        ("cannot\nshfit\n", "2:1: here stands a row"),
        ("1 3 0 0.5 1 0 0 0\n", "1:7: 0.5 is not a whole number"),
    ] {
        let (said, errors, status) = ran(&["check", &file, "-"], answer.as_bytes());
        assert_eq!((said.as_str(), status), ("", 4), "{answer}");
        assert!(errors.starts_with(&format!("standard input:{place}")), "{answer}: {errors}");
    }
    let (_, errors, status) = ran(&["check", "--wide", &file, "-"], b"can\n");
    assert!(status == 4 && errors.contains("--wide is about limits"), "{errors}");
    let (said, _, status) = ran(&["check", "--times", "-", &file], b"65 0");
    assert!(status == 3 && said.starts_with("refused 12\n"), "{said}");
}
