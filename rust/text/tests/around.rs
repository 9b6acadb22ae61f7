//! What texts mean, and that text to words and back comes round.

use problems::limits::Family;
use problems::random::{seed, Random};
use problems::{times, worked};
use text::limits::{self, Limits};
use text::times::{self as time_text, Times};
use text::Holds;

fn words(text: &str) -> Vec<i32> {
    limits::read(text).unwrap_or_else(|fault| panic!("{fault}: {text}")).words()
}

/// The words of lines under a line that declares these names.
fn said(names: &str, lines: &str) -> Vec<i32> {
    words(&format!("names {names}\n{lines}"))
}

#[test]
fn lines_and_their_words() {
    for (names, lines, expected) in [
        ("zone1", "zone1 >= 20", vec![1, 0, 1, 20, 0]),
        ("zone1", "20 <= zone1 <= 40", vec![1, 0, 3, 20, 40]),
        ("zone1", "40 >= zone1 >= 20", vec![1, 0, 3, 20, 40]),
        ("zone1", "20 >= zone1", vec![1, 0, 2, 0, 20]),
        ("zone1", "-zone1 <= -20", vec![1, 0, 1, 20, 0]),
        ("zone1", "+1 zone1 + 5 >= 25\r\n", vec![1, 0, 1, 20, 0]),
        ("x", "x >= 1\nx <= 3", vec![1, 0, 3, 1, 3]),
        ("x", "x >= 007", vec![1, 0, 1, 7, 0]),
        ("x", "\tx\t>=\u{a0}7\r", vec![1, 0, 1, 7, 0]),
        ("a b", "free b a\n3 a - 2 b <= 400", vec![2, 1, 3, -2, 0, 0, 0, 0, 0, 0, 2, 0, 400]),
        ("a b", "free b a\n3*a-2 * b<=400", vec![2, 1, 3, -2, 0, 0, 0, 0, 0, 0, 2, 0, 400]),
        ("a b", "free b a\nb = a + 45", vec![2, 1, -1, 1, 0, 0, 0, 0, 0, 0, 3, 45, 45]),
        ("x y", "free x\nfree y\n7 >= x + y", vec![2, 1, 1, 1, 0, 0, 0, 0, 0, 0, 2, 0, 7]),
        ("x y", "x - y <= 5\ny - x <= 4\nfree y x", vec![2, 1, 1, -1, 0, 0, 0, 0, 0, 0, 3, -4, 5]),
        (
            "x y",
            "x - y <= 5\n2 x - 2 y >= 4",
            vec![2, 2, 1, -1, 2, -2, 0, 0, 0, 0, 0, 0, 2, 0, 5, 1, 4, 0],
        ),
        ("x", "0 x >= 1", vec![1, 1, 0, 0, 0, 0, 1, 1, 0]),
        ("x", "x >= 93.5", vec![1, 0, 1, 187, 0]),
        ("x", "x >= 93.50\nx <= 94", vec![1, 0, 3, 187, 188]),
        ("x", "x <= 1/3", vec![1, 0, 2, 0, 1]),
        ("x", "0.5 x <= 10", vec![1, 0, 2, 0, 20]),
        ("x", "x / 2 <= 10", vec![1, 0, 2, 0, 20]),
        ("x", "-1/4 x <= 10.25", vec![1, 0, 1, -41, 0]),
        ("x y", "x = 1\ny = 2\nx - y <= 62.5", vec![2, 1, 2, -2, 3, 1, 1, 3, 2, 2, 2, 0, 125]),
        ("x y", "x = 0.5\ny = 2\nx - y <= 62.5", vec![2, 1, 1, -1, 3, 1, 1, 3, 4, 4, 2, 0, 125]),
        (
            "x y",
            "x >= 0.5\n0.25 x + y / 3 <= 1.5\ny >= 1",
            vec![2, 1, 3, 4, 1, 1, 0, 1, 2, 0, 2, 0, 36],
        ),
        (
            "x y",
            "x = 1\ny = 2\n0.5 x + y <= 3\nx + 2 y >= 1.5",
            vec![2, 1, 2, 4, 3, 1, 1, 3, 2, 2, 3, 3, 12],
        ),
        ("x", "free x", vec![1, 0, 0, 0, 0]),
        ("y x", "free y\nx = 3", vec![2, 0, 0, 0, 0, 3, 3, 3]),
        ("x", "row x <= 4\nx >= 1", vec![1, 1, 1, 1, 1, 0, 2, 0, 4]),
        ("x", "free row 2 x\n2 x <= 4", vec![1, 2, 2, 2, 0, 0, 0, 0, 0, 0, 2, 0, 4]),
        ("x", "5 <= x <= 1", vec![1, 0, 3, 5, 1]),
        ("solder", "solder < 217", vec![1, 0, 10, 0, 217]),
        ("solder", "217 > solder", vec![1, 0, 10, 0, 217]),
        ("x", "x > 0", vec![1, 0, 5, 0, 0]),
        ("x", "-x < 0", vec![1, 0, 5, 0, 0]),
        ("x", "0 < x <= 3", vec![1, 0, 7, 0, 3]),
        ("x", "3 > x >= 0", vec![1, 0, 11, 0, 3]),
        ("x", "0 < x < 3", vec![1, 0, 15, 0, 3]),
        ("x", "5 < x < 5", vec![1, 0, 15, 5, 5]),
        ("x", "5 < x <= 5", vec![1, 0, 7, 5, 5]),
        ("x", "x > 1\nx <= 3", vec![1, 0, 7, 1, 3]),
        ("x y", "x - y < 5\ny - x <= 4\nfree x y", vec![2, 1, 1, -1, 0, 0, 0, 0, 0, 0, 11, -4, 5]),
        ("x y", "x - y <= 5\ny < x + 4\nfree x y", vec![2, 1, 1, -1, 0, 0, 0, 0, 0, 0, 7, -4, 5]),
        ("x\nnames y # two\n", "x = 1\ny = 2", vec![2, 0, 3, 1, 1, 3, 2, 2]),
        ("x", "let low = 93.5\nx >= low", vec![1, 0, 1, 187, 0]),
        ("x", "let low = -1/3 # a third\nlow <= x <= -low", vec![1, 0, 3, -1, 1]),
        ("x", "let low = +20\nlet high = 40\nlow <= x < high", vec![1, 0, 11, 20, 40]),
        ("x", "let some = -7\nx + some >= 13", vec![1, 0, 1, 20, 0]),
        (
            "a b",
            "let times3 = 3\nlet two = 2\nfree b a\ntimes3 a - two*b <= 400",
            vec![2, 1, 3, -2, 0, 0, 0, 0, 0, 0, 2, 0, 400],
        ),
        ("x y", "x = 1\nlet s = 62.5\ny = 2\nrow x - y <= s", {
            vec![2, 1, 2, -2, 3, 1, 1, 3, 2, 2, 2, 0, 125]
        }),
    ] {
        assert_eq!(said(names, lines), expected, "{lines}");
    }
    assert_eq!(words("\u{feff}# x\n\n names x\nx >= 1"), vec![1, 0, 1, 1, 0]);
    for (names, lines, expected) in [
        ("start2 start1", "start2 - start1 <= 30", vec![2, 1, 0, 1, 0, 30]),
        ("start2 start1", "start2 <= start1 + 30", vec![2, 1, 0, 1, 0, 30]),
        ("a b", "a - b < 5\na - b > 2", vec![2, 2, 0, 1, 1, 5, 1, 0, 1, -2]),
        ("a b", "a - b = 5", vec![2, 2, 1, 0, 0, -5, 0, 1, 0, 5]),
        ("a b", "3 <= a - b < 5", vec![2, 2, 1, 0, 0, -3, 0, 1, 1, 5]),
        ("a b", "5 >= -a + b", vec![2, 1, 1, 0, 0, 5]),
        ("a b", "a - b <= 5\na - b <= 4", vec![2, 2, 0, 1, 0, 5, 0, 1, 0, 4]),
        ("a b", "a - b <= 5\nrow a - b <= 5", vec![2, 2, 0, 1, 0, 5, 0, 1, 0, 5]),
        ("x", "row x - x < 0", vec![1, 1, 0, 0, 1, 0]),
        ("a b", "a - b <= 2.5\nb - a <= 1/3", vec![2, 2, 0, 1, 0, 15, 1, 0, 0, 2]),
        ("a b c", "free c\nb - a <= 1", vec![3, 1, 1, 0, 0, 1]),
        ("a b", "06:30 <= a - b < 23:59", vec![2, 2, 1, 0, 0, -390, 0, 1, 1, 1439]),
        ("a b", "a - b = 00:30 + 0.5", vec![2, 2, 1, 0, 0, -61, 0, 1, 0, 61]),
        ("a b", "let open = 06:30\na - b >= open", vec![2, 1, 1, 0, 0, -390]),
        ("a b", "let gap = 2.5\na + gap <= b\nb <= a + 3", vec![2, 2, 0, 1, 0, -5, 1, 0, 0, 6]),
    ] {
        let text = format!("times {names}\n{lines}");
        assert_eq!(time_text::read(&text).unwrap().words(), expected, "{text}");
    }
}

#[test]
fn what_a_text_holds() {
    for (text, holds) in [
        ("names x", Some(Holds::Limits)),
        ("# times\n\n \u{9}times x # names", Some(Holds::Times)),
        ("\u{feff}names x", Some(Holds::Limits)),
        ("namesx", None),
        ("Names x", None),
        ("x >= 1\nnames x", None),
        ("", None),
    ] {
        assert_eq!(Holds::of(text), holds, "{text}");
    }
}

#[test]
fn every_kind_comes_round() {
    for kind in -1..=16 {
        let numbers = [kind & 1, (kind & 2) / 2].map(|is_there| 7 * is_there);
        let words = [1, 0, kind, numbers[0], numbers[1]];
        let shown = Limits::from_words(&words).map(|shown| shown.text());
        let expected = match kind {
            0 => Some("free x0"),
            1 => Some("x0 >= 7"),
            2 => Some("x0 <= 7"),
            3 => Some("x0 = 7"),
            5 => Some("x0 > 7"),
            7 => Some("7 < x0 <= 7"),
            10 => Some("x0 < 7"),
            11 => Some("7 <= x0 < 7"),
            15 => Some("7 < x0 < 7"),
            _ => None,
        };
        let expected = expected.map(|line| format!("names x0\n{line}\n"));
        assert_eq!(shown, expected, "{kind}");
        if let Some(text) = shown {
            assert_eq!(self::words(&text), words);
        }
    }
}

#[test]
fn every_limit_problem_comes_round() {
    let seed = seed();
    println!("SEED={seed}");
    let mut come = 0;
    for problem in 0..5_000 {
        let mut random = Random::of_problem(seed, problem);
        let family = Family::ALL[random.below(Family::ALL.len())];
        let given = family.words(&mut random);
        let Some(shown) = Limits::from_words(&given) else { continue };
        let text = shown.text();
        let read =
            limits::read(&text).unwrap_or_else(|fault| panic!("{fault}, SEED={seed}: {text}"));
        assert_eq!(read.words(), given, "SEED={seed}: {text}");
        assert_eq!(read.text(), text, "SEED={seed}");
        come += 1;
    }
    assert!(come > 2_500, "{come} came round");
    for case in worked::limits() {
        assert_eq!(words(&Limits::from_words(&case.words).unwrap().text()), case.words);
    }
}

#[test]
fn all_time_rows_come_round() {
    let seed = seed();
    println!("SEED={seed}");
    let mut come = 0;
    for problem in 0..1_000 {
        let mut random = Random::of_problem(seed, problem);
        let family = times::Family::ALL[random.below(times::Family::ALL.len())];
        let given = family.words(&mut random);
        let Some(shown) = Times::from_words(&given) else { continue };
        let text = shown.text();
        let read =
            time_text::read(&text).unwrap_or_else(|fault| panic!("{fault}, SEED={seed}: {text}"));
        assert_eq!(read.words(), given, "SEED={seed}: {text}");
        assert_eq!(read.text(), text, "SEED={seed}");
        come += 1;
    }
    assert!(come > 400, "{come} came round");
}

/// The text with some of its numbers as constants, each defined before its use.
fn with_constants(random: &mut Random, text: &str) -> String {
    let (mut said, mut count) = (String::new(), 0);
    for line in text.lines() {
        let (mut put, mut defined) = (Vec::new(), String::new());
        for word in line.split(' ') {
            // A minus that is glued to its number stays where it is, or goes along.
            let digits = word.trim_start_matches('-');
            let number = if random.percent(50) { word } else { digits };
            let is_number = number.trim_start_matches('-').parse::<f64>().is_ok();
            if !is_number || random.percent(30) {
                put.push(word.to_string());
                continue;
            }
            let name = format!("constant_{count}");
            defined += &format!("let {name} = {number}\n");
            put.push(format!("{}{name}", &word[..word.len() - number.len()]));
            count += 1;
        }
        said += &format!("{defined}{}\n", put.join(" "));
    }
    said
}

#[test]
fn constants_are_read_as_their_numbers() {
    let seed = seed();
    println!("SEED={seed}");
    let mut used = 0;
    for problem in 0..1_000 {
        let mut random = Random::of_problem(seed, problem);
        let family = Family::ALL[random.below(Family::ALL.len())];
        let Some(mut shown) = Limits::from_words(&family.words(&mut random)) else { continue };
        shown.parts = random.pick(&[1, 2, 4, 3, 7]);
        let text = shown.text();
        let Ok(meant) = limits::read(&text) else { continue };
        let constant = with_constants(&mut random, &text);
        used += constant.matches("let ").count();
        let read = limits::read(&constant)
            .unwrap_or_else(|fault| panic!("{fault}, SEED={seed}: {constant}"));
        assert_eq!(read.words(), meant.words(), "SEED={seed}: {constant}");
        assert_eq!(read.text(), meant.text(), "SEED={seed}: {constant}");
    }
    assert!(used > 2_000, "{used} constants were used");
}

#[test]
fn words_that_are_refused_are_no_text() {
    for words in [
        &[][..],
        &[0, 0],
        &[9, 0],
        &[1, 0],
        &[1, 0, 4, 0, 0],
        &[1, 0, 9, 0, 0],
        &[1, 0, 16, 0, 0],
        &[1, 0, 5, 0, 1],
        &[1, 0, 0, 1, 0],
        &[1, 0, 1, 30_001, 0],
        &[1, 1, 1_001, 0, 0, 0, 0, 0, 0],
        &[1, 0, 1, i32::MIN, 0],
    ] {
        assert_eq!(Limits::from_words(words), None, "{words:?}");
    }
    for words in
        [&[1][..], &[0, 0], &[1, 1, 0, 1, 0, 0], &[1, 1, 0, 0, 2, 0], &[1, 1, 0, 0, 0, i32::MIN]]
    {
        assert_eq!(Times::from_words(words), None, "{words:?}");
    }
}
