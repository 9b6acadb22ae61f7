//! Random texts with decimals and fractions: each answer is put into the numbers
//! that the text was made of, as fractions, and what is printed comes back.

mod json;

use json::Json;
use problems::random::{seed, Random};
use std::ffi::OsString;
use std::fs;
use std::path::PathBuf;

type Fraction = (i128, i128);

const TEXTS: u64 = 10_000;
const NAMES: [&str; 4] = ["a", "b", "c", "d"];

/// A line: coefficients of the names, a sign, and a number.
struct Line {
    coefficients: Vec<Fraction>,
    sign: &'static str,
    number: Fraction,
}

/// A number, whole, a decimal or a fraction, as a text has it.
fn number(random: &mut Random, size: i32) -> (String, Fraction) {
    let whole = random.within(-size, size);
    match random.below(4) {
        0 | 1 => (whole.to_string(), (whole.into(), 1)),
        2 => {
            let (digits, over) =
                random.pick(&[("5", 10), ("25", 100), ("2", 10), ("75", 100), ("10", 100)]);
            let part: i128 = digits.parse().unwrap();
            let above = i128::from(whole.abs()) * over + part;
            let sign = if whole < 0 { -1 } else { 1 };
            let text = format!("{}{}.{digits}", if whole < 0 { "-" } else { "" }, whole.abs());
            (text, (sign * above, over))
        }
        _ => {
            let over = random.within(2, 6);
            (format!("{whole}/{over}"), (whole.into(), over.into()))
        }
    }
}

fn lowest((above, below): Fraction) -> Fraction {
    let (mut common, mut rest) = (above.abs(), below);
    while rest != 0 {
        (common, rest) = (rest, common % rest);
    }
    (above / common, below / common)
}

fn plus(one: Fraction, other: Fraction) -> Fraction {
    lowest((one.0 * other.1 + other.0 * one.1, one.1 * other.1))
}

fn product(one: Fraction, other: Fraction) -> Fraction {
    lowest((one.0 * other.0, one.1 * other.1))
}

/// A text, and what its lines say by number.
fn made(random: &mut Random) -> (String, Vec<Option<Line>>) {
    let n = random.size(1, 4);
    let mut text = format!("names {}\nfree", NAMES[..n].join(" "));
    let mut lines = vec![None, None, None];
    let limited: Vec<bool> = (0..n).map(|_| random.percent(60)).collect();
    for (name, is_limited) in NAMES.iter().zip(&limited) {
        if !is_limited {
            text += &format!(" {name}");
        }
    }
    if limited.iter().all(|&is_limited| is_limited) {
        text.truncate(text.len() - 4);
        lines.pop();
    } else {
        text += "\n";
    }
    let mut say = |left: String, coefficients: Vec<Fraction>, random: &mut Random| {
        let (said, number) = number(random, 40);
        let sign = random.pick(&["<=", ">=", "<", ">", "="]);
        text += &format!("{left} {sign} {said}\n");
        lines.push(Some(Line { coefficients, sign, number }));
    };
    for name in (0..n).filter(|&name| limited[name]) {
        let alone = (0..n).map(|other| (i128::from(other == name), 1)).collect();
        say(NAMES[name].to_string(), alone, random);
    }
    for _ in 0..random.size(0, 4) {
        let mut left = "row ".to_string();
        let mut coefficients = vec![(0, 1); n];
        for name in 0..n {
            let (said, number) = number(random, 4);
            if number.0 == 0 || random.percent(25) {
                continue;
            }
            let start = if left.len() > 4 { " + " } else { "" };
            let said = format!("{start}{said}").replace("+ -", "- ");
            left += &format!("{said} {}", NAMES[name]);
            coefficients[name] = number;
        }
        if left.len() > 4 {
            say(left, coefficients, random);
        }
    }
    (text, lines)
}

fn fraction(json: &Json) -> Fraction {
    (json.at("numerator").number().into(), json.at("denominator").number().into())
}

fn ran(words: &[&str], input: &str) -> (String, u8) {
    let words: Vec<OsString> = words.iter().map(OsString::from).collect();
    let ended = command::run(&words, &mut input.as_bytes());
    (String::from_utf8(ended.output).unwrap(), ended.status)
}

/// Whether values, with their small parts, meet a line.
fn is_met(line: &Line, values: &[[Fraction; 2]]) -> bool {
    let sum = |part: usize| {
        let terms = line.coefficients.iter().zip(values);
        terms.fold((0, 1), |sum, (by, value)| plus(sum, product(*by, value[part])))
    };
    let far = plus(sum(0), (-line.number.0, line.number.1));
    let sign = if far.0 == 0 { sum(1).0.signum() } else { far.0.signum() };
    match line.sign {
        "<=" => sign <= 0,
        ">=" => sign >= 0,
        "<" => sign < 0,
        ">" => sign > 0,
        _ => sign == 0,
    }
}

/// Whether lines, as often as it is said, add up to a contradiction.
fn is_contradiction(limits: &[Json], lines: &[Option<Line>]) -> bool {
    let mut left = [(0, 1); 4];
    let (mut right, mut has_strict) = ((0, 1), false);
    for limit in limits {
        let line = lines[limit.at("line").number() as usize].as_ref().unwrap();
        // What is shown is the line with whole coefficients.
        let whole = line.coefficients.iter().fold(1, |all, by| {
            let below = lowest(*by).1;
            all / divisor(all, below) * below
        });
        let signed = if limit.at("side").text() == "lower" { 1 } else { -1 };
        let by = (signed * whole * i128::from(limit.at("times").number()), 1);
        for (sum, coefficient) in left.iter_mut().zip(&line.coefficients) {
            *sum = plus(*sum, product(by, *coefficient));
        }
        right = plus(right, product(by, line.number));
        has_strict |= ["<", ">"].contains(&line.sign);
    }
    left.iter().all(|sum| sum.0 == 0) && (right.0 > 0 || right.0 == 0 && has_strict)
}

fn divisor(a: i128, b: i128) -> i128 {
    if b == 0 {
        a
    } else {
        divisor(b, a % b)
    }
}

#[test]
fn answers_are_right_in_the_numbers_of_the_text() {
    let seed = seed();
    println!("SEED={seed}");
    let path = PathBuf::from(env!("CARGO_TARGET_TMPDIR")).join("decimals.txt");
    let mut statuses = [0; 7];
    for number in 0..TEXTS {
        let mut random = Random::of_problem(seed, number);
        let (text, lines) = made(&mut random);
        let (said, status) = ran(&["--json", "solve", "-"], &text);
        statuses[usize::from(status)] += 1;
        let json = json::read(&said).unwrap();
        match status {
            0 => {
                let values = json.at("values").list().iter();
                let values: Vec<[Fraction; 2]> =
                    values.map(|value| [fraction(value), fraction(value.at("small"))]).collect();
                for line in lines.iter().flatten() {
                    assert!(is_met(line, &values), "SEED={seed}: {text}\n{said}");
                }
            }
            1 => {
                let limits = json.at("limits").list();
                assert!(is_contradiction(limits, &lines), "SEED={seed}: {text}\n{said}");
            }
            _ => continue,
        }
        if number % 4 == 0 {
            fs::write(&path, &text).unwrap();
            let file = path.to_str().unwrap();
            for words in [&["solve", "-"][..], &["--words", "solve", "-"]] {
                let (answer, _) = ran(words, &text);
                let (judged, accepted) = ran(&["check", file, "-"], &answer);
                assert_eq!(accepted, 0, "SEED={seed}: {text}\n{answer}\n{judged}");
            }
        }
    }
    println!("{statuses:?}");
    assert!(statuses[0] > 2_000 && statuses[1] > 1_000 && statuses[6] == 0, "{statuses:?}");
}

#[test]
fn times_are_right_in_the_numbers_of_the_text() {
    let seed = seed();
    println!("SEED={seed}");
    let mut statuses = [0; 7];
    for problem in 0..TEXTS / 4 {
        let mut random = Random::of_problem(seed, problem);
        let mut text = "times a b c d\nfree a b c d\n".to_string();
        let mut rows = Vec::new();
        for _ in 0..random.size(1, 6) {
            let mut points = [0, 1, 2, 3];
            random.shuffle(&mut points);
            let [x, y, ..] = points;
            let (said, number) = number(&mut random, 30);
            let sign = random.pick(&["<=", ">=", "<", ">"]);
            text += &format!("row {} - {} {sign} {said}\n", NAMES[x], NAMES[y]);
            let mut coefficients = vec![(0, 1); 4];
            (coefficients[x], coefficients[y]) = ((1, 1), (-1, 1));
            rows.push(Line { coefficients, sign, number });
        }
        let (said, status) = ran(&["--json", "times", "-"], &text);
        statuses[usize::from(status)] += 1;
        let json = json::read(&said).unwrap();
        if status == 0 {
            let times = json.at("times").list().iter();
            let times: Vec<[Fraction; 2]> = times.map(|time| [fraction(time), (0, 1)]).collect();
            assert!(rows.iter().all(|row| is_met(row, &times)), "SEED={seed}: {text}\n{said}");
        } else if status == 1 {
            let mut left = [(0, 1); 4];
            let (mut right, mut has_strict) = ((0, 1), false);
            for row in json.at("rows").list() {
                let line = &rows[row.at("line").number() as usize - 3];
                has_strict |= ["<", ">"].contains(&line.sign);
                let by = (if line.sign.starts_with('<') { 1 } else { -1 }, 1);
                for (sum, coefficient) in left.iter_mut().zip(&line.coefficients) {
                    *sum = plus(*sum, product(by, *coefficient));
                }
                right = plus(right, product(by, line.number));
            }
            assert!(left.iter().all(|sum| sum.0 == 0), "SEED={seed}: {text}\n{said}");
            assert!(right.0 < 0 || right.0 == 0 && has_strict, "SEED={seed}: {text}\n{said}");
        }
    }
    println!("{statuses:?}");
    assert!(statuses[0] > 300 && statuses[1] > 300 && statuses[6] == 0, "{statuses:?}");
}
