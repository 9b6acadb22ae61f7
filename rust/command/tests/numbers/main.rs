//! Every number of the JSON is put into the limits that it is about, exactly.

mod clashes;
mod fraction;
#[path = "../json/mod.rs"]
mod json;
mod met;

use clashes::look_at_clash;
use json::Json;
use met::{look, look_at_times};
use problems::limits::Family;
use problems::published::published;
use problems::random::{seed, Random};
use problems::{times, worked};
use std::ffi::OsString;
use std::fs;
use text::limits::{self, Limits};
use text::times::{self as time_text, Times};
use text::Holds;

fn ran(words: &[&str], text: &str) -> Json {
    let words: Vec<OsString> = words.iter().map(OsString::from).collect();
    let ended = command::run(&words, &mut text.as_bytes());
    let output = String::from_utf8(ended.output).unwrap();
    json::read(&output).unwrap_or_else(|| panic!("{output}"))
}

/// Texts whose numbers are not whole.
const DECIMALS: [&str; 4] = [
    "names x y\n20 <= x <= 62.5\ny - x <= 1/3\ny > 40.25\n",
    "names x y\nx >= 0.5\ny = 1\n-0.5 x - y >= -1.1250\n",
    "names x y\nx > 0.5\ny >= 1/4\nx + y <= 0.75\nx <= 9\n",
    "names x y\nx < 2.5\n2.5 x - y / 3 > 1.2\ny >= 3.75\n",
];

#[test]
fn of_every_example() {
    let mut seen = [0; 3];
    for file in fs::read_dir(files::top().join("problems")).unwrap() {
        let path = file.unwrap().path();
        if path.extension().is_none_or(|end| end != "txt") || path.ends_with("i.txt") {
            continue;
        }
        let text = fs::read_to_string(&path).unwrap();
        match Holds::of(&text) {
            Some(Holds::Limits) => {
                let problem = limits::read(&text).unwrap();
                seen[0] += usize::from(look(&text, &problem).is_some());
                seen[2] += usize::from(look_at_clash(&text, &problem));
            }
            _ => seen[1] += usize::from(look_at_times(&text, &time_text::read(&text).unwrap())),
        }
    }
    for text in DECIMALS {
        let problem = limits::read(text).unwrap();
        let is_told = look(text, &problem).is_some() != look_at_clash(text, &problem);
        assert!(is_told, "{text}");
    }
    println!("{seen:?} can, times, and cannot");
    assert!(seen[0] >= 9 && seen[1] >= 2 && seen[2] >= 5, "{seen:?}");
    for case in worked::limits().into_iter().chain(published()) {
        let problem = Limits::from_words(&case.words).unwrap();
        let problem = limits::read(&problem.text()).unwrap_or(problem);
        look(&problem.text(), &problem);
        look_at_clash(&problem.text(), &problem);
    }
}

#[test]
fn of_random_problems() {
    let seed = seed();
    println!("SEED={seed}");
    let [mut small, mut met, mut clashes] = [0; 3];
    for number in 0..1_500 {
        let mut random = Random::of_problem(seed, number);
        let family = Family::ALL[random.below(Family::ALL.len())];
        let problem = Limits::from_words(&family.words(&mut random));
        let problem =
            problem.filter(|problem| problem.rows.iter().all(|row| row.iter().any(|&c| c != 0)));
        if let Some(problem) = problem {
            let text = problem.text();
            let problem = limits::read(&text).unwrap();
            small += usize::from(look(&text, &problem) == Some(true));
            clashes += usize::from(look_at_clash(&text, &problem));
        }
        let family = times::Family::ALL[random.below(times::Family::ALL.len())];
        if let Some(rows) = Times::from_words(&family.words(&mut random)) {
            met += usize::from(look_at_times(&rows.text(), &rows));
        }
    }
    let told = format!("{small} with small parts, {met} times, {clashes} clashes");
    println!("{told}");
    assert!(small > 30 && met > 30 && clashes > 100, "{told}, SEED={seed}");
}
