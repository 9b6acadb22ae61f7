//! Texts with one slip each: none that is in a name, of a constant too, no unit, and
//! no sign of another key is answered with another meaning. Of other slips the share that is
//! answered is printed, and docs/formats/text.md tells it.

use problems::limits::Family;
use problems::random::{seed, Random};
use problems::times;
use std::collections::BTreeMap;
use std::ffi::OsString;
use std::fs;
use text::limits::{self, Limits};
use text::times::{self as time_text, Times};
use text::Holds;

/// How many texts.
const TEXTS: u64 = 6_000;
/// The seed of the table in the page.
const TOLD: u64 = 1;

/// Slips that are never answered with another meaning.
const TOLD_ALWAYS: [&str; 3] = ["a letter of a name", "a sign with another key", "a unit"];
/// Slips of which an answer names the line.
const NAMED_ALWAYS: [&str; 2] = ["a line behind #", "a line feed that is missing"];

/// What a slip comes to.
#[derive(Debug, Default, Clone, Copy, PartialEq, Eq)]
struct Count {
    fault: usize,
    same: usize,
    cannot: usize,
    can: usize,
}

const NAMES: [&str; 8] = ["zone1", "zone2", "zone3", "inlet", "outlet", "heater", "board", "fan_4"];
/// Names of constants.
const CONSTANTS: [&str; 4] = ["step", "least", "top_2", "margin"];
const UNITS: [&str; 12] =
    ["degC", "C", "K", "min", "minutes", "s", "kW", "\u{b0}C", "%", "deg", "mm", "Pa"];

/// Signs that are typed in the place of others.
const SIGNS: [&str; 14] = [
    ">-", "<-", ">+", "<+", "=>", "=<", "> =", "< =", "==", ">>", "=-", "=~", "\u{2264}",
    "\u{2265}",
];

/// A text of limits or of time rows, with comments in it.
fn text(random: &mut Random) -> String {
    let text = if random.percent(70) {
        let families = [Family::Tiny, Family::Oven, Family::Medium, Family::Strict];
        let family = random.pick(&families);
        let Some(mut problem) = Limits::from_words(&family.words(random)) else {
            return text(random);
        };
        problem.names = NAMES[..problem.names.len()].iter().map(|name| name.to_string()).collect();
        problem.text()
    } else {
        let Some(mut rows) = Times::from_words(&times::Family::Small.words(random)) else {
            return text(random);
        };
        let names = rows.names.iter().enumerate();
        rows.names = names
            .map(|(at, _)| NAMES.get(at).map_or(format!("start{at}"), |name| name.to_string()))
            .collect();
        rows.text()
    };
    let text = with_constants(random, &text);
    let text = if text.starts_with("times") { with_clock(random, &text) } else { text };
    let mut said = "# An oven.\n\n".to_string();
    for line in text.lines() {
        said += line;
        said += if random.percent(30) { "   # as agreed\n" } else { "\n" };
    }
    said
}

/// The same text with some of its numbers as constants.
fn with_constants(random: &mut Random, text: &str) -> String {
    let (mut said, mut defined) = (text.to_string(), String::new());
    let is_number = |place: &(usize, usize)| text[place.0..place.1].parse::<u32>().is_ok();
    let words = pieces(text, |c| c.is_ascii_alphanumeric() || c == '_');
    let mut names = CONSTANTS.iter();
    for place in words.into_iter().rev().filter(is_number) {
        if random.percent(80) {
            continue;
        }
        let Some(name) = names.next() else { break };
        said = with(&said, place, name);
        defined += &format!("let {name} = {}\n", &text[place.0..place.1]);
    }
    let is_opening = |line: &&str| line.starts_with("names ") || line.starts_with("times ");
    let opening: usize = said.lines().take_while(is_opening).map(|line| line.len() + 1).sum();
    with(&said, (opening, opening), &defined)
}

/// The same text with some of its numbers as clock times.
fn with_clock(random: &mut Random, text: &str) -> String {
    let mut said = text.to_string();
    let words = pieces(text, |c| c.is_ascii_alphanumeric() || c == '_');
    for &place in words.iter().rev() {
        let minutes = text[place.0..place.1].parse().ok().filter(|minutes| *minutes < 1_440);
        if let Some(minutes) = minutes.filter(|_: &u32| random.percent(30)) {
            said = with(&said, place, &format!("{:02}:{:02}", minutes / 60, minutes % 60));
        }
    }
    said
}

/// The words of a text that is read, and the names of its variables.
fn meaning(text: &str) -> Option<(Vec<i32>, Vec<String>)> {
    match Holds::of(text)? {
        Holds::Limits => limits::read(text).ok().map(|read| (read.words(), read.names)),
        Holds::Times => time_text::read(text).ok().map(|read| (read.words(), read.names)),
    }
}

fn status(text: &str) -> u8 {
    let action = if Holds::of(text) == Some(Holds::Times) { "times" } else { "solve" };
    command::run(&[action, "-"].map(OsString::from), &mut text.as_bytes()).status
}

/// The places of pieces of a text, comments left out.
fn pieces(text: &str, is_part: impl Fn(char) -> bool) -> Vec<(usize, usize)> {
    let mut found: Vec<(usize, usize)> = Vec::new();
    let mut is_comment = false;
    for (at, c) in text.char_indices() {
        is_comment = c == '#' || is_comment && c != '\n';
        if is_comment || !is_part(c) {
            continue;
        }
        match found.last_mut() {
            Some((_, end)) if *end == at => *end += c.len_utf8(),
            _ => found.push((at, at + c.len_utf8())),
        }
    }
    found
}

fn with(text: &str, (from, to): (usize, usize), put: &str) -> String {
    format!("{}{put}{}", &text[..from], &text[to..])
}

/// A slip, by its kind, and the text with it.
fn slip(random: &mut Random, text: &str) -> Option<(&'static str, String)> {
    let words = pieces(text, |c| c.is_ascii_alphanumeric() || c == '_');
    let is_name = |&(from, to): &(usize, usize)| {
        let word = &text[from..to];
        NAMES.contains(&word) || CONSTANTS.contains(&word) || word.starts_with("start")
    };
    let is_number =
        |&(from, to): &(usize, usize)| text[from..to].bytes().all(|c| c.is_ascii_digit());
    let names: Vec<(usize, usize)> = words.iter().copied().filter(is_name).collect();
    let numbers: Vec<(usize, usize)> = words.iter().copied().filter(is_number).collect();
    let mut at = text.split('\n').take(3).map(|line| line.len() + 1).sum::<usize>();
    let mut lines: Vec<(usize, usize)> = Vec::new();
    for line in text[at..].lines() {
        lines.push((at, at + line.len()));
        at += line.len() + 1;
    }
    if numbers.is_empty() || lines.is_empty() {
        return None;
    }
    let (name, number, line) = (random.pick(&names), random.pick(&numbers), random.pick(&lines));
    let at = |random: &mut Random, (from, to): (usize, usize)| from + random.below(to - from);
    let in_name = at(random, name);
    // A row without limits: nothing is lost without it.
    let is_bare = |at: usize| text[at..].starts_with("free row");
    let signs = pieces(text, |c| matches!(c, '<' | '>' | '='));
    Some(match random.below(14) {
        0 => {
            let letter = random.pick(&["a", "e", "o", "x", "7", "_", "Z"]);
            ("a letter of a name", with(text, (in_name, in_name + 1), letter))
        }
        1 => ("a letter of a name", with(text, (in_name, in_name + 1), "")),
        2 => {
            let letter = text[in_name..=in_name].to_ascii_uppercase();
            ("a letter of a name", with(text, (in_name, in_name + 1), &letter))
        }
        3 => ("a letter of a name", with(text, (in_name, in_name), &text[in_name..=in_name])),
        4 => {
            let other = random.pick(&names);
            ("one name for another", with(text, name, &text[other.0..other.1]))
        }
        5 => {
            let space = random.pick(&["", " ", "  ", " * "]);
            let unit = format!("{space}{}", random.pick(&UNITS));
            ("a unit", with(text, (number.1, number.1), &unit))
        }
        6 => {
            let digit = at(random, number);
            ("a digit that is missing", with(text, (digit, digit + 1), ""))
        }
        7 => {
            let signs = pieces(text, |c| matches!(c, '+' | '-' | '<' | '>' | '='));
            let sign = at(random, random.clone().pick(&signs));
            ("a sign that is missing", with(text, (sign, sign + 1), ""))
        }
        8 => ("a line that is missing", with(text, (line.0, line.1 + 1), "")),
        9 if is_bare(line.0) => return None,
        9 => ("a line behind #", with(text, (line.0, line.0), "# ")),
        // A line with `row` says the same as often as it comes.
        10 if is_bare(line.0) || text[line.0..].starts_with("row") => return None,
        10 => {
            let other = random.pick(&lines);
            ("a line again", with(text, (other.0, other.0), &text[line.0..=line.1]))
        }
        11 if signs.is_empty() => return None,
        11 => ("a sign with another key", with(text, random.pick(&signs), random.pick(&SIGNS))),
        12 if line.1 + 1 == text.len() || is_bare(line.1 + 1) => return None,
        12 => ("a line feed that is missing", with(text, (line.1, line.1 + 1), "")),
        _ => {
            let end = line.0 + random.below(line.1 - line.0 + 1);
            ("a text that is cut", text[..end].to_string())
        }
    })
}

/// Whether all words of a text with a slip are words of the text itself.
fn is_swapped(text: &str, slipped: &str) -> bool {
    let words = |text: &str| {
        let places = pieces(text, |c| c.is_ascii_alphanumeric() || c == '_');
        places.into_iter().map(|(from, to)| text[from..to].to_string()).collect::<Vec<String>>()
    };
    let known = words(text);
    words(slipped).iter().all(|word| known.contains(word))
}

fn counted(seed: u64) -> BTreeMap<&'static str, Count> {
    let mut counts: BTreeMap<&'static str, Count> = BTreeMap::new();
    for number in 0..TEXTS {
        let mut random = Random::of_problem(seed, number);
        let text = text(&mut random);
        let meant = meaning(&text).unwrap_or_else(|| panic!("it is a text, SEED={seed}: {text}"));
        let Some((mut kind, slipped)) = slip(&mut random, &text) else { continue };
        let (status, read) = (status(&slipped), meaning(&slipped));
        let is_other = read.as_ref().is_some_and(|read| *read != meant);
        // A digit, or a letter, that makes one declared name of another.
        if kind == "a letter of a name" && is_other && is_swapped(&text, &slipped) {
            kind = "one name for another";
        }
        let count = counts.entry(kind).or_default();
        match status {
            _ if read.as_ref() == Some(&meant) => count.same += 1,
            0 => count.can += 1,
            1 | 2 => count.cannot += 1,
            _ => count.fault += 1,
        }
        let is_answered = status == 0 && read.as_ref() != Some(&meant);
        assert!(!TOLD_ALWAYS.contains(&kind) || !is_answered, "SEED={seed}:\n{text}\n{slipped}");
        let is_named = !text::left_out(&slipped).is_empty();
        let is_hidden = is_answered && NAMED_ALWAYS.contains(&kind);
        assert!(!is_hidden || is_named, "SEED={seed}:\n{text}\n{slipped}");
    }
    counts
}

/// The rows of the table in the page: of a hundred texts with that slip, how many
/// are faults, mean the same, cannot be met, and can with another meaning.
fn rows(counts: &BTreeMap<&'static str, Count>) -> Vec<String> {
    let row = |(kind, count): (&&str, &Count)| {
        let Count { fault, same, cannot, can } = *count;
        let all = fault + same + cannot + can;
        let share = |count: usize| (200 * count + all) / (2 * all);
        let [fault, same, cannot, can] = [fault, same, cannot, can].map(share);
        format!("| {kind} | {fault} | {same} | {cannot} | {can} |")
    };
    counts.iter().map(row).collect()
}

#[test]
fn no_slip_in_a_name_and_no_unit_is_answered() {
    let seed = seed();
    println!("SEED={seed}");
    let counts = counted(seed);
    println!("{}", rows(&counts).join("\n"));
    for kind in TOLD_ALWAYS {
        let Count { fault, cannot, can, .. } = counts[kind];
        assert!(fault > 100 && [cannot, can] == [0; 2], "{kind}: {:?}", counts[kind]);
    }
}

#[test]
fn the_page_tells_the_shares() {
    let page = fs::read_to_string(files::top().join("docs/formats/text.md")).unwrap();
    let rows = rows(&counted(TOLD));
    for row in &rows {
        assert!(page.lines().any(|line| line == row), "text.md has to have\n{}", rows.join("\n"));
    }
}
