//! What `--json` prints is as docs/formats/json.md lists it: more fields pass, a
//! field that is missing or has another type does not.

use super::json::{read, Json};
use super::{bytes, ran};
use problems::bundles;
use std::collections::{BTreeMap, BTreeSet};
use std::fs;
use std::path::Path;

/// Each kind of object, with its parts as they are written.
type Kinds<'a> = BTreeMap<&'a str, Vec<&'a str>>;

/// What of the list an output showed: a kind, a part of it, and which of the types
/// that the part may have.
type Shown<'a> = BTreeSet<(&'a str, &'a str, &'a str)>;

fn kinds(page: &str) -> Kinds<'_> {
    let mut kinds = Kinds::new();
    let mut last = "";
    for line in page.lines().filter_map(|line| line.strip_prefix("    ")) {
        let (kind, parts) = line.split_once(" = ").unwrap_or((last, line));
        last = kind.trim_end();
        let parts = parts.trim().trim_end_matches(',').split(", ");
        kinds.entry(last).or_default().extend(parts);
    }
    kinds
}

/// What an object shows, where it is of the kind; else the first part that it is
/// not.
fn of_kind<'a>(kinds: &Kinds<'a>, kind: &'a str, value: &Json) -> Result<Shown<'a>, String> {
    let Json::Object(members) = value else { return Err(format!("no {kind}: {value:?}")) };
    let (kind, parts) = kinds.get_key_value(kind).ok_or(format!("there is no kind {kind}"))?;
    let mut all = Shown::new();
    for part in parts {
        let (field, types) = part.split_once(": ").unwrap_or(("", part));
        let member = members.iter().find(|(name, _)| name == field.trim_end_matches('?'));
        let found = match member {
            _ if field.is_empty() => value,
            Some((_, found)) => found,
            None if field.ends_with('?') => continue,
            None => return Err(format!("{kind} has no {field}")),
        };
        let mut faults = Vec::new();
        let fits = types.split(" | ").find_map(|one| match of_type(kinds, one, found) {
            Ok(shown) => Some((one, shown)),
            Err(fault) => {
                faults.push(fault);
                None
            }
        });
        let (one, shown) = fits.ok_or_else(|| format!("{kind}, {part}: {}", faults.join("; ")))?;
        all.insert((kind, part, one));
        all.extend(shown);
    }
    Ok(all)
}

fn of_type<'a>(kinds: &Kinds<'a>, one: &'a str, value: &Json) -> Result<Shown<'a>, String> {
    let fits = match (one, value) {
        ("text", Json::Text(_)) | ("number", Json::Number(_)) | ("null", Json::Null) => true,
        ("true", Json::True) | ("false", Json::False) => true,
        ("yes_or_no", Json::True | Json::False) => true,
        (_, Json::Text(text)) => one == format!("\"{text}\""),
        (_, Json::List(list)) if one.starts_with('[') => {
            let each = one.trim_matches(['[', ']']);
            let all = list.iter().map(|member| of_type(kinds, each, member));
            let all = all.collect::<Result<Vec<Shown>, String>>()?;
            return Ok(all.into_iter().flatten().collect());
        }
        (_, Json::Object(_)) => return of_kind(kinds, one, value),
        _ => false,
    };
    fits.then(Shown::new).ok_or_else(|| format!("no {one}: {value:?}"))
}

/// The list, and what of it was shown.
struct Held<'a> {
    kinds: Kinds<'a>,
    shown: Shown<'a>,
}

impl<'a> Held<'a> {
    /// What a command prints is of the kind that has its name, or it is refused or
    /// a fault.
    fn call(&mut self, command: &'a str, words: &[&str]) {
        let words = [&["--json", command], words].concat();
        let (output, _, status) = ran(&words, b"");
        let value = read(&output).unwrap_or_else(|| panic!("{words:?} prints {output}"));
        let has_verdict =
            matches!(&value, Json::Object(all) if all.iter().any(|one| one.0 == "verdict"));
        let kind = match status {
            0..=2 => command,
            3 if !has_verdict => command,
            3 => "refused",
            _ => "fault",
        };
        let shown = of_kind(&self.kinds, kind, &value);
        self.shown.extend(shown.unwrap_or_else(|fault| panic!("{words:?}: {fault}")));
    }

    /// The parts of the list, with their types, that nothing showed.
    fn missing(&self) -> Vec<(&'a str, &'a str, &'a str)> {
        let parts = self
            .kinds
            .iter()
            .flat_map(|(kind, parts)| parts.iter().map(move |part| (*kind, *part)));
        let all = parts.flat_map(|(kind, part)| {
            let types = part.split_once(": ").map_or(part, |(_, types)| types);
            types.split(" | ").map(move |one| (kind, part, one))
        });
        all.filter(|one| !self.shown.contains(one)).collect()
    }
}

/// A file with these bytes.
fn file(name: &str, content: &[u8]) -> String {
    let path = Path::new(env!("CARGO_TARGET_TMPDIR")).join(format!("stable-{name}"));
    fs::write(&path, content).unwrap();
    path.to_str().unwrap().to_string()
}

/// A file of the repository.
fn there(path: &str) -> String {
    files::top().join(path).to_str().unwrap().to_string()
}

/// The files of problems, and some that show what these do not: a clash beside what
/// is out of range, another behind a clash, and time rows that go round.
fn problem_files() -> Vec<String> {
    let listed = fs::read_dir(there("problems")).unwrap().map(|entry| entry.unwrap().path());
    let mut all: Vec<String> = listed.map(|path| path.to_str().unwrap().to_string()).collect();
    all.retain(|path| !path.ends_with(".md"));
    let far = fs::read_to_string(there("docs/formats/wide.txt")).unwrap();
    let beside = |lines: &str| far.replace("names x y z\n", lines).into_bytes();
    let rows = [2, 2, 0, 1, 0, -1, 1, 0, 0, 0];
    all.extend([
        file("far.txt", &beside("names x y z w\nw >= 1\nw <= 0\n")),
        file("far-clash.txt", &beside("names x y z\nx >= 1\n")),
        file("both.txt", b"names x y\nx >= 2\nx <= 1\ny >= 2\ny <= 1 # x <= 9\n"),
        file("round.txt", b"times a b\nearly: a - b < 0\nb - a <= 0 # a - b < 9\n"),
        file("held.txt", b"times a b\nearly: a - b < 0\n"),
        file("round.words", &bytes(&rows)),
        file("held.words", &bytes(&[&[2, 1], &rows[2..6]].concat())),
    ]);
    all
}

#[test]
fn fields_stay() {
    let page = fs::read_to_string(there("docs/formats/json.md")).unwrap();
    let mut held = Held { kinds: kinds(&page), shown: Shown::new() };
    for file in problem_files() {
        for options in [&[][..], &["--each", "--first"], &["--each", "--wide"]] {
            held.call("solve", &[options, &[&file]].concat());
        }
        for command in ["times", "trace", "day", "audit"] {
            held.call(command, &[&file]);
        }
    }
    let [a, f, starts] = ["a", "f", "starts"].map(|name| there(&format!("problems/{name}.txt")));
    for answer in ["wrong", "wrong-starts"].map(|name| there(&format!("docs/formats/{name}.txt"))) {
        held.call("check", &[&f, &answer]);
        held.call("check", &[&starts, &answer]);
    }
    held.call("check", &[&f, &file("right", ran(&["solve", &f], b"").0.as_bytes())]);
    for trace in
        [there("docs/formats/trace.txt"), file("own", ran(&["trace", &a], b"").0.as_bytes())]
    {
        held.call("replay", &[&a, &trace]);
    }
    for bodies in [bundles::ten_bodies(), vec![]] {
        let day = file("bodies.day", &bundles::file(1, &bodies));
        held.call("day", &[&day]);
        held.call("audit", &[&day]);
    }
    held.call("solve", &["no-such-folder/a"]);
    held.call("solve", &["--melt"]);
    assert_eq!(held.missing(), []);
}
