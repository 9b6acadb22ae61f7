//! The made files are those that the lists make, and each example says what
//! the program prints for it.

use files::vectors::{Entry, Vector};
use problems::sessions::{Operation, Reply};
use std::fs;

#[test]
fn the_files_are_the_made_ones() {
    for made in files::made() {
        let found = fs::read(made.place()).unwrap_or_default();
        assert!(found == made.bytes, "{} is stale: tools/vectors makes it again", made.path);
    }
}

#[test]
fn each_text_has_the_words() {
    for shown in files::shown::all() {
        let read = text::limits::read(&shown.text()).unwrap();
        assert_eq!((read.words(), read.names), (shown.words, shown.names), "{}", shown.name);
    }
}

#[test]
fn the_index_has_each_problem_and_its_answer() {
    let index = fs::read_to_string(files::top().join("problems/README.md")).unwrap();
    for shown in files::shown::all() {
        let bytes: Vec<u8> = shown.words.iter().flat_map(|word| word.to_le_bytes()).collect();
        let printed = String::from_utf8(reference::respond(&bytes)).unwrap();
        let (start, end) = (
            format!("| [{0}]({0}.md) |", shown.name),
            format!("| {} |", printed.lines().next().unwrap()),
        );
        let listed = index.lines().any(|line| line.starts_with(&start) && line.ends_with(&end));
        assert!(listed, "problems/README.md has no line {start} .. {end}");
    }
}

#[test]
fn each_example_says_what_is_printed() {
    for shown in files::shown::all() {
        let bytes: Vec<u8> = shown.words.iter().flat_map(|word| word.to_le_bytes()).collect();
        let printed = String::from_utf8(reference::respond(&bytes)).unwrap();
        let block: String = printed.lines().map(|line| format!("    {line}\n")).collect();
        let page = files::top().join(format!("problems/{}.md", shown.name));
        let text = fs::read_to_string(&page).unwrap_or_default();
        assert!(text.ends_with(&block), "problems/{}.md has to end in\n{block}", shown.name);
    }
}

/// A session's page has a line for each call, in order: what is called, the
/// number, and of a check the answer.
#[test]
fn the_page_of_sessions_has_the_worked_ones() {
    let page = fs::read_to_string(files::top().join("docs/formats/session.md")).unwrap();
    let mut lines = page.lines();
    for case in problems::sessions::worked() {
        for (operation, reply) in case.script {
            let call = match operation {
                Operation::Check => "check".to_string(),
                Operation::Switch { variable, upper, on } => {
                    let side = if upper { "upper" } else { "lower" };
                    format!("{variable} {side} {}", if on { "on" } else { "off" })
                }
            };
            let (number, end) = match reply {
                Reply::Number(number) => (number, "| |".to_string()),
                Reply::Answer(words) => {
                    let words: Vec<String> = words.iter().map(i64::to_string).collect();
                    (0, format!("| `{}` |", words.join(" ")))
                }
            };
            let start = format!("| {call} | {number} |");
            assert!(
                lines.any(|line| line.contains(&start) && line.ends_with(&end)),
                "{}: no line {start} .. {end}",
                case.name
            );
        }
    }
}

#[test]
fn every_refusal_and_verdict_is_asked_for() {
    let vectors = files::vectors::all();
    let text = files::vectors::answered(&vectors);
    for number in (0..=17).chain(41..=44) {
        let asked = text.lines().filter(|line| line.starts_with(&format!("{number}:"))).count();
        assert!(asked >= 2, "{number} comes {asked} times");
    }
    let lines = |vector: &Vector| match vector.entry {
        Entry::Slices | Entry::Session(_) => vector.answer().lines().count(),
        _ => 1,
    };
    assert_eq!(text.lines().count(), vectors.iter().map(lines).sum::<usize>());
}
