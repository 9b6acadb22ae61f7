//! docs/formats/bundle.md shows the day's file that is made, with its pairs, its
//! bytes and its text.

use problems::bundles::{file, file_words, ten_bodies};
use std::fs;

/// Lines as an indented block of a page.
fn block(lines: impl Iterator<Item = String>) -> String {
    lines.map(|line| format!("    {line}\n")).collect()
}

fn joined(words: &[i32]) -> String {
    words.iter().map(i32::to_string).collect::<Vec<String>>().join(" ")
}

#[test]
fn the_page_has_the_whole_file() {
    let page = fs::read_to_string(files::top().join("docs/formats/bundle.md")).unwrap();
    let bodies = ten_bodies();
    let (bytes, words) = (file(1, &bodies), file_words(1, &bodies));
    let dump = bytes.chunks(32).enumerate().map(|(line, bytes)| {
        let bytes: Vec<String> = bytes.iter().map(|byte| format!("{byte:02x}")).collect();
        format!("{:04}  {}", 32 * line, bytes.join(" "))
    });
    let text = String::from_utf8(reference::day_text(&bytes)).unwrap();
    let text = text.lines().map(str::to_string);
    for block in [block(dump), block(text), block([joined(&words[..22])].into_iter())] {
        assert!(page.contains(&format!("\n\n{block}\n")), "the page has no\n{block}");
    }
    for (number, body) in bodies.iter().enumerate() {
        let (first, length) = (words[2 + 2 * number], words[3 + 2 * number]);
        let start = format!("| {number} | {first} | {length} | ");
        let end = match &body[..] {
            [] => "| |".to_string(),
            body => format!("| `{}` |", joined(body)),
        };
        let listed = page.lines().any(|line| line.starts_with(&start) && line.ends_with(&end));
        assert!(listed, "the page has no line {start} .. {end}");
    }
}

#[test]
fn the_page_says_what_is_refused() {
    let page = fs::read_to_string(files::top().join("docs/formats/bundle.md")).unwrap();
    let lines = page.lines().skip_while(|line| *line != "| words | number | because |").skip(2);
    let mut count = 0;
    for line in lines.take_while(|line| line.starts_with('|')) {
        let cells: Vec<&str> = line.split('|').map(str::trim).collect();
        for words in cells[1].split(", ").map(|words| words.trim_matches('`')) {
            let Ok(words) = words.split(' ').map(str::parse).collect::<Result<Vec<i32>, _>>()
            else {
                continue;
            };
            let bytes: Vec<u8> = words.iter().flat_map(|word| word.to_le_bytes()).collect();
            let found = reference::bundle_read(&bytes, &mut [0; 64], &mut [0; 64]).refused;
            assert_eq!(found, cells[2].parse().unwrap_or(0), "{line}");
            count += 1;
        }
    }
    assert_eq!(count, 17);
}
