//! docs/formats/sheet.md shows the whole sheet of the day's file that is made.

use problems::bundles::{file, ten_bodies};
use std::fs;

#[test]
fn the_page_has_the_whole_sheet() {
    let page = fs::read_to_string(files::top().join("docs/formats/sheet.md")).unwrap();
    let sheet = String::from_utf8(reference::sheet_text(&file(1, &ten_bodies()))).unwrap();
    let block: String = sheet.lines().map(|line| format!("    {line}\n")).collect();
    assert!(page.contains(&format!("\n\n{block}\n")), "the page has no\n{block}");
    let count = sheet.lines().count();
    assert!(page.contains(&format!("these {count} lines")), "there are {count} lines");
}

#[test]
fn the_page_names_each_line() {
    let page = fs::read_to_string(files::top().join("docs/formats/sheet.md")).unwrap();
    let sheet = String::from_utf8(reference::sheet_text(&file(1, &[]))).unwrap();
    let told: Vec<&str> = page.lines().filter_map(|line| line.strip_prefix("| `")).collect();
    let mut place = 0;
    for line in sheet.lines() {
        let fits = |pattern: &str| {
            let pattern = pattern.split('`').next().unwrap();
            let (words, given): (Vec<&str>, Vec<&str>) =
                (pattern.split(' ').collect(), line.split(' ').collect());
            let is_name = |word: &str| word.chars().all(char::is_uppercase);
            words.len() == given.len()
                && words.iter().zip(&given).all(|(word, given)| is_name(word) || word == given)
        };
        while !fits(told[place]) {
            place += 1;
            assert!(place < told.len(), "the page tells nothing of {line}, in its order");
        }
    }
    assert_eq!(place, told.len() - 1);
}
