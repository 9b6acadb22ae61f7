//! The example of docs/formats/wide.md.

use std::fs;
use std::path::PathBuf;

/// The numbers of each indented block of the page that has numbers alone.
fn blocks() -> Vec<Vec<i64>> {
    let path = PathBuf::from(env!("CARGO_MANIFEST_DIR")).join("../../docs/formats/wide.md");
    let page = fs::read_to_string(path).unwrap();
    let mut blocks: Vec<Vec<i64>> = vec![vec![]];
    for line in page.lines() {
        match line.strip_prefix("    ") {
            Some(said) => {
                let numbers = said.split(' ').map(|word| word.parse().unwrap());
                blocks.last_mut().unwrap().extend(numbers.collect::<Vec<i64>>());
            }
            None => blocks.push(vec![]),
        }
    }
    blocks.retain(|block| !block.is_empty());
    blocks
}

#[test]
fn the_example_is_what_is_found() {
    let [words, evidence] = &blocks()[..] else { panic!("a problem and its evidence") };
    let words: Vec<i32> = words.iter().map(|&word| word.try_into().unwrap()).collect();
    assert_eq!(finder::find(&words).as_ref(), Some(evidence));
    assert_eq!(reference::check_wide(&words, evidence), 8);
    let mut narrow = [0; 67];
    assert_eq!(reference::solve(&words, &mut narrow), 0);
    assert_eq!(narrow[..2], [3, 1]);
}
