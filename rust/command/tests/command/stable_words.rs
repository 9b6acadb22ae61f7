//! Commands, options and statuses are as docs/STABLE.md lists them: more pass, one
//! that is missing or means another does not.

use super::ran;
use command::{CONTRADICTED, UNHEARD};
use std::fs;

/// The rows of the page's table that begins with this cell, without backquotes.
fn rows(first: &str) -> Vec<Vec<String>> {
    let page = fs::read_to_string(files::top().join("docs/STABLE.md")).unwrap();
    let lines = page.lines().skip_while(|line| !line.starts_with(&format!("| {first} |")));
    let rows = lines.skip(2).take_while(|line| line.starts_with('|'));
    let cells = |line: &str| {
        let cells = line.split('|').map(|cell| cell.replace('`', "").trim().to_string());
        cells.collect::<Vec<String>>()
    };
    rows.map(|line| cells(line)[1..].to_vec()).collect()
}

/// A command takes options if nothing but its file is missing.
fn takes(command: &str, files: &str, options: &[&str]) {
    let files: Vec<&str> = files.split(' ').map(|_| "no-such-folder/a").collect();
    for words in [[options, &[command]].concat(), [&[command], options].concat()] {
        let (_, errors, status) = ran(&[&words[..], &files].concat(), b"");
        assert!(status == 5 && errors.contains("it cannot be read"), "{words:?}: {errors}");
    }
}

#[test]
fn options_stay() {
    let apart = rows("option");
    let is_apart = |one: &str, other: &str| {
        apart.iter().any(|row| row[0] == one && row[1].split(' ').any(|word| word == other))
    };
    let (mut commands, mut taken) = (0, 0);
    for row in rows("command") {
        let [command, files, options] = [0, 1, 2].map(|place| row[place].as_str());
        let options: Vec<&str> = options.split_whitespace().collect();
        takes(command, files, &[]);
        for (place, &one) in options.iter().enumerate() {
            takes(command, files, &[one]);
            for &other in &options[..place] {
                if !is_apart(one, other) && !is_apart(other, one) {
                    takes(command, files, &[one, other]);
                }
            }
        }
        commands += 1;
        taken += options.len();
    }
    assert_eq!((commands, taken), (12, 26));
    for words in ["--help", "-h", "help", "--version", "-V"] {
        assert_eq!(ran(&[words], b"").2, 0, "{words}");
    }
}

#[test]
fn statuses_stay() {
    let mut listed = Vec::new();
    for row in rows("status") {
        let (status, call) = (row[0].parse().unwrap(), &row[2]);
        listed.push(status);
        if call.is_empty() {
            continue;
        }
        let words: Vec<String> = call
            .split(' ')
            .map(|word| match word.contains('/') {
                true => files::top().join(word).to_str().unwrap().to_string(),
                false => word.to_string(),
            })
            .collect();
        let words: Vec<&str> = words.iter().map(String::as_str).collect();
        assert_eq!(ran(&words, b"").2, status, "{call}");
    }
    let last = [CONTRADICTED, UNHEARD].map(i32::from);
    assert_eq!(listed, [&[0, 1, 2, 3, 4, 5][..], &last].concat());
}
