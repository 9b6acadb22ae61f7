//! Every `$ scatterflock` line in the docs prints what stands below it, and
//! every text that is quoted from a file is the file's.

use std::fs;
use std::path::PathBuf;
use std::process::Command;

const PAGES: [&str; 4] =
    ["README.md", "docs/formats/smtlib.md", "docs/formats/text.md", "docs/formats/trace.md"];

fn top() -> PathBuf {
    PathBuf::from(env!("CARGO_MANIFEST_DIR")).join("../..")
}

/// The indented blocks of a page; empty lines inside belong to them.
fn blocks(page: &str) -> Vec<String> {
    let mut blocks = Vec::new();
    let mut block = String::new();
    for line in page.lines().chain(["end"]) {
        match line.strip_prefix("    ") {
            Some(said) => block += &format!("{said}\n"),
            None if line.is_empty() && !block.is_empty() => block += "\n",
            None if !block.is_empty() => blocks.push(std::mem::take(&mut block)),
            None => {}
        }
    }
    blocks
}

#[test]
fn commands_print_what_the_docs_say() {
    let mut count = 0;
    for name in PAGES {
        let page = fs::read_to_string(top().join(name)).unwrap();
        for block in blocks(&page) {
            let block = format!("\n{block}");
            for shown in block.split("\n$ scatterflock ").skip(1) {
                let (command, expected) = shown.split_once('\n').unwrap();
                if command.contains(" | ") {
                    // What other solvers say is not ours.
                    continue;
                }
                let words = command.split(' ').map(str::to_string).collect::<Vec<String>>();
                let ran = Command::new(env!("CARGO_BIN_EXE_scatterflock"))
                    .args(&words)
                    .current_dir(top())
                    .output()
                    .unwrap();
                let said = String::from_utf8([ran.stdout, ran.stderr].concat()).unwrap();
                assert_eq!(said.trim_end(), expected.trim_end(), "{name}: {command}");
                count += 1;
            }
        }
    }
    assert!(count >= 8, "{count} commands are shown");
}

#[test]
fn quoted_texts_are_the_files() {
    let page = fs::read_to_string(top().join("docs/formats/text.md")).unwrap();
    let readme = fs::read_to_string(top().join("README.md")).unwrap();
    let quotes = |page: &str, file: &str| {
        let text = fs::read_to_string(top().join(file)).unwrap();
        blocks(page).iter().any(|block| block.trim_end() == text.trim_end())
    };
    assert!(quotes(&page, "problems/oven.txt"));
    assert!(quotes(&page, "problems/solder.txt"));
    assert!(quotes(&page, "problems/steps.txt"));
    assert!(quotes(&page, "problems/starts.txt"));
    assert!(quotes(&page, "problems/stamps.txt"));
    assert!(quotes(&readme, "problems/oven.txt"));
    assert!(quotes(&readme, "problems/steps.txt"));
}

/// In the picture of README a character stands for 2.5 degrees.
#[test]
fn the_picture_of_the_clash_is_to_scale() {
    let readme = fs::read_to_string(top().join("README.md")).unwrap();
    let bar = |name: &str| {
        let line = readme.lines().find_map(|line| line.strip_prefix(name)).unwrap();
        let parts = line.trim_start().trim_start_matches('|').split_inclusive('|');
        parts.map(str::to_string).collect::<Vec<String>>()
    };
    let mut sizes = Vec::new();
    for name in ["    asked for", "    allowed"] {
        let mut size = 0;
        for part in bar(name) {
            let Some((_, number)) = part.trim_matches(['-', '|', ' ']).split_once(": ") else {
                let missing = part.split("  ").next().unwrap().len();
                assert_eq!(part.split("  ").nth(1), Some("5 too much"));
                size += 25 * missing;
                continue;
            };
            let tenths = (number.parse::<f64>().unwrap() * 10.0) as usize;
            assert_eq!(25 * part.len(), tenths, "{part}");
            size += tenths;
        }
        sizes.push(size);
    }
    assert_eq!(sizes, [1_600; 2]);
}
