//! The program `lab` on texts, bent ones too, against what the reference prints.

use problems::limits::Family;
use problems::random::{seed, Random};
use problems::smtlib::Bent;
use std::collections::BTreeMap;
use std::io::{ErrorKind, Write};
use std::process::{Command, Stdio};

const INPUTS: u64 = 300;
/// The most bytes that it takes.
const MOST_BYTES: usize = 65_536;
const PROGRAM: &str = concat!(env!("CARGO_MANIFEST_DIR"), "/../../target/bin/lab");
const PAGE: &str = include_str!("../../../docs/formats/smtlib.md");
const EDITED: &[u8] = include_bytes!("../../../problems/lab.smt2");

/// What the program prints. It is code for x86-64.
fn printed(input: &[u8]) -> String {
    let mut command = if cfg!(target_arch = "x86_64") {
        Command::new(PROGRAM)
    } else {
        let mut command = Command::new("qemu-x86_64");
        command.args(["-L", "/usr/x86_64-linux-gnu", PROGRAM]);
        command
    };
    let mut child =
        command.stdin(Stdio::piped()).stdout(Stdio::piped()).spawn().unwrap_or_else(|error| {
            panic!("{command:?} does not start: {error}; tools/program lab")
        });
    let given = child.stdin.take().expect("it is piped").write_all(input);
    // It does not read on where there are more bytes than it takes.
    assert!(given.is_ok() || given.is_err_and(|error| error.kind() == ErrorKind::BrokenPipe));
    let ended = child.wait_with_output().expect("it ends");
    assert!(ended.status.success(), "{}; tools/program lab", ended.status);
    String::from_utf8(ended.stdout).expect("it has plain letters")
}

/// What it prints, which the reference does too.
fn same(input: &[u8], what: &str) -> String {
    let wanted = String::from_utf8(reference::lab(input)).expect("it has plain letters");
    assert_eq!(printed(input), wanted, "{what}: {:?}", String::from_utf8_lossy(input));
    wanted
}

fn written(words: &[i32]) -> Vec<u8> {
    let mut text = vec![0; 7_000];
    let (_, count) = reference::smtlib_write(words, &mut text);
    text[..count].to_vec()
}

#[test]
fn bent_texts() {
    let seed = seed();
    println!("SEED={seed}");
    let mut first_words: BTreeMap<String, u64> = BTreeMap::new();
    for input in 0..INPUTS {
        let mut random = Random::of_problem(seed, input);
        let words = random.pick(&Family::ACCEPTED).words(&mut random);
        let bent = random.pick(&[Bent::ALL.as_slice(), &[Bent::Gaps; 9]].concat());
        let text = bent.text(&mut random, &written(&words));
        let said = same(&text, &format!("SEED={seed}, input {input}, {bent:?}"));
        let word = said.split_whitespace().next().expect("something is always printed");
        *first_words.entry(word.to_string()).or_default() += 1;
    }
    println!("{first_words:?}");
    for word in ["can", "cannot", "refused"] {
        assert!(first_words.get(word) > Some(&9), "{word}, SEED={seed}");
    }
}

#[test]
fn the_edited_text_and_the_places_of_the_page() {
    assert_eq!(same(EDITED, "edited"), "can\npivots 1\nover 1\n0 3 1\n1 0\n2 3 1\n");
    assert!(PAGE.contains("`refused at 11`"));
    assert_eq!(same(b"(set-logic QF_LIA)", "another logic"), "refused at 11\n");
}

#[test]
fn counts_at_the_edges() {
    for count in [0, 1, MOST_BYTES - 1, MOST_BYTES, MOST_BYTES + 1, MOST_BYTES + 2, 2 * MOST_BYTES]
    {
        let mut text = EDITED.to_vec();
        text.resize(count, b' ');
        let said = same(&text, &format!("{count} bytes"));
        assert!(count <= MOST_BYTES || said == "refused at 65536\n", "{said}");
    }
}
