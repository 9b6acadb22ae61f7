//! Damaged texts.

use super::{json, ran};
use problems::random::{seed, Random};
use std::fs;

/// A text with something changed in it.
fn damaged(random: &mut Random, text: &str) -> Vec<u8> {
    const PIECES: [&str; 26] = [
        "<=",
        ">=",
        "=",
        "<",
        ">",
        "small",
        "-",
        "+",
        "*",
        "/",
        "#",
        "\n",
        "\r",
        " ",
        "free ",
        "row ",
        "x",
        "nan",
        "99999999999999999999",
        "0",
        "2.5",
        "\u{2264}",
        "can\n",
        "cannot\n",
        "1 times line 3\n",
        "\u{0}",
    ];
    let mut bytes = text.as_bytes().to_vec();
    for _ in 0..random.size(1, 6) {
        let at = random.below(bytes.len() + 1);
        match random.below(5) {
            0 => bytes.truncate(at),
            1 if at < bytes.len() => bytes[at] = random.below(256) as u8,
            2 if at < bytes.len() => drop(bytes.remove(at)),
            3 => {
                let end = at + random.below(bytes.len() + 1 - at);
                let piece = bytes[at..end].to_vec();
                bytes.splice(at..at, piece);
            }
            _ => drop(bytes.splice(at..at, PIECES[random.below(PIECES.len())].bytes())),
        }
    }
    bytes
}

#[test]
fn damaged_texts_never_panic() {
    let seed = seed();
    println!("SEED={seed}");
    let mut texts: Vec<String> = files::shown::all().iter().map(|shown| shown.text()).collect();
    let names = ["oven", "solder", "starts", "stamps"].map(|name| format!("problems/{name}.txt"));
    for name in names {
        texts.push(fs::read_to_string(files::top().join(name)).unwrap());
    }
    let mut statuses = [0; 7];
    let top = files::top();
    let top = top.to_str().unwrap();
    for problem in 0..20_000 {
        let mut random = Random::of_problem(seed, problem);
        let chosen = random.below(texts.len());
        let text = damaged(&mut random, &texts[chosen]);
        let json = if random.percent(20) { "--json" } else { "--" };
        let words: &[&str] = match random.below(5) {
            0 => &["times", json, "-"],
            1 => &["words", "-"],
            2 => &["words", "--times", "-"],
            3 => {
                let solved = ran(&["solve", &format!("{top}/problems/c.txt")], b"").0;
                let answer = damaged(&mut random, &solved);
                let status = ran(&["check", &format!("{top}/problems/c.txt"), "-"], &answer).2;
                statuses[status as usize] += 1;
                continue;
            }
            _ if random.percent(50) => &["solve", "--each", "--first", json, "-"],
            _ => &["solve", json, "-"],
        };
        let (output, errors, status) = ran(words, &text);
        assert!(!output.is_empty() || !errors.is_empty(), "SEED={seed}");
        if words.contains(&"--json") {
            assert!(json::is_one_line(&output), "SEED={seed}: {output}");
        }
        statuses[status as usize] += 1;
    }
    println!("{statuses:?}");
    assert!(statuses[0] > 1_000 && statuses[1] > 100 && statuses[4] > 1_000, "{statuses:?}");
    assert_eq!((statuses[5], statuses[6]), (0, 0), "SEED={seed}");
}
