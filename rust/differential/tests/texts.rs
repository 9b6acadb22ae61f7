//! SMT-LIB texts that the archive reads back: those of the page, those of worked
//! problems with each byte, token, number and end changed, and random ones.

use differential::archive::{self, LINKED};
use differential::{report, texts};
use problems::draft::{at_least, between, Draft, FREE};
use problems::published::published;
use problems::random::seed;
use problems::smtlib::{tokens, BYTES, NUMBERS};
use problems::worked;
use scatterflock::sizes::{
    LARGEST_COEFFICIENT, LARGEST_LIMIT, MOST_ROWS, MOST_SMTLIB, MOST_VARIABLES, MOST_WORDS,
};

const PROBLEMS: u64 = if LINKED { 20_000 } else { 10_000 };
const PAGE: &str = include_str!("../../../docs/formats/smtlib.md");
const EDITED: &str = include_str!("../../../problems/lab.smt2");
/// The words of the page's second text, and of the one that was edited by hand.
const STRICT: [i32; 13] = [2, 1, 1, 1, 5, 0, 0, 10, 0, 3, 5, 3, 0];

fn written(words: &[i32]) -> Vec<u8> {
    let mut text = vec![0; MOST_SMTLIB];
    let written = archive::smtlib_write(words, &mut text);
    assert_eq!(written.refused, 0, "{words:?}");
    text[..written.count].to_vec()
}

/// The words of a text, or the place where it is refused, which both say.
fn read(text: &[u8]) -> Result<Vec<i32>, usize> {
    let told = texts::compare_room(text, MOST_WORDS + 1);
    let (number, count) =
        told.unwrap_or_else(|what| panic!("{what}: {:?}", String::from_utf8_lossy(text)));
    let mut words = vec![0; MOST_WORDS];
    match number {
        0 => {
            assert_eq!(archive::smtlib_read(text, &mut words).refused, 0);
            words.truncate(count);
            Ok(words)
        }
        _ => Err(count),
    }
}

fn longest() -> Vec<i32> {
    let row = [-LARGEST_COEFFICIENT; MOST_VARIABLES];
    let limits = [between(-LARGEST_LIMIT, -LARGEST_LIMIT); MOST_VARIABLES + MOST_ROWS];
    Draft::new(MOST_VARIABLES, &[&row[..]; MOST_ROWS], &limits).words()
}

#[test]
fn the_text_that_was_edited_by_hand() {
    assert_eq!(read(EDITED.as_bytes()), Ok(STRICT.to_vec()));
    let block: String = EDITED.lines().map(|line| format!("    {line}\n")).collect();
    assert!(PAGE.contains(&block.replace("    \n", "\n")), "the page has no\n{block}");
}

#[test]
fn the_page_says_what_is_refused_and_where() {
    let start = "(set-logic QF_LRA) (declare-const x0 Real)";
    assert!(PAGE.contains(&format!("`..` stands for `{start}`, which has {} bytes", start.len())));
    let lines = PAGE.lines().skip_while(|line| *line != "| text | place | because |").skip(2);
    let mut count = 0;
    for line in lines.take_while(|line| line.starts_with('|')) {
        let cells: Vec<&str> = line.split('|').map(str::trim).collect();
        let text = cells[1].trim_matches('`').replacen("..", start, 1);
        assert_eq!(read(text.as_bytes()), Err(cells[2].parse().unwrap()), "{line}");
        count += 1;
    }
    assert_eq!(count, 27);
}

#[test]
fn what_is_written_is_read_in_every_room() {
    for case in worked::limits().into_iter().chain(published()) {
        let text = written(&case.words);
        assert_eq!(read(&text), Ok(case.words.clone()), "{}", case.name);
        let needed = case.words.len();
        for room in (0..8).chain(needed - 2..needed + 2) {
            let expected = if room < needed { (7, 0) } else { (0, needed) };
            assert_eq!(texts::compare_room(&text, room), Ok(expected), "{}, {room}", case.name);
        }
    }
    assert_eq!(read(&written(&longest())), Ok(longest()));
    // A text that is refused is so whatever the room is.
    for room in [0, 1, 400] {
        assert_eq!(texts::compare_room(b"(set-logic QF_LIA)", room), Ok((60, 11)));
    }
}

#[test]
fn each_byte_damaged() {
    let all: Vec<u8> = if LINKED { (0..=255).collect() } else { BYTES.to_vec() };
    for text in [written(&worked::case_a().words), EDITED.as_bytes().to_vec()] {
        for at in 0..text.len() {
            let mut bent = text.clone();
            for &byte in &all {
                bent[at] = byte;
                let _ = read(&bent);
            }
            bent.remove(at);
            let _ = read(&bent);
            for byte in BYTES {
                let mut bent = text.clone();
                bent.insert(at, byte);
                let _ = read(&bent);
            }
        }
    }
}

#[test]
fn each_start_of_a_text() {
    for words in [worked::case_a().words, STRICT.to_vec(), longest()] {
        let text = written(&words);
        let step = if LINKED || text.len() < 1_000 { 1 } else { 17 };
        for end in (0..text.len() - 1).step_by(step) {
            let place = read(&text[..end]).unwrap_err();
            // A word that is cut may be no word, and then is refused itself.
            let word = text[..end].iter().rposition(|byte| b"() \n".contains(byte));
            assert!(place == end || place == word.map_or(0, |at| at + 1), "{place} of {end}");
        }
        assert_eq!(read(&text[..text.len() - 1]), Ok(words));
    }
}

#[test]
fn each_token_changed() {
    let tokens = tokens(&written(&STRICT));
    let joined = |tokens: &[Vec<u8>]| read(&tokens.join(&b" "[..]));
    assert_eq!(joined(&tokens), Ok(STRICT.to_vec()));
    let mut others = tokens.clone();
    others.sort();
    others.dedup();
    others.extend(NUMBERS.map(|number| number.as_bytes().to_vec()));
    for at in 0..tokens.len() {
        for other in &others {
            let mut bent = tokens.clone();
            bent[at].clone_from(other);
            let _ = joined(&bent);
            bent[at].clone_from(&tokens[at]);
            bent.insert(at, other.clone());
            let _ = joined(&bent);
        }
        for other in at..tokens.len() {
            let mut bent = tokens.clone();
            bent.swap(at, other);
            let _ = joined(&bent);
        }
        let mut bent = tokens.clone();
        bent.remove(at);
        assert!(joined(&bent).is_err(), "without token {at}");
    }
}

/// A coefficient, a limit of a variable and one of a row, with every number beside
/// an edge.
#[test]
fn numbers_at_the_edges() {
    let words = Draft::new(1, &[&[7]], &[at_least(8), at_least(9)]).words();
    let text = String::from_utf8(written(&words)).unwrap();
    for (old, place, most) in [("7", 2, 1_000), ("8", 4, 30_000), ("9", 7, 30_000)] {
        let at = text.find(&format!(" {old}")).unwrap() + 1;
        let put = |number: &str| read(text.replacen(old, number, 1).as_bytes());
        for number in (0..40).chain(990..1_010).chain(29_990..30_010).chain(99_990..100_010) {
            let mut expected = words.clone();
            for (number, said, digits) in
                [(number, number.to_string(), at), (-number, format!("(- {number})"), at + 3)]
            {
                expected[place] = number;
                let is_zero = number == 0 && (most == 1_000 || digits != at);
                let is_read = number.abs() <= most && !is_zero;
                let expected = if is_read { Ok(expected.clone()) } else { Err(digits) };
                assert_eq!(put(&said), expected, "{said} for {old}");
            }
        }
        for number in NUMBERS {
            let is_read = number.parse().is_ok_and(|value: i32| {
                value.to_string() == number && (i32::from(most == 1_000)..=most).contains(&value)
            });
            assert_eq!(put(number).is_ok(), is_read, "{number} for {old}");
        }
    }
}

/// A row of zeros is refused at its last one, in any column count.
#[test]
fn rows_of_zeros() {
    for n in 1..=MOST_VARIABLES {
        for row in 0..3 {
            let mut rows = vec![vec![0; n]; 3];
            rows.iter_mut().for_each(|row| row[n - 1] = 5);
            let rows: Vec<&[i32]> = rows.iter().map(Vec::as_slice).collect();
            let text = written(&Draft::new(n, &rows, &vec![FREE; n + 3]).words());
            let fives: Vec<usize> = (0..text.len()).filter(|&at| text[at] == b'5').collect();
            let fives: Vec<usize> = fives
                .into_iter()
                .filter(|&at| text[at - 1] == b' ' && text[at + 1] == b' ')
                .collect();
            let mut blank = text.clone();
            blank[fives[row]] = b'0';
            assert_eq!(read(&blank), Err(fives[row]), "{n} columns, row {row}");
        }
    }
}

#[test]
fn random_texts() {
    let seed = seed();
    println!("SEED={seed}");
    let report = report::texts(seed, PROBLEMS).unwrap_or_else(|what| panic!("{what}"));
    println!("{report}");
    assert!(report.of("read") > PROBLEMS / 6, "SEED={seed}");
    assert!(report.of("refused 60") > PROBLEMS / 3, "SEED={seed}");
    assert!(report.of("refused 7") > PROBLEMS / 100, "SEED={seed}");
    assert!(report.of("too early") > PROBLEMS / 20, "SEED={seed}");
    for bent in ["Not", "Gaps"] {
        assert!(report.of(&format!("{bent} read")) > PROBLEMS / 12, "{bent}, SEED={seed}");
    }
    // Of texts that are cut one in a thousand is read: with 10,000 problems some are.
    for bent in ["Byte", "Number", "Token", "Swapped", "Lines", "Cut"] {
        assert!(report.of(&format!("{bent} read")) > 0, "{bent}, SEED={seed}");
    }
}
