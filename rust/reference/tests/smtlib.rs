//! SMT-LIB texts that are read back, and where others are refused.

use problems::draft::{at_least, between, Draft, FREE};
use problems::limits::Family;
use problems::published::published;
use problems::random::{seed, Random};
use problems::smtlib::{tokens, with_gaps};
use problems::worked;
use reference::{lab, smtlib_read, smtlib_write};

const ONE: &str = "(set-logic QF_LRA) (declare-const x0 Real)";

fn written(words: &[i32]) -> Vec<u8> {
    let mut text = vec![0; 7_000];
    let (number, count) = smtlib_write(words, &mut text);
    assert_eq!(number, 0, "{words:?}");
    text[..count].to_vec()
}

fn read(text: &[u8]) -> Result<Vec<i32>, usize> {
    let mut words = vec![0; 290];
    match smtlib_read(text, &mut words) {
        (0, count) => Ok(words[..count].to_vec()),
        (60, place) => Err(place),
        other => panic!("{other:?}"),
    }
}

/// The place where a text is refused. The token there stands behind a `^`, which is
/// no part of the text; without one it is the text's end.
fn refused(marked: &str) {
    let place = marked.find('^').unwrap_or(marked.len());
    assert_eq!(read(marked.replace('^', "").as_bytes()), Err(place), "{marked}");
}

#[test]
fn what_is_written_is_read() {
    for case in worked::limits().into_iter().chain(published()) {
        assert_eq!(read(&written(&case.words)), Ok(case.words), "{}", case.name);
    }
    let seed = seed();
    println!("SEED={seed}");
    for problem in 0..500 {
        let mut random = Random::of_problem(seed, problem);
        let family = random.pick(&Family::ACCEPTED);
        let words = family.words(&mut random);
        let text = with_gaps(&mut random, &tokens(&written(&words)));
        assert_eq!(read(&text), Ok(words), "SEED={seed}, problem {problem}");
    }
}

#[test]
fn every_list_of_first_tokens_could_go_on() {
    let words = Draft::new(2, &[&[0, -3], &[4, 0]], &[between(-1, 1), FREE, at_least(0), FREE]);
    let tokens = tokens(&written(&words.words()));
    for count in 0..tokens.len() {
        let text = tokens[..count].join(&b" "[..]);
        assert_eq!(read(&text), Err(text.len()), "{count} tokens");
    }
}

#[test]
fn bytes_part_tokens_or_do_not() {
    let text = |gap: &str| format!("(set-logic{gap}QF_LRA)(declare-const x0 Real)(check-sat)");
    for gap in [" ", "\t", "\n", "\r", "\r\n", ";\n", ";\r", ";;()\n", " ; a\n\t"] {
        assert_eq!(read(text(gap).as_bytes()), Ok(vec![1, 0, 0, 0, 0]), "{gap:?}");
    }
    for gap in ["\u{b}", "\u{c}", "\u{0}", "\u{a0}", ",", "|"] {
        assert_eq!(read(text(gap).as_bytes()), Err(1), "{gap:?}");
    }
    assert_eq!(read(text("").as_bytes()), Err(1));
    let comment = text("; QF_LRA) (declare-const x0 Real) (check-sat)");
    assert_eq!(read(comment.as_bytes()), Err(comment.len()));
    assert_eq!(
        read(&[&text(" ").into_bytes()[..], b";\xff\x00"].concat()),
        Ok(vec![1, 0, 0, 0, 0])
    );
    assert_eq!(read(b"\xef\xbb\xbf(set-logic QF_LRA)"), Err(0));
}

#[test]
fn each_kind_of_token_is_refused_at_its_place() {
    refused("");
    refused("^)");
    refused("(^(");
    refused("(^set-log");
    refused("(set-logic QF_LRA) ;");
    refused("(set-logic ^QF_LRAA)");
    refused("(set-logic QF_LRA) (^check-sat)");
    refused("(set-logic QF_LRA) (declare-const ^x1 Real)");
    refused("(set-logic QF_LRA) (declare-const ^r0 Real)");
    let all: Vec<String> = (0..8).map(|x| format!("(declare-const x{x} Real)")).collect();
    refused(&format!("(set-logic QF_LRA) {} (declare-const ^x8 Real)", all.join(" ")));
    let rows: Vec<String> = (0..24).map(|r| format!("(declare-const r{r} Real)")).collect();
    refused(&format!("{ONE} {} (^declare-const r24 Real)", rows.join(" ")));
    refused(&format!("{ONE} {} (declare-const ^r24 Real)", rows[..23].join(" ")));
    refused(&format!("{ONE} (declare-const r0 Real) (declare-const ^x1 Real)"));
    refused(&format!("{ONE} (check-sat) ^("));
    refused(&format!("{ONE} (check-sat"));
}

#[test]
fn rows_are_refused_where_they_are_surely_blank() {
    let row = format!("{ONE} (declare-const r0 Real) (assert (= r0 (");
    refused(&format!("{row}* ^0 x0)))"));
    refused(&format!("{row}* (- ^0) x0)))"));
    refused(&format!("{row}^+ (* 1 x0))))"));
    refused(&format!("{row}* 1 x0) ^(* 1 x0)))"));
    let two =
        row.replace("Real) (declare-const r0", "Real) (declare-const x1 Real) (declare-const r0");
    refused(&format!("{two}+ (* 0 x0) (* ^0 x1))))"));
    refused(&format!("{two}+ (* 0 x0) (* ^00 x1))))"));
    refused(&format!("{two}+ (* 1 x0) (* 0 x1) ^("));
    refused(&format!("{two}+ (* 1 ^x1)"));
    refused(&format!("{two}+ (* 1 x0)^)"));
    refused(&format!("{two}^* 1 x0)"));
    refused(&format!("{two}+ (* 1 x0) (* 0 x1)))) (assert (^= r0"));
}

#[test]
fn limits_are_refused_out_of_order() {
    let text = format!("{ONE} (declare-const r0 Real) (assert (= r0 (* 1 x0)))");
    refused(&format!("{text} (assert (^= r0 5))"));
    refused(&format!("{text} (assert (> x0 5)) (assert (>= ^x0 5))"));
    refused(&format!("{text} (assert (< x0 5)) (assert (>= ^x0 5))"));
    refused(&format!("{text} (assert (< x0 5)) (assert (<= ^x0 5))"));
    refused(&format!("{text} (assert (>= r0 5)) (assert (^>= r0 5))"));
    refused(&format!("{text} (assert (>= r0 5)) (assert (^> x0 5))"));
    refused(&format!("{text} (assert (>= r0 5)) (assert (<= ^x0 5))"));
    refused(&format!("{text} (assert (<= r0 5)) (^assert (<= r0 5))"));
    refused(&format!("{text} (assert (<= ^r1 5))"));
    refused(&format!("{text} (assert (<= x0 ^30001))"));
    refused(&format!("{text} (assert (<= x0 (- ^30001)))"));
    refused(&format!("{text} (assert (<= x0 (^+ 5)))"));
    refused(&format!("{text} (assert (<= x0 5 ^5))"));
}

#[test]
fn the_room_is_judged_last() {
    let text = written(&worked::case_a().words);
    let needed = worked::case_a().words.len();
    for room in [0, 1, needed - 1] {
        let mut words = vec![-1; room];
        assert_eq!(smtlib_read(&text, &mut words), (7, 0));
        assert_eq!(words, vec![-1; room]);
        assert_eq!(smtlib_read(b"(set-logic QF_LIA", &mut words), (60, 11));
        assert_eq!(words, vec![-1; room]);
    }
    let mut words = vec![-1; needed + 2];
    assert_eq!(smtlib_read(&text, &mut words), (0, needed));
    assert_eq!(words, [&worked::case_a().words[..], &[-1, -1]].concat());
}

#[test]
fn the_program_answers_or_tells_the_place() {
    let printed = |text: &[u8]| String::from_utf8(lab(text)).unwrap();
    let answer = "can\npivots 2\nover 3\n0 3\n1 3\n2 6\n3 3\n4 3\n";
    assert_eq!(printed(&written(&worked::case_a().words)), answer);
    assert_eq!(printed(b"(set-logic QF_LIA)"), "refused at 11\n");
    assert_eq!(printed(b""), "refused at 0\n");
    let gaps = |count: usize| [written(&worked::case_a().words), vec![b'\n'; count - 330]].concat();
    assert_eq!(printed(&gaps(65_536)), answer);
    assert_eq!(printed(&gaps(65_537)), "refused at 65536\n");
}
