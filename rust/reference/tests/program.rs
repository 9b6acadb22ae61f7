//! What the program prints, byte for byte.

use problems::draft::{at_least, at_most, below, between, Draft, FREE};
use problems::published::published;
use problems::worked;
use reference::respond;

fn bytes(words: &[i32]) -> Vec<u8> {
    words.iter().flat_map(|word| word.to_le_bytes()).collect()
}

fn printed(input: &[u8]) -> String {
    String::from_utf8(respond(input)).unwrap()
}

fn printed_words(words: &[i32]) -> String {
    printed(&bytes(words))
}

#[test]
fn case_a_is_eight_lines() {
    let text = printed_words(&worked::case_a().words);
    assert_eq!(text, "can\npivots 2\nover 3\n0 3\n1 3\n2 6\n3 3\n4 3\n");
}

#[test]
fn cannot_prints_nonzero_multipliers_by_variable_lower_first() {
    let limits = [between(1, 1), at_least(2), at_most(3)];
    let crossed = [at_least(1), between(5, 4), at_most(3)];
    assert_eq!(
        printed_words(&Draft::new(2, &[&[3, 1]], &limits).words()),
        "cannot\npivots 0\n0 lower 3\n1 lower 1\n2 upper 1\n"
    );
    assert_eq!(
        printed_words(&Draft::new(2, &[&[3, 1]], &crossed).words()),
        "cannot\npivots 0\n1 lower 1\n1 upper 1\n"
    );
}

#[test]
fn numbers_below_zero_have_a_minus() {
    let words = Draft::new(1, &[&[2]], &[FREE, at_most(-3)]).words();
    assert_eq!(printed_words(&words), "can\npivots 1\nover 2\n0 -3\n1 -6\n");
}

#[test]
fn a_small_part_is_printed_where_it_is_not_zero() {
    let printed: Vec<String> =
        worked::strict().iter().map(|case| printed_words(&case.words)).collect();
    let expected = [
        "can\npivots 0\nover 1\n0 0 1\n",
        "cannot\npivots 0\n0 lower 1\n0 upper 1\n",
        "can\npivots 1\nover 1\n0 3 1\n1 0\n2 3 1\n",
        "cannot\npivots 1\n0 upper 1\n1 upper 1\n2 lower 1\n",
        "can\npivots 1\nover 2\n0 0 1\n1 0\n2 0 2\n3 0 3\n",
    ];
    assert_eq!(printed, expected);
    let words = Draft::new(1, &[&[-4]], &[below(0), FREE]).words();
    assert_eq!(printed_words(&words), "can\npivots 0\nover 1\n0 0 -1\n1 0 4\n");
}

#[test]
fn range_is_two_lines() {
    let range = published().into_iter().find(|case| case.answer[0] == 3).unwrap();
    assert_eq!(printed_words(&range.words), "range\npivots 2\n");
}

#[test]
fn the_byte_count_is_judged_first() {
    for length in 0..8 {
        assert_eq!(printed(&vec![1; length]), "refused 1\n");
    }
    for length in [9, 10, 11, 13, 807, 1_159, 1_161, 1_164, 1_000_000] {
        assert_eq!(printed(&vec![9; length]), "refused 3\n");
    }
    assert_eq!(printed(&[0; 8]), "refused 2\n");
    assert_eq!(printed(&[0; 812]), "refused 2\n");
    assert_eq!(printed(&[0; 1_160]), "refused 2\n");
    assert_eq!(printed(&[0; 1_164]), "refused 3\n");
}

#[test]
fn refused_words_are_one_line() {
    let refused = |draft: Draft| printed_words(&draft.words());
    assert_eq!(printed_words(&[1, 0]), "refused 3\n");
    assert_eq!(refused(Draft::new(1, &[&[1_001]], &[FREE, FREE])), "refused 4\n");
    assert_eq!(refused(Draft::new(1, &[&[1]], &[FREE, [4, 0, 0]])), "refused 5\n");
    assert_eq!(refused(Draft::new(1, &[&[1]], &[FREE, at_least(30_001)])), "refused 6\n");
}

#[test]
fn words_are_little_endian() {
    let case = [1, 0, 0, 0, 0, 0, 0, 0, 1, 0, 0, 0, 0x00, 0x01, 0, 0, 0, 0, 0, 0];
    assert_eq!(printed(&case), "can\npivots 0\nover 1\n0 256\n");
}
