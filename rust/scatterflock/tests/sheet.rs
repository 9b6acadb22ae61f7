//! The typed face of an auditor's sheet: its fields are the figures of the text, and
//! the text is made of them again.

use problems::bundles::{file, ten_bodies, Family, MOST_BODIES};
use problems::random::{seed, Random};
use scatterflock::sizes::{MOST_ROWS, MOST_SHEET, MOST_VARIABLES};
use scatterflock::{raw, sheet, Bundle, Named, Refusal};

#[test]
fn ten_bodies_as_fields() {
    let sheet = Bundle::of(&ten_bodies()).unwrap().sheet();
    assert_eq!((sheet.bodies, sheet.can, sheet.cannot, sheet.range), (10, 2, 3, 1));
    use Refusal::{BlankRow, Coefficient, FewWords, Kind, Length, Limit, Sizes};
    let refused = [
        (FewWords, 2),
        (Sizes, 0),
        (Length, 1),
        (Coefficient, 1),
        (Kind, 0),
        (Limit, 0),
        (BlankRow, 0),
    ];
    assert_eq!(sheet.refused[..], refused);
    assert_eq!((sheet.pivots, sheet.largest, sheet.reached), (6, 2, Some(0)));
    let mut named = vec![Named { lower: 0, upper: 0 }; MOST_VARIABLES + MOST_ROWS];
    for (variable, lower, upper) in [(0, 2, 1), (1, 1, 0), (2, 1, 1), (3, 1, 0), (4, 1, 0)] {
        named[variable] = Named { lower, upper };
    }
    assert_eq!(sheet.named, named);
}

#[test]
fn no_verdict_names_no_body() {
    let sheet = Bundle::of(&[[1]]).unwrap().sheet();
    assert_eq!((sheet.pivots, sheet.largest, sheet.reached), (0, 0, None));
    let none: [[i32; 0]; 0] = [];
    assert_eq!(Bundle::of(&none).unwrap().sheet().reached, None);
}

#[test]
fn the_classes_sum_to_the_bodies_and_the_text_comes_back() {
    let seed = seed();
    println!("SEED={seed}");
    for number in 0..500 {
        let mut random = Random::of_problem(seed, number);
        let family = [Family::Whole, Family::Many][number as usize % 2];
        let file = family.file(&mut random);
        let totals = Bundle::read(&file).unwrap().sheet();
        let refused: u64 = totals.refused.iter().map(|refused| refused.1).sum();
        assert_eq!(totals.can + totals.cannot + totals.range + refused, totals.bodies, "{number}");
        assert_eq!(totals.to_string(), sheet(&file), "{number}");
    }
}

#[test]
fn the_longest_sheet_has_room() {
    for (edition, most) in [1, 2].into_iter().zip(MOST_BODIES) {
        let crossed = vec![vec![1, 0, 3, 1, 0]; most];
        let length = raw::sheet(&file(edition, &crossed), &mut []);
        assert!((600..=MOST_SHEET).contains(&length), "{length}");
    }
}
