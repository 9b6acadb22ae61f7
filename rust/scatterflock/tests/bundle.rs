//! The typed face of a day's file: every refusal, every text, both round trips.

use problems::bundles::{bytes, file, file_words, ten_bodies, Family};
use problems::random::{seed, Random};
use scatterflock::sizes::{FIRST_BODIES, FIRST_ROWS, MOST_BODIES, MOST_DAY_TEXT};
use scatterflock::sizes::{MOST_FILE_WORDS, MOST_ROWS, SECOND_BODIES};
use scatterflock::{day, raw, solve_within, Bundle, BundleRefusal, Problem, Refusal};

fn refusal(words: &[i32]) -> Option<BundleRefusal> {
    Bundle::read(&bytes(words)).err()
}

#[test]
fn ten_bodies_and_back() {
    let bodies = ten_bodies();
    let bundle = Bundle::of(&bodies).unwrap();
    assert_eq!(bundle.write(), file(1, &bodies));
    let read = Bundle::read(&file(1, &bodies)).unwrap();
    assert_eq!(read, bundle);
    assert_eq!(read.edition(), 1);
    assert!(read.bodies().eq(bodies.iter().map(Vec::as_slice)));
    let refused: Vec<Option<Refusal>> = read.problems().map(Result::err).collect();
    let [few, length, coefficient] = [Refusal::FewWords, Refusal::Length, Refusal::Coefficient];
    let mut expected = [None; 10];
    expected[2..5].copy_from_slice(&[Some(few), Some(few), Some(length)]);
    expected[7] = Some(coefficient);
    assert_eq!(refused[..], expected);
    let problem = read.problems().next().unwrap().unwrap();
    assert_eq!(problem, Problem::from_words(&bodies[0]).unwrap());
}

#[test]
fn every_refusal() {
    use BundleRefusal::{Bodies, Edition, Pair, Size, Table, Total};
    assert_eq!(Bundle::read(&[1, 0, 0]).err(), Some(Size));
    assert_eq!(Bundle::read(&vec![0; 4 * MOST_FILE_WORDS + 4]).err(), Some(Size));
    assert_eq!([refusal(&[0, 0]), refusal(&[3, 0])], [Some(Edition); 2]);
    assert_eq!([refusal(&[1, 65]), refusal(&[2, 49])], [Some(Bodies); 2]);
    assert_eq!(refusal(&[1, 1, 4]), Some(Table));
    assert_eq!(refusal(&[1, 1, 4, -1]), Some(Pair));
    assert_eq!(refusal(&[1, 0, 0]), Some(Total));
    let none: &[i32] = &[];
    assert!(Bundle::of(&[none; MOST_BODIES]).is_ok());
    assert_eq!(Bundle::of(&[none; MOST_BODIES + 1]), Err(Bodies));
    assert!(Bundle::of(&[vec![0; MOST_FILE_WORDS - 4]]).is_ok());
    assert_eq!(Bundle::of(&[vec![0; MOST_FILE_WORDS - 3]]), Err(Size));
    assert_eq!(Bundle::of(&[vec![0; 5 * MOST_FILE_WORDS]]), Err(Size));
    for edition in [0, 3, u32::MAX] {
        assert_eq!(Bundle::of_edition(edition, &[none; MOST_BODIES + 1]), Err(Edition));
    }
    assert!(Bundle::of_edition(2, &[none; SECOND_BODIES]).is_ok());
    assert_eq!(Bundle::of_edition(2, &[none; SECOND_BODIES + 1]), Err(Bodies));
    let short = raw::bundle_write(1, &[], &[], &mut [0; 7]);
    assert_eq!(BundleRefusal::try_from(short), Ok(BundleRefusal::Short));
}

#[test]
fn numbers_and_texts_of_refusals() {
    let numbers: Vec<u32> = BundleRefusal::ALL.iter().map(|refusal| refusal.number()).collect();
    assert_eq!(numbers, [30, 31, 32, 33, 34, 35, 36]);
    for &refusal in BundleRefusal::ALL {
        assert_eq!(BundleRefusal::try_from(refusal.number()), Ok(refusal));
        assert!(refusal.to_string().starts_with(|c: char| c.is_lowercase()));
    }
    assert_eq!(BundleRefusal::try_from(37), Err(37));
}

#[test]
fn a_day_of_the_most_bodies() {
    assert_eq!(Bundle::of::<Vec<i32>>(&[]).unwrap().day(), "");
    assert_eq!(day(&[]), "refused 30\n");
    let full = [&[1, 0, 3, 7, 7], &[0; 0][..]].concat();
    let bundle = Bundle::of(&vec![full; MOST_BODIES]).unwrap();
    assert_eq!(bundle.day(), "can\npivots 0\nover 1\n0 7\n".repeat(MOST_BODIES));
    assert_eq!(MOST_DAY_TEXT, 125_120);
    assert_eq!([FIRST_BODIES, FIRST_ROWS, SECOND_BODIES, MOST_BODIES], [64, 16, 48, 64]);
}

/// Rows of one variable without limits.
fn rows(count: usize) -> Vec<i32> {
    [&[1, count as i32], &vec![1; count][..], &vec![0; 3 * (1 + count)]].concat()
}

/// A bundle is of edition 1 where both editions judge each body alike.
#[test]
fn the_edition_that_bodies_need() {
    for (bodies, edition) in [
        (vec![], 1),
        (vec![rows(16); 64], 1),
        (vec![rows(17)], 2),
        (vec![rows(0), rows(24), vec![]], 2),
        (vec![rows(25)], 1),
        (vec![rows(17)[..9].to_vec()], 2),
        (vec![vec![9, 17], vec![1]], 1),
    ] {
        let bundle = Bundle::of(&bodies).unwrap();
        assert_eq!(bundle.edition(), edition, "{bodies:?}");
        assert_eq!(bundle.most_rows(), if edition == 1 { FIRST_ROWS } else { MOST_ROWS });
    }
    assert_eq!(Bundle::of(&vec![rows(17); 49]), Err(BundleRefusal::Bodies));
    let first = Bundle::of_edition(1, &[rows(17), rows(16)]).unwrap();
    let refused: Vec<Option<Refusal>> = first.problems().map(Result::err).collect();
    assert_eq!(refused, [Some(Refusal::Sizes), None]);
    assert!(first.day().starts_with("refused 2\ncan\n"));
}

#[test]
fn random_files() {
    let seed = seed();
    println!("SEED={seed}");
    let mut accepted = [0; 2];
    for number in 0..2_000 {
        let mut random = Random::of_problem(seed, number);
        let file = random.pick(&Family::ALL).file(&mut random);
        let Ok(bundle) = Bundle::read(&file) else { continue };
        assert_eq!(bundle.write(), file, "SEED={seed}, {number}");
        let bodies: Vec<Vec<i32>> = bundle.bodies().map(<[i32]>::to_vec).collect();
        let edition = bundle.edition();
        assert_eq!(bytes(&file_words(edition, &bodies)), file, "SEED={seed}, {number}");
        let again = Bundle::of_edition(edition, &bodies);
        assert_eq!(again, Ok(bundle.clone()), "SEED={seed}, {number}");
        for (body, problem) in bodies.iter().zip(bundle.problems()) {
            let refused = solve_within(bundle.most_rows(), body).err();
            assert_eq!(problem.err(), refused, "SEED={seed}, {number}");
        }
        accepted[edition as usize - 1] += 1;
    }
    assert!(accepted.iter().all(|&accepted| accepted > 300), "{accepted:?}, SEED={seed}");
}
