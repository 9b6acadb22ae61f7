//! Days' files at the edges: every prefix of one, places that would wrap, the most
//! bodies and words and one more, and rooms that are too short by one.

use differential::archive::{bundle_read, LINKED};
use differential::bundles::{compare_day, compare_read, compare_write};
use problems::bundles::{bytes, file, file_words, ten_bodies, MOST_BODIES, MOST_WORDS};
use problems::limits::Family;
use problems::random::{seed, Random};
use std::fs;
use std::path::Path;

/// Compares reader and text of a file, and gives the refusal.
fn compared(file: &[u8]) -> u32 {
    let rooms = [MOST_BODIES[0], MOST_WORDS];
    let read = compare_read(file, rooms).unwrap_or_else(|what| panic!("{what}: {file:?}"));
    let text = reference::day_text(file);
    for room in [text.len(), text.len() + 1, text.len().saturating_sub(1), 0] {
        compare_day(file, &text, room).unwrap_or_else(|what| panic!("{what}: {file:?}"));
    }
    read.0.refused
}

/// A file from the top of the repository.
fn at_top(name: &str) -> Vec<u8> {
    fs::read(Path::new(env!("CARGO_MANIFEST_DIR")).join("../..").join(name)).unwrap()
}

#[test]
fn the_file_of_ten_bodies() {
    let whole = file(1, &ten_bodies());
    assert_eq!(whole, at_top("crates/day/stdin"));
    assert_eq!(reference::day_text(&whole), at_top("crates/day/stdout"));
    assert_eq!(compared(&whole), 0);
}

#[test]
fn every_prefix() {
    let whole = file(1, &ten_bodies());
    for count in 0..whole.len() {
        let number = match count {
            _ if count % 4 != 0 || count < 8 => 30,
            _ if count < 4 * 22 => 33,
            _ => 35,
        };
        assert_eq!(compared(&whole[..count]), number, "{count}");
    }
    for more in 1..9 {
        let longer = [&whole[..], &vec![0; more]].concat();
        assert_eq!(compared(&longer), if more % 4 == 0 { 35 } else { 30 }, "{more}");
    }
}

#[test]
fn every_word_of_the_head_one_more_and_one_less() {
    let words = file_words(1, &ten_bodies());
    for place in 0..22 {
        for by in [-1, 1, i32::MIN, 1 << 8, 1 << 16] {
            let mut damaged = words.clone();
            damaged[place] = damaged[place].wrapping_add(by);
            let number = compared(&bytes(&damaged));
            let refused = match place {
                0 => [0, 31],
                1 => [32, 34],
                _ => [34, 35],
            };
            assert!(refused.contains(&number), "{place} {by} gives {number}");
        }
    }
}

#[test]
fn places_that_would_wrap() {
    for (words, number) in [
        (vec![1, 2, 6, i32::MAX, -2_147_483_643, 0], 34),
        (vec![1, 2, 6, i32::MAX, i32::MAX, 0], 34),
        (vec![1, 3, 8, i32::MAX, i32::MIN + 7, i32::MAX, 6, 0], 34),
        (vec![1, 1, 4, i32::MAX], 35),
        (vec![1, 1, 4, i32::MAX - 3], 35),
        (vec![1, 1, 4, i32::MIN], 34),
        (vec![1, 5, 12, 1 << 30, 12 + (1 << 30), 1 << 30, 0, 1 << 30, 0, 1 << 30, 12, 0], 34),
    ] {
        assert_eq!(compared(&bytes(&words)), number, "{words:?}");
    }
    for lengths in
        [&[i32::MAX, i32::MAX, 2][..], &[i32::MAX; 64], &[1 << 30, 1 << 30, 1 << 30, 1 << 30]]
    {
        let number = if lengths.len() > MOST_BODIES[1] { 32 } else { 35 };
        assert_eq!(compare_write(1, lengths, &[], 99).unwrap().0, 35, "{lengths:?}");
        assert_eq!(compare_write(2, lengths, &[], 99).unwrap().0, number, "{lengths:?}");
    }
}

#[test]
fn the_most_bodies_and_one_more() {
    for (edition, most) in [1, 2].into_iter().zip(MOST_BODIES) {
        for count in [0, 1, most - 1, most] {
            assert_eq!(compared(&file(edition, &vec![vec![]; count])), 0, "{count}");
            let written = |room| compare_write(edition, &vec![0; count], &[], room).unwrap().0;
            assert_eq!([written(8 + 8 * count), written(7 + 8 * count)], [0, 36], "{count}");
        }
        for count in [most + 1, most + 2, 300] {
            assert_eq!(compared(&file(edition, &vec![vec![]; count])), 32, "{count}");
            let written = compare_write(edition, &vec![-1; count], &[5], 0).unwrap();
            assert_eq!(written.0, 32, "{count}");
        }
    }
}

/// There are two, and the writer asks for that first of all.
#[test]
fn every_edition() {
    for edition in (0..300).chain([1 << 8, 1 << 16, (1 << 31) - 1, 1 << 31, u32::MAX]) {
        let is_known = (1..=2).contains(&edition);
        let number = if is_known { 0 } else { 31 };
        assert_eq!(compared(&file(edition, &ten_bodies())), number, "{edition}");
        assert_eq!(compare_write(edition, &[1], &[9], 20).unwrap().0, number, "{edition}");
        let number = if is_known { 32 } else { 31 };
        assert_eq!(compare_write(edition, &[-1; 65], &[9], 0).unwrap().0, number, "{edition}");
    }
}

/// Case I with more rows: which of both editions answers a body of so many.
#[test]
fn rows_of_a_body() {
    for count in 0..=30 {
        let limits = vec![0; 3 * (1 + count)];
        let body = [&[1, count as i32], &vec![1; count][..], &limits].concat();
        for (edition, most) in [(1, 16), (2, 24)] {
            let day = file(edition, &[body.clone(), vec![3]]);
            assert_eq!(compared(&day), 0);
            let text = reference::day_text(&day);
            let is_refused = text.starts_with(b"refused 2\n");
            assert_eq!(is_refused, count > most, "{count} rows in edition {edition}");
            assert!(text.ends_with(b"\nrefused 1\n"));
        }
    }
}

#[test]
fn the_most_words_and_one_more() {
    for (edition, bodies, head) in [(1, 1, 4), (1, 2, 6), (1, 64, 130), (2, 1, 4), (2, 48, 98)] {
        for (more, number) in [(0, 0), (1, 30)] {
            let mut lengths = vec![0; bodies];
            lengths[bodies / 2] = MOST_WORDS - head + more;
            let all: Vec<Vec<i32>> = lengths.iter().map(|&length| vec![7; length]).collect();
            assert_eq!(compared(&file(edition, &all)), number, "{bodies}");
            let lengths: Vec<i32> = lengths.iter().map(|&length| length as i32).collect();
            let room = 4 * (MOST_WORDS + more);
            let written = |room| compare_write(edition, &lengths, &all.concat(), room).unwrap().0;
            assert_eq!(written(room), number);
            let short = if number == 0 { 36 } else { 30 };
            assert_eq!(written(4 * MOST_WORDS - 1), short);
        }
    }
}

#[test]
fn rooms_too_short_by_one() {
    let whole = file(1, &ten_bodies());
    let [bodies, words] = [10, 130];
    for (rooms, number) in [
        ([bodies, words], 0),
        ([bodies + 1, words + 1], 0),
        ([bodies - 1, words], 36),
        ([bodies, words - 1], 36),
        ([0, words], 36),
        ([bodies, 0], 36),
        ([0, 0], 36),
    ] {
        assert_eq!(compare_read(&whole, rooms).unwrap().0.refused, number, "{rooms:?}");
    }
    for refused in [&whole[..7], &whole[..12], &bytes(&[3, 0]), &bytes(&[1, 0, 0])] {
        let number = bundle_read(refused, &mut [], &mut []).refused;
        assert!((30..36).contains(&number), "{number}");
    }
}

/// As many problems as an edition has, of the largest size that it has, each of
/// which is answered.
#[test]
fn days_of_full_bodies() {
    let seed = seed();
    println!("SEED={seed}");
    for day in 0..if LINKED { 20 } else { 3 } {
        let mut random = Random::of_problem(seed, day);
        for (edition, family) in [(1, Family::Full), (2, Family::Largest)] {
            let count = MOST_BODIES[edition as usize - 1];
            let bodies: Vec<Vec<i32>> = (0..count).map(|_| family.words(&mut random)).collect();
            let day_file = file(edition, &bodies);
            assert_eq!(compared(&day_file), 0, "SEED={seed}, day {day}");
            let text = reference::day_text(&day_file);
            assert!(!text.windows(7).any(|seven| seven == b"refused"), "SEED={seed}, day {day}");
        }
    }
}
