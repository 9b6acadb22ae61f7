//! Each function within the room on the stack that the header asks for, with the
//! largest words that it takes. Where a function takes more, the test does not end
//! by itself.

use scatterflock::{raw, sizes, widened};
use std::fs;
use std::thread;

const DAY: usize = 256;
const SHEET: usize = 128;
const OTHERS: usize = 64;

/// Makes a call on a stack of so many KiB.
fn within(room: usize, call: impl FnOnce() + Send) {
    thread::scope(|scope| {
        let built = thread::Builder::new().stack_size(room * 1024);
        built.spawn_scoped(scope, call).unwrap().join().unwrap();
    });
}

#[test]
fn the_header_asks_for_as_much() {
    let header = concat!(env!("CARGO_MANIFEST_DIR"), "/../../include/scatterflock.h");
    let header = fs::read_to_string(header).unwrap();
    for said in [
        format!("{DAY} KiB for scatterflock_day"),
        format!("{SHEET} KiB for scatterflock_sheet"),
        format!("{OTHERS} KiB is more than any other function uses"),
    ] {
        assert!(header.contains(&said), "the header has no {said}");
    }
}

/// Every variable is 3 or more, and every row, of mixed signs, at least 100.
fn problem() -> Vec<i32> {
    let (n, m) = (sizes::MOST_VARIABLES, sizes::MOST_ROWS);
    let mut words = vec![n as i32, m as i32];
    words.extend((0..m * n).map(|place| (place * 7 % 11) as i32 - 3));
    words.extend([1, 3, 0].repeat(n));
    words.extend([7, 100, 30_000].repeat(m));
    assert_eq!(words.len(), sizes::MOST_WORDS);
    words
}

#[test]
fn problems() {
    let words = problem();
    let mut answer = vec![0; sizes::MOST_ANSWER];
    within(OTHERS, || assert_eq!(raw::solve(&words, &mut answer), 0));
    assert!(answer[0] != 3 && answer[1] > 0, "{answer:?}");
    within(OTHERS, || assert_eq!(raw::solve_within(24, &words, &mut answer), 0));
    within(OTHERS, || assert_eq!(raw::check(&words, &answer), 8));
    let wide = widened(&answer);
    within(OTHERS, || assert_eq!(raw::check_wide(&words, &wide), 8));
    within(OTHERS, || assert_eq!(raw::first_violation(&words).refused, 0));
    let mut trace = vec![0; 3 * answer[1] as usize];
    within(OTHERS, || assert_eq!(raw::trace(&words, &mut trace).count, trace.len()));
    within(OTHERS, || assert_eq!(raw::replay(&words, &trace).number, 0));
    let mut text = vec![0; sizes::MOST_SMTLIB];
    let mut count = 0;
    within(OTHERS, || count = raw::smtlib_write(&words, &mut text).count);
    let mut back = vec![0; words.len()];
    within(OTHERS, || assert_eq!(raw::smtlib_read(&text[..count], &mut back).refused, 0));
    assert_eq!(back, words);
}

#[test]
fn slices_and_sessions() {
    let words = problem();
    let mut answer = vec![0; sizes::MOST_ANSWER];
    let mut slice = None;
    within(OTHERS, || slice = Some(raw::slice_start(&words).slice));
    let mut slice = slice.unwrap();
    let mut is_over = false;
    while !is_over {
        within(OTHERS, || {
            let next = raw::slice_continue(slice.clone(), 1, &mut answer);
            (slice, is_over) = (next.slice, next.answered);
        });
    }
    let mut session = None;
    within(OTHERS, || session = Some(raw::session_open(&words).session));
    let mut session = session.unwrap();
    for variable in 0..32 {
        within(OTHERS, || {
            session = raw::session_switch(session.clone(), variable, false, true).session;
        });
    }
    within(OTHERS, || assert!(raw::session_violation(session.clone()).violated));
    within(OTHERS, || assert_eq!(raw::session_check(session.clone(), &mut answer).refused, 0));
}

#[test]
fn time_rows() {
    let last = sizes::MOST_VERTICES as i32 - 1;
    let mut rows = vec![last + 1, sizes::MOST_TIME_ROWS as i32];
    for row in 0..sizes::MOST_TIME_ROWS as i32 {
        rows.extend([row % last, row % last + 1, 1, -1]);
    }
    let mut answer = vec![0; sizes::MOST_TIMES];
    within(OTHERS, || assert_eq!(raw::times(&rows, &mut answer), 0));
    within(OTHERS, || assert_eq!(raw::check_times(&rows, &answer), 8));
}

#[test]
fn days_files() {
    let bodies = sizes::SECOND_BODIES;
    let (mut lengths, mut words) =
        (vec![sizes::MOST_WORDS as i32; bodies], problem().repeat(bodies));
    let mut file = vec![0; 4 * (2 + 2 * bodies + words.len())];
    within(OTHERS, || assert_eq!(raw::bundle_write(2, &lengths, &words, &mut file), 0));
    within(OTHERS, || {
        assert_eq!(raw::bundle_read(&file, &mut lengths, &mut words).bodies, bodies);
    });
    let mut text = vec![0; sizes::MOST_DAY_TEXT];
    within(DAY, || assert!(raw::day(&file, &mut text) > 100 * bodies));
    within(SHEET, || assert!(raw::sheet(&file, &mut text) > 500));
}
