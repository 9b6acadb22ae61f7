//! One limit problem as SMT-LIB text.

use crate::archive;
use crate::lent::length;
use problems::limits::Family;
use problems::random::Random;
use scatterflock::sizes::MOST_SMTLIB;

const GUARD: [u8; 8] = [0xa5; 8];

/// Compares one problem of the family. The number is 0, or the refusal; an error
/// says what differs.
pub fn compare(random: &mut Random, family: Family) -> Result<u32, String> {
    let words = family.words(random);
    let (number, count) = reference::smtlib_write(&words, &mut [0; MOST_SMTLIB]);
    // Words that are refused have no text: any length will do.
    let needed = if number == 0 { count } else { MOST_SMTLIB };
    let room = length(random, needed);
    compare_room(random, &words, room).map_err(|what| format!("{what}: {words:?}, room {room}"))
}

/// Compares the text of words in so much room.
pub fn compare_room(random: &mut Random, words: &[i32], room: usize) -> Result<u32, String> {
    let before: Vec<u8> = (0..room).map(|_| random.bits() as u8 | 0x80).collect();
    let expected = lent(reference::smtlib_write, words, &before)?;
    let write = |words: &[i32], text: &mut [u8]| {
        let written = archive::smtlib_write(words, text);
        (written.refused, written.count)
    };
    let found = lent(write, words, &before)?;
    if found != expected {
        let shown = |(told, text): &((u32, usize), Vec<u8>)| {
            format!("{told:?} {:?}", String::from_utf8_lossy(text))
        };
        return Err(format!("written is {}, by the reference {}", shown(&found), shown(&expected)));
    }
    Ok(expected.0 .0)
}

/// What a function returned and what it left of the bytes, which lie between
/// others that nobody may touch.
fn lent<T>(
    function: impl FnOnce(&[i32], &mut [u8]) -> T,
    words: &[i32],
    before: &[u8],
) -> Result<(T, Vec<u8>), String> {
    let read = words.to_vec();
    let mut all = [&GUARD, before, &GUARD].concat();
    let end = GUARD.len() + before.len();
    let returned = function(&read, &mut all[GUARD.len()..end]);
    if read != words {
        return Err("the words that were read have changed".to_string());
    }
    if all[..GUARD.len()] != GUARD || all[end..] != GUARD {
        return Err("bytes beside those that were lent have changed".to_string());
    }
    Ok((returned, all[GUARD.len()..end].to_vec()))
}
