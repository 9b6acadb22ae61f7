//! One SMT-LIB text, read back. Every word that is lent is compared.

use crate::archive;
use crate::lent::{length, Lent};
use problems::limits::Family;
use problems::random::Random;
use problems::smtlib::Bent;
use scatterflock::sizes::{MOST_SMTLIB, MOST_WORDS};

/// What stands beside a text that is lent.
const BYTE: u8 = b'5';
/// What the room for words is before it is lent.
const WORD: i32 = -1_431_655_766;

/// What became of a text.
pub struct Outcome {
    /// 0, 60 or 7.
    pub number: u32,
    /// Whether it was refused at its end.
    pub is_early: bool,
    /// What was done to it.
    pub bent: Bent,
}

/// Compares the text of a problem of the family, bent. An error says what differs.
pub fn compare(random: &mut Random, family: Family) -> Result<Outcome, String> {
    let words = family.words(random);
    let bent = random.pick(&Bent::ALL);
    let text = bent.text(random, &written(&words));
    let (number, count) = reference::smtlib_read(&text, &mut [0; MOST_WORDS]);
    // A text that is refused has no words: any length will do.
    let room = length(random, if number == 0 { count } else { MOST_WORDS });
    let told = compare_room(&text, room);
    let shown = |what: String| {
        format!("{what}: {bent:?}, room {room}, {:?}", String::from_utf8_lossy(&text))
    };
    let (number, count) = told.map_err(shown)?;
    Ok(Outcome { number, is_early: number == 60 && count == text.len(), bent })
}

/// The text of words, as the reference writes it; that of a variable alone where
/// they are refused.
fn written(words: &[i32]) -> Vec<u8> {
    let mut text = [0; MOST_SMTLIB];
    match reference::smtlib_write(words, &mut text) {
        (0, count) => text[..count].to_vec(),
        _ => written(&[1, 0, 0, 0, 0]),
    }
}

/// Compares a text with room for so many words: the number and the count.
pub fn compare_room(text: &[u8], room: usize) -> Result<(u32, usize), String> {
    let read = Lent::new(text, BYTE);
    let mut words = Lent::new(&vec![WORD; room], !WORD);
    let told = archive::smtlib_read(read.lent(), words.lent_mut());
    if read.back()? != text {
        return Err("the text that was read has changed".to_string());
    }
    let found = ((told.refused, told.count), words.back()?);
    let mut words = vec![WORD; room];
    let told = reference::smtlib_read(text, &mut words);
    if found != (told, words) {
        return Err(format!("read is {:?}, by the reference {told:?}, or other words", found.0));
    }
    Ok(told)
}
