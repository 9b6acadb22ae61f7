//! One day's file through the reader, the writer and the text; and one call of
//! the writer. Every byte and word that is lent is compared.

use crate::archive;
use crate::lent::Lent;
use problems::bundles::{writing, Family};
use problems::random::Random;

/// What the room for an output is before it is lent.
const BYTE: u8 = 0xa5;
const WORD: i32 = -1_431_655_766;

/// What became of a file and of a call of the writer.
pub struct Outcome {
    /// 0, or the refusal of the reader.
    pub number: u32,
    /// How many bodies it has; 0 where it is refused.
    pub bodies: usize,
    /// How many of these have the line of a refusal in the text.
    pub refused: usize,
    /// The edition; 0 where it is refused.
    pub edition: u32,
    /// How many bodies edition 1 refuses for their rows, and edition 2 does not.
    pub with_more_rows: usize,
    /// What the writer returned: of what was read, and of the call.
    pub writes: Vec<u32>,
}

/// Compares a file of the family, and a call of the writer. An error says what
/// differs.
pub fn compare(random: &mut Random, family: Family) -> Result<Outcome, String> {
    let file = family.file(random);
    let shown = |what: String| format!("{what}, in a file of {} bytes: {}", file.len(), hex(&file));
    let mut outcome = compare_file(random, &file).map_err(shown)?;
    let (edition, lengths, words) = writing(random);
    let room = room(random, 8 + 8 * lengths.len() + 4 * words.len());
    let write = compare_write(edition, &lengths, &words, room);
    let told = format!("edition {edition}, {lengths:?} and {} words", words.len());
    let shown = |what: String| format!("{what}: {told}");
    outcome.writes.push(write.map_err(shown)?.0);
    Ok(outcome)
}

fn hex(bytes: &[u8]) -> String {
    bytes.iter().take(1_000).map(|byte| format!("{byte:02x}")).collect()
}

/// Room for an output that needs so much: mostly enough, at times too little.
fn room(random: &mut Random, needed: usize) -> usize {
    match random.below(20) {
        0 => random.below(needed + 1),
        1 | 2 => needed.saturating_sub(1),
        3..=9 => needed,
        _ => needed + random.size(1, 9),
    }
}

fn compare_file(random: &mut Random, file: &[u8]) -> Result<Outcome, String> {
    let words = file.len() / 4;
    let rooms = [room(random, 3), room(random, words), 64, words];
    compare_read(file, [rooms[0], rooms[1]])?;
    let (told, lengths, words) = compare_read(file, [rooms[2], rooms[3]])?;
    let mut outcome = Outcome {
        number: told.refused,
        bodies: told.bodies,
        refused: 0,
        edition: told.edition,
        with_more_rows: 0,
        writes: vec![],
    };
    if told.refused == 0 {
        let lengths = &lengths[..told.bodies];
        let words = &words[..lengths.iter().sum::<i32>() as usize];
        outcome.with_more_rows = with_more_rows(lengths, words);
        compare_read(file, [told.bodies, words.len()])?;
        compare_read(file, [told.bodies.saturating_sub(1), words.len()])?;
        compare_read(file, [told.bodies, words.len().saturating_sub(1)])?;
        let (number, again) = compare_write(told.edition, lengths, words, file.len())?;
        if (number, &again[..]) != (0, file) {
            return Err(format!("writing what was read gives {number} or other bytes"));
        }
        outcome.writes.push(number);
        outcome.writes.push(compare_write(told.edition, lengths, words, file.len() - 1)?.0);
    }
    let text = reference::day_text(file);
    for room in [room(random, text.len()), text.len(), text.len() - usize::from(!text.is_empty())] {
        compare_day(file, &text, room)?;
    }
    let lines = String::from_utf8_lossy(&text).into_owned();
    outcome.refused = lines.lines().filter(|line| line.starts_with("refused")).count();
    Ok(outcome)
}

fn with_more_rows(lengths: &[i32], mut words: &[i32]) -> usize {
    let bodies = lengths.iter().map(|&length| {
        let (body, others) = words.split_at(length as usize);
        words = others;
        body
    });
    let refused = |body, most_rows| reference::solve_within(most_rows, body, &mut []) == 2;
    bodies.filter(|body| refused(body, 16) && !refused(body, 24)).count()
}

/// The reader with room for so many lengths and words: what it told, and both
/// outputs afterwards.
pub fn compare_read(
    file: &[u8],
    rooms: [usize; 2],
) -> Result<(reference::Contents, Vec<i32>, Vec<i32>), String> {
    let read = Lent::new(file, !BYTE);
    let [mut lengths, mut words] = rooms.map(|room| Lent::new(&vec![WORD; room], !WORD));
    let told = archive::bundle_read(read.lent(), lengths.lent_mut(), words.lent_mut());
    if read.back()? != file {
        return Err("the file that was read has changed".to_string());
    }
    let found = (told.refused, told.edition, told.bodies, lengths.back()?, words.back()?);
    let [mut lengths, mut words] = rooms.map(|room| vec![WORD; room]);
    let told = reference::bundle_read(file, &mut lengths, &mut words);
    let expected = (told.refused, told.edition, told.bodies, lengths, words);
    if found != expected {
        let short = |all: &(u32, u32, usize, _, _)| format!("{:?}", (all.0, all.1, all.2));
        let (found, expected) = (short(&found), short(&expected));
        return Err(format!("reading with {rooms:?} gives {found}, the reference {expected}"));
    }
    Ok((told, expected.3, expected.4))
}

/// The writer with so many bytes: its number, and the bytes afterwards.
pub fn compare_write(
    edition: u32,
    lengths: &[i32],
    words: &[i32],
    room: usize,
) -> Result<(u32, Vec<u8>), String> {
    let [read_lengths, read_words] = [lengths, words].map(|list| Lent::new(list, WORD));
    let mut file = Lent::new(&vec![BYTE; room], !BYTE);
    let (sizes, all) = (read_lengths.lent(), read_words.lent());
    let number = archive::bundle_write(edition, sizes, all, file.lent_mut());
    if read_lengths.back()? != lengths || read_words.back()? != words {
        return Err("the words that were read have changed".to_string());
    }
    let found = (number, file.back()?);
    let mut file = vec![BYTE; room];
    let number = reference::bundle_write(edition, lengths, words, &mut file);
    if found != (number, file) {
        return Err(format!("writing gives {}, the reference {number}", found.0));
    }
    Ok(found)
}

/// The text in so many bytes: they hold it, or are kept.
pub fn compare_day(file: &[u8], text: &[u8], room: usize) -> Result<(), String> {
    let read = Lent::new(file, !BYTE);
    let mut out = Lent::new(&vec![BYTE; room], !BYTE);
    let length = archive::day(read.lent(), out.lent_mut());
    if read.back()? != file {
        return Err("the file that was printed has changed".to_string());
    }
    let found = out.back()?;
    let mut expected = vec![BYTE; room];
    let expected_length = reference::day(file, &mut expected);
    if (length, &found) != (expected_length, &expected) {
        let text = String::from_utf8_lossy(text);
        return Err(format!("its text in {room} bytes is not the {expected_length} of {text}"));
    }
    Ok(())
}
