//! A day's file, asked of the program: `bundle.c` says how.

use crate::with_server;

/// The function that a request asks for.
#[derive(Clone, Copy)]
enum Function {
    Read = 8,
    Write = 9,
    Day = 10,
    Sheet = 12,
}

/// What [`bundle_read`] tells of a file.
#[derive(Debug, Clone, Copy, PartialEq, Eq)]
pub struct Contents {
    /// 0, or 30 to 36.
    pub refused: u32,
    /// The file's edition; 0 where it is refused.
    pub edition: u32,
    /// How many bodies it has; 0 where it is refused.
    pub bodies: usize,
}

/// Reads a day's file.
pub fn bundle_read(file: &[u8], lengths: &mut [i32], words: &mut [i32]) -> Contents {
    let parts = [file.to_vec(), bytes(lengths), bytes(words)];
    let ([refused, edition, bodies, _], [_, new_lengths, new_words]) =
        ask(Function::Read, 0, parts);
    put(lengths, &new_lengths);
    put(words, &new_words);
    Contents { refused: refused as u32, edition: edition as u32, bodies: bodies as usize }
}

/// Writes a day's file.
pub fn bundle_write(edition: u32, lengths: &[i32], words: &[i32], file: &mut [u8]) -> u32 {
    let parts = [bytes(lengths), bytes(words), file.to_vec()];
    let ([number, ..], [_, _, new_file]) = ask(Function::Write, edition, parts);
    file.copy_from_slice(&new_file);
    number as u32
}

/// Prints a day's file.
pub fn day(file: &[u8], text: &mut [u8]) -> usize {
    printed(Function::Day, file, text)
}

/// Prints the auditor's sheet of a day's file.
pub fn sheet(file: &[u8], text: &mut [u8]) -> usize {
    printed(Function::Sheet, file, text)
}

fn printed(function: Function, file: &[u8], text: &mut [u8]) -> usize {
    let ([length, ..], [_, new_text, _]) = ask(function, 0, [file.to_vec(), text.to_vec(), vec![]]);
    text.copy_from_slice(&new_text);
    length as usize
}

fn bytes(words: &[i32]) -> Vec<u8> {
    words.iter().flat_map(|word| word.to_le_bytes()).collect()
}

fn put(words: &mut [i32], bytes: &[u8]) {
    for (word, four) in words.iter_mut().zip(bytes.chunks_exact(4)) {
        *word = i32::from_le_bytes(four.try_into().expect("a chunk has four bytes"));
    }
}

/// The four numbers of the reply, and all parts after the call.
fn ask(function: Function, edition: u32, parts: [Vec<u8>; 3]) -> ([u64; 4], [Vec<u8>; 3]) {
    let [first, second, third] = parts.each_ref().map(|part| part.len() as u64);
    let mut request: Vec<u8> = [function as u64, first, second, third, edition.into(), 0, 0]
        .iter()
        .flat_map(|number| number.to_le_bytes())
        .collect();
    request.extend(parts.iter().flatten());
    let mut reply = vec![0; 32 + (first + second + third) as usize];
    with_server(|server| server.send(&request, &mut reply));
    let (numbers, mut rest) = reply.split_at(32);
    let number = |place: usize| {
        let eight = &numbers[8 * place..8 * place + 8];
        u64::from_le_bytes(eight.try_into().expect("there are eight"))
    };
    let parts = parts.map(|part| {
        let (bytes, others) = rest.split_at(part.len());
        rest = others;
        bytes.to_vec()
    });
    ([0, 1, 2, 3].map(number), parts)
}
