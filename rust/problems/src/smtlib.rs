//! SMT-LIB texts that say the same as another, and such that are nearly right.

use crate::random::Random;

/// Words that stand in texts, and some that never do.
const WORDS: [&str; 38] = [
    "(",
    ")",
    "set-logic",
    "QF_LRA",
    "declare-const",
    "Real",
    "assert",
    "check-sat",
    "=",
    ">=",
    ">",
    "<=",
    "<",
    "+",
    "*",
    "-",
    "x0",
    "x1",
    "x2",
    "x7",
    "x8",
    "x00",
    "r0",
    "r1",
    "r2",
    "r9",
    "r10",
    "r23",
    "r24",
    "r01",
    "x",
    "QF_LIA",
    "Int",
    "get-model",
    "ASSERT",
    "asser",
    "assertx",
    "\u{0}",
];

/// Numbers at and beside every edge, and some that only look like numbers.
pub const NUMBERS: [&str; 28] = [
    "0",
    "00",
    "1",
    "01",
    "05",
    "-1",
    "+1",
    "1.0",
    "1e3",
    "0x1",
    "999",
    "1000",
    "1001",
    "01000",
    "9999",
    "10000",
    "29999",
    "30000",
    "30001",
    "030000",
    "99999",
    "100000",
    "65536",
    "4294967296",
    "4294967297",
    "18446744073709551616",
    "18446744073709551617",
    "340282366920938463463374607431768211457",
];

/// Bytes that part tokens, and some that do not and look so.
pub const BYTES: [u8; 14] =
    [b'\t', b'\n', b'\r', b' ', b'(', b')', b';', 0, 11, 12, 0x85, 0xa0, 0xff, b'0'];

/// What is done to a text.
#[derive(Debug, Clone, Copy, PartialEq, Eq)]
pub enum Bent {
    /// Nothing.
    Not,
    /// Other white space between its tokens, and comments.
    Gaps,
    /// Its end is cut off.
    Cut,
    /// One byte is another, or left out, or one more.
    Byte,
    /// Two tokens change places.
    Swapped,
    /// One token is another, or left out, or there twice.
    Token,
    /// One number is another.
    Number,
    /// Some lines are left out, there twice, or in other places.
    Lines,
    /// Any tokens at all.
    Garbage,
}

impl Bent {
    /// Each of them.
    pub const ALL: [Bent; 9] = [
        Bent::Not,
        Bent::Gaps,
        Bent::Cut,
        Bent::Byte,
        Bent::Swapped,
        Bent::Token,
        Bent::Number,
        Bent::Lines,
        Bent::Garbage,
    ];

    /// A text that is bent so, and, at times, has other gaps. The one that is given
    /// has no comment.
    pub fn text(self, random: &mut Random, text: &[u8]) -> Vec<u8> {
        let mut tokens = tokens(text);
        let (one, other) = (random.below(tokens.len()), random.below(tokens.len()));
        match self {
            Bent::Not => return text.to_vec(),
            Bent::Gaps => return with_gaps(random, &tokens),
            Bent::Cut => {
                let text =
                    if random.percent(50) { with_gaps(random, &tokens) } else { text.into() };
                return text[..random.below(text.len())].to_vec();
            }
            Bent::Byte => return with_byte(random, text),
            Bent::Swapped => {
                let next = (one + 1) % tokens.len();
                tokens.swap(one, if random.percent(50) { next } else { other });
            }
            Bent::Token => match random.below(6) {
                0 => {
                    tokens.remove(one);
                }
                1 => tokens.insert(one, tokens[one].clone()),
                2 => tokens[one] = tokens[other].clone(),
                3 => tokens.insert(one, word(random)),
                4 => tokens.push(word(random)),
                _ => tokens[one] = word(random),
            },
            Bent::Number => change_number(random, &mut tokens),
            Bent::Lines => return with_lines(random, text),
            Bent::Garbage => {
                let count = random.below(30);
                let start = random.below(tokens.len().min(60));
                tokens.truncate(start);
                tokens.extend((0..count).map(|_| word(random)));
            }
        }
        if random.percent(30) {
            with_gaps(random, &tokens)
        } else {
            tokens.join(&b" "[..])
        }
    }
}

fn word(random: &mut Random) -> Vec<u8> {
    let word = if random.percent(80) { random.pick(&WORDS) } else { random.pick(&NUMBERS) };
    word.as_bytes().to_vec()
}

/// The tokens of a text that has no comment.
pub fn tokens(text: &[u8]) -> Vec<Vec<u8>> {
    let mut tokens: Vec<Vec<u8>> = Vec::new();
    let mut is_inside = false;
    for &byte in text {
        let (is_gap, is_alone) = (b"\t\n\r ".contains(&byte), b"()".contains(&byte));
        match tokens.last_mut() {
            Some(token) if is_inside && !is_gap && !is_alone => token.push(byte),
            _ if !is_gap => tokens.push(vec![byte]),
            _ => {}
        }
        is_inside = !is_gap && !is_alone;
    }
    tokens
}

/// The tokens with any gaps between them, and around them.
pub fn with_gaps(random: &mut Random, tokens: &[Vec<u8>]) -> Vec<u8> {
    let is_alone = |token: &[u8]| token == b"(" || token == b")";
    let mut text = gap(random, false);
    for (at, token) in tokens.iter().enumerate() {
        let needed = at > 0 && !is_alone(token) && !is_alone(&tokens[at - 1]);
        if at > 0 {
            text.extend(gap(random, needed));
        }
        text.extend(token);
    }
    text.extend(gap(random, false));
    if random.percent(20) {
        text.extend(b"; a comment that the text ends in".iter().take(random.size(1, 40)));
    }
    text
}

/// White space and comments; some where it is needed.
fn gap(random: &mut Random, is_needed: bool) -> Vec<u8> {
    const GAPS: [&[u8]; 11] = [
        b" ",
        b"\n",
        b"\t",
        b"\r",
        b"\r\n",
        b"   ",
        b";\n",
        b"; (assert (>= x0 3))\n",
        b";; ( \r",
        b";\"\n",
        b"; \x00\xff\x0b\t;\n",
    ];
    let least = usize::from(is_needed);
    let count = if random.percent(70) { least } else { random.size(least, 3) };
    (0..count).flat_map(|_| random.pick(&GAPS).to_vec()).collect()
}

fn with_byte(random: &mut Random, text: &[u8]) -> Vec<u8> {
    let mut text = text.to_vec();
    let at = random.below(text.len());
    let byte = if random.percent(50) { random.pick(&BYTES) } else { random.bits() as u8 };
    match random.below(4) {
        0 => {
            text.remove(at);
        }
        1 => text.insert(at, byte),
        2 => text[at] ^= 1 << random.below(8),
        _ => text[at] = byte,
    }
    text
}

fn change_number(random: &mut Random, tokens: &mut Vec<Vec<u8>>) {
    let is_number = |token: &Vec<u8>| token.iter().all(u8::is_ascii_digit);
    let places: Vec<usize> = (0..tokens.len()).filter(|&at| is_number(&tokens[at])).collect();
    if places.is_empty() {
        return;
    }
    let at = random.pick(&places);
    let number = random.pick(&NUMBERS).as_bytes().to_vec();
    if random.percent(25) {
        let (open, minus, close) = (b"(".to_vec(), b"-".to_vec(), b")".to_vec());
        tokens.splice(at..=at, [open, minus, number, close]);
    } else {
        tokens[at] = number;
    }
}

fn with_lines(random: &mut Random, text: &[u8]) -> Vec<u8> {
    let mut lines: Vec<&[u8]> = text.split_inclusive(|&byte| byte == b'\n').collect();
    for _ in 0..random.size(1, 2) {
        let (one, other) = (random.below(lines.len()), random.below(lines.len()));
        match random.below(5) {
            0 if lines.len() > 1 => {
                lines.remove(one);
            }
            1 => lines.insert(one, lines[other]),
            2 => lines.swap(one, other),
            3 if one + 1 < lines.len() => lines.swap(one, one + 1),
            _ => lines.insert(one, lines[one]),
        }
    }
    lines.concat()
}

#[cfg(test)]
mod tests {
    use super::*;

    #[test]
    fn gaps_keep_the_tokens() {
        let text = b"(set-logic QF_LRA)\n(assert (>= x0 (- 5)))\n";
        let found = tokens(text);
        assert_eq!(found.len(), 15);
        let mut random = Random::new(3);
        for _ in 0..200 {
            let text = with_gaps(&mut random, &found);
            let lines = text.split(|byte| b"\n\r".contains(byte));
            let bare: Vec<Vec<u8>> = lines
                .flat_map(|line| tokens(line.split(|&byte| byte == b';').next().unwrap()))
                .collect();
            assert_eq!(bare, found);
        }
    }
}
