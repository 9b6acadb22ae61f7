//! Days' files of as many problems as they hold, 64 with 16 rows in edition 1 and
//! 48 with 24 in edition 2: `scatterflock_day`, beside the solves with their
//! answers printed by plain Rust, byte for byte the same.
//!
//! The archive shows no function that prints one answer, so the printing that
//! stands beside it is not its own: it looks at nothing twice, and is a little
//! quicker.

use crate::sets::ANSWER;
use problems::bundles::{file, MOST_BODIES};
use problems::limits::Family;
use problems::random::Random;
use problems::strict::with_marks;
use scatterflock::raw;
use scatterflock::sizes::MOST_DAY_TEXT;
use std::hint::black_box;
use std::time::Instant;

const DAYS: u64 = 20;
const ROUNDS: usize = 40;

/// Days that are one line of the table.
pub struct DaySet {
    name: &'static str,
    days: Vec<Day>,
}

struct Day {
    bodies: Vec<Vec<i32>>,
    file: Vec<u8>,
}

/// Problems of 16 rows, without strict limits and with, and of 24.
pub fn sets(seed: u64) -> [DaySet; 3] {
    let full = |random: &mut Random| Family::Full.words(random);
    let strict = |random: &mut Random| {
        let words = Family::Full.words(random);
        with_marks(random, &words)
    };
    let largest = |random: &mut Random| Family::Largest.words(random);
    [
        DaySet::new("full", seed, 1, full),
        DaySet::new("full, strict", seed, 1, strict),
        DaySet::new("largest", seed, 2, largest),
    ]
}

pub fn heading() -> String {
    format!(
        "{:15}{:>13}{:>14}{:>14}{:>8}{:>12}",
        "ns a day", "solves alone", "and printed", "as a day", "ratio", "bytes"
    )
}

impl DaySet {
    fn new(
        name: &'static str,
        seed: u64,
        edition: u32,
        words: fn(&mut Random) -> Vec<i32>,
    ) -> DaySet {
        let count = MOST_BODIES[edition as usize - 1];
        let day = |day| {
            let mut random = Random::of_problem(seed, day);
            let bodies: Vec<Vec<i32>> = (0..count).map(|_| words(&mut random)).collect();
            let file = file(edition, &bodies);
            Day { bodies, file }
        };
        DaySet { name, days: (0..DAYS).map(day).collect() }
    }

    /// ns a day of each way, and the mean length of a text.
    pub fn line(&self) -> String {
        let mut least = vec![[f64::INFINITY; 3]; self.days.len()];
        let mut bytes = 0;
        let mut text = vec![0; MOST_DAY_TEXT];
        for round in 0..ROUNDS {
            for (day, least) in self.days.iter().zip(&mut least) {
                for turn in 0..3 {
                    let way = (round + turn) % 3;
                    let before = Instant::now();
                    let length = match way {
                        0 => day.solved(),
                        1 => day.printed(black_box(&mut text)),
                        _ => raw::day(black_box(&day.file), black_box(&mut text)),
                    };
                    least[way] = least[way].min(before.elapsed().as_nanos() as f64);
                    bytes += if way == 2 { length } else { 0 };
                }
            }
        }
        let mean = |way: usize| least.iter().map(|least| least[way]).sum::<f64>() / DAYS as f64;
        let [solves, printed, day] = [0, 1, 2].map(mean);
        let bytes = bytes / (ROUNDS * self.days.len());
        let ratio = day / printed;
        format!("{:15}{solves:13.0}{printed:14.0}{day:14.0}{ratio:8.2}{bytes:12}", self.name)
    }
}

impl Day {
    /// The solves alone.
    fn solved(&self) -> usize {
        let mut out = [0; ANSWER];
        for words in &self.bodies {
            assert_eq!(raw::solve(black_box(words), black_box(&mut out)), 0);
        }
        out.len()
    }

    /// The solves, each with its answer printed: how long the text is.
    fn printed(&self, text: &mut [u8]) -> usize {
        let mut out = [0; ANSWER];
        let mut to = Printer { text, length: 0 };
        for words in &self.bodies {
            assert_eq!(raw::solve(black_box(words), &mut out), 0);
            to.put_answer(&out, (words[0] + words[1]) as usize);
        }
        to.length
    }
}

/// Text that is put at the front of a slice.
struct Printer<'a> {
    text: &'a mut [u8],
    length: usize,
}

impl Printer<'_> {
    fn put(&mut self, bytes: &[u8]) {
        self.text[self.length..][..bytes.len()].copy_from_slice(bytes);
        self.length += bytes.len();
    }

    fn put_number(&mut self, number: i64) {
        let mut digits = [0; 20];
        let (mut at, mut rest) = (digits.len(), number.unsigned_abs());
        loop {
            at -= 1;
            digits[at] = b'0' + (rest % 10) as u8;
            rest /= 10;
            if rest == 0 {
                break;
            }
        }
        if number < 0 {
            self.put(b"-");
        }
        self.put(&digits[at..]);
    }

    /// A line of words and numbers.
    fn put_line(&mut self, before: &[u8], number: i64) {
        self.put(before);
        self.put_number(number);
        self.put(b"\n");
    }

    fn put_answer(&mut self, answer: &[i64], variables: usize) {
        let (plain, small) = answer[3..3 + 2 * variables].split_at(variables);
        self.put(match answer[0] {
            1 => b"can\n",
            2 => b"cannot\n",
            _ => b"range\n",
        });
        self.put_line(b"pivots ", answer[1]);
        if answer[0] == 1 {
            self.put_line(b"over ", answer[2]);
        }
        for (variable, (&plain, &small)) in plain.iter().zip(small).enumerate() {
            match answer[0] {
                1 => self.put_value(variable as i64, plain, small),
                2 => {
                    self.put_multiplier(variable as i64, b" lower ", plain);
                    self.put_multiplier(variable as i64, b" upper ", small);
                }
                _ => {}
            }
        }
    }

    fn put_value(&mut self, variable: i64, plain: i64, small: i64) {
        self.put_number(variable);
        self.put(b" ");
        self.put_number(plain);
        if small != 0 {
            self.put(b" ");
            self.put_number(small);
        }
        self.put(b"\n");
    }

    fn put_multiplier(&mut self, variable: i64, side: &[u8], multiplier: i64) {
        if multiplier != 0 {
            self.put_number(variable);
            self.put_line(side, multiplier);
        }
    }
}

#[cfg(test)]
mod tests {
    use super::*;

    #[test]
    fn both_ways_print_the_same() {
        for set in sets(7) {
            for day in set.days {
                let [mut plain, mut proved] = [(); 2].map(|()| vec![0; MOST_DAY_TEXT]);
                let length = raw::day(&day.file, &mut proved);
                assert_eq!(day.printed(&mut plain), length);
                assert!(plain == proved, "{}", set.name);
            }
        }
    }
}
