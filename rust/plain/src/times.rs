//! Time rows: passes over the rows, in place, until nothing is bettered.

use crate::words::every;

const MOST_VERTICES: usize = 64;
/// Small amounts to a minute, in a length that is kept as one number.
const UNIT: i64 = 65_536;

/// Writes times or a cycle and returns 0, or returns the number of the
/// refusal and writes nothing. Words past 2 + 2n are not touched.
pub fn times(rows: &[i32], out: &mut [i64]) -> u32 {
    let (n, rows) = match judged(rows) {
        Ok(accepted) => accepted,
        Err(refusal) => return refusal,
    };
    let Some(out) = out.get_mut(..2 + 2 * n) else {
        return 17;
    };
    let mut passes = Passes { distances: [0; MOST_VERTICES], last_rows: [0; MOST_VERTICES] };
    match passes.run(n, rows) {
        None => {
            out[0] = 1;
            out[1] = n as i64;
            let (minutes, small) = out[2..].split_at_mut(n);
            for (vertex, distance) in passes.distances[..n].iter().enumerate() {
                minutes[vertex] = -distance / UNIT;
                small[vertex] = -distance % UNIT;
            }
        }
        Some(bettered) => {
            out[0] = 2;
            out[2..].fill(0);
            out[1] = passes.write_cycle(n, rows, bettered, &mut out[2..]) as i64;
        }
    }
    0
}

/// n and the rows, or the number that refuses the words.
fn judged(words: &[i32]) -> Result<(usize, &[[i32; 4]]), u32> {
    let [n, m, rest @ ..] = words else {
        return Err(11);
    };
    if !(1..=64).contains(n) || !(0..=256).contains(m) {
        return Err(12);
    }
    if rest.len() != 4 * *m as usize {
        return Err(13);
    }
    let (rows, _) = rest.as_chunks::<4>();
    if !every(rows, |[x, y, _, _]| (0..*n).contains(x) & (0..*n).contains(y)) {
        return Err(14);
    }
    if !every(rows, |[_, _, strict, _]| (0..=1).contains(strict)) {
        return Err(15);
    }
    if !every(rows, |[_, _, _, length]| (-30_000..=30_000).contains(length)) {
        return Err(16);
    }
    Ok((*n as usize, rows))
}

/// A length is a pair, minutes and small amounts. There are at most 64 * 256
/// small amounts, so the order of the numbers is that of the pairs.
struct Passes {
    distances: [i64; MOST_VERTICES],
    /// The row that bettered each vertex last.
    last_rows: [u16; MOST_VERTICES],
}

impl Passes {
    /// At most n passes. A vertex that the last one still bettered, if any.
    fn run(&mut self, n: usize, rows: &[[i32; 4]]) -> Option<usize> {
        let mut bettered = None;
        for _ in 0..n {
            bettered = self.pass(rows);
            bettered?;
        }
        bettered
    }

    /// One pass over all rows, and the vertex that it bettered last. A vertex
    /// is below 64; the masks tell the compiler so.
    fn pass(&mut self, rows: &[[i32; 4]]) -> Option<usize> {
        let mut bettered = None;
        for (number, &[x, y, strict, length]) in rows.iter().enumerate() {
            let (from, to) = (x as usize & 63, y as usize & 63);
            let distance = self.distances[from] + UNIT * i64::from(length) - i64::from(strict);
            if distance < self.distances[to] {
                self.distances[to] = distance;
                self.last_rows[to] = number as u16;
                bettered = Some(to);
            }
        }
        bettered
    }

    /// Goes n rows back, which ends on a cycle, and writes that cycle's rows.
    fn write_cycle(&self, n: usize, rows: &[[i32; 4]], bettered: usize, out: &mut [i64]) -> usize {
        let before = |vertex: usize| rows[usize::from(self.last_rows[vertex])][0] as usize;
        let mut start = bettered;
        for _ in 0..n {
            start = before(start);
        }
        let mut count = 0;
        let mut vertex = start;
        loop {
            out[count] = i64::from(self.last_rows[vertex]);
            count += 1;
            vertex = before(vertex);
            if vertex == start {
                break;
            }
        }
        out[..count].reverse();
        count
    }
}
