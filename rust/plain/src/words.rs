//! The words of a limit problem, and refusals 1 to 6 and 10.

/// The words of an accepted problem, in parts.
#[derive(Clone, Copy)]
pub struct Parts<'a> {
    pub n: usize,
    pub m: usize,
    /// m times n coefficients, row by row.
    pub coefficients: &'a [i32],
    /// Kind, lower and upper of each of the n + m variables.
    pub limits: &'a [[i32; 3]],
}

/// The parts of the words, or the number that refuses them.
pub fn judged(words: &[i32]) -> Result<Parts<'_>, u32> {
    let [n, m, rest @ ..] = words else {
        return Err(1);
    };
    if !(1..=8).contains(n) || !(0..=24).contains(m) {
        return Err(2);
    }
    let (n, m) = (*n as usize, *m as usize);
    if rest.len() != m * n + 3 * (n + m) {
        return Err(3);
    }
    let (coefficients, limits) = rest.split_at(m * n);
    let (limits, _) = limits.as_chunks::<3>();
    if !every(coefficients, |word| (-1_000..=1_000).contains(word)) {
        return Err(4);
    }
    if !every(limits, |[kind, _, _]| (0..=15).contains(kind) & (kind >> 2 & !kind == 0)) {
        return Err(5);
    }
    if !every(limits, limit_passes) {
        return Err(6);
    }
    if coefficients.chunks_exact(n).any(|row| row.iter().all(|&word| word == 0)) {
        return Err(10);
    }
    Ok(Parts { n, m, coefficients, limits })
}

/// Bit 0 of the kind stands for the lower limit, bit 1 for the upper. Bits 2
/// and 3 mark them strict, and those that are marked are there.
fn limit_passes(&[kind, lower, upper]: &[i32; 3]) -> bool {
    let lower_most = if kind & 1 != 0 { 30_000 } else { 0 };
    let upper_most = if kind & 2 != 0 { 30_000 } else { 0 };
    (-lower_most..=lower_most).contains(&lower) & (-upper_most..=upper_most).contains(&upper)
}

/// Whether all pass. It looks at each without a branch, which is quicker where
/// nearly all words pass.
pub fn every<T>(list: &[T], passes: impl Fn(&T) -> bool) -> bool {
    list.iter().fold(true, |all, member| all & passes(member))
}
