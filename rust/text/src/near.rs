//! The name that was probably meant.

/// The nearest of these, where one is near: a letter or two other, more, less or
/// exchanged. Digits, and names of a letter or two, tell things apart on purpose.
#[must_use]
pub fn nearest<'a>(name: &str, among: impl Iterator<Item = &'a str>) -> Option<&'a str> {
    let near = among.map(|other| (distance(name, other), other));
    near.filter(|&(far, other)| {
        let length = name.len().min(other.len());
        let most = match length {
            0..=2 => 0,
            3..=5 => 1,
            _ => 2,
        };
        far <= most
    })
    .min_by_key(|&(far, _)| far)
    .map(|(_, other)| other)
}

/// How many letters have to be changed, put in, left out or exchanged with the
/// next one; small and capital letters are the same. A digit more or less counts
/// as two, one for another as three.
fn distance(one: &str, other: &str) -> usize {
    let [one, other] = [one, other].map(|name| name.to_ascii_lowercase().into_bytes());
    let more = |c: u8| if c.is_ascii_digit() { 2 } else { 1 };
    let mut first = vec![0];
    for &c in &other {
        first.push(first[first.len() - 1] + more(c));
    }
    let mut rows = vec![first];
    for i in 1..=one.len() {
        let mut row = vec![rows[i - 1][0] + more(one[i - 1])];
        for j in 1..=other.len() {
            let (a, b) = (one[i - 1], other[j - 1]);
            let changed = match a == b {
                true => 0,
                false if a.is_ascii_digit() && b.is_ascii_digit() => 3,
                false => 1,
            };
            let [less, put_in] = [rows[i - 1][j] + more(a), row[j - 1] + more(b)];
            let mut least = (rows[i - 1][j - 1] + changed).min(less).min(put_in);
            if i > 1 && j > 1 && a == other[j - 2] && one[i - 2] == b {
                least = least.min(rows[i - 2][j - 2] + 1);
            }
            row.push(least);
        }
        rows.push(row);
    }
    rows[one.len()][other.len()]
}

#[cfg(test)]
mod tests {
    use super::nearest;

    #[test]
    fn what_is_near() {
        let names = ["zone1", "zone2", "start2", "heater", "x"];
        for (name, near) in [
            ("zon2", Some("zone2")),
            ("ZONE2", Some("zone2")),
            ("zoen2", Some("zone2")),
            ("zone22", None),
            ("zone", None),
            ("start22", Some("start2")),
            ("start3", None),
            ("zone3", None),
            ("haetter", Some("heater")),
            ("degC", None),
            ("X", Some("x")),
            ("y", None),
        ] {
            assert_eq!(nearest(name, names.into_iter()), near, "{name}");
        }
    }
}
