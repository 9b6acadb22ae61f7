//! The line of a fault, and an arrow below it.

/// How many characters of a line are shown, and how many of them before the
/// place that is meant, where it is longer.
const MOST: usize = 100;
const BEFORE: usize = 60;

/// The line, or the part of it around a column, and below it an arrow.
pub fn excerpt(line: &str, column: usize) -> String {
    let chars: Vec<char> = line.chars().collect();
    let at = column.saturating_sub(1).min(chars.len());
    let from = if chars.len() > MOST { at.saturating_sub(BEFORE) } else { 0 };
    let to = chars.len().min(from + MOST);
    let start = if from > 0 { ".." } else { "" };
    let end = if to < chars.len() { ".." } else { "" };
    let shown: String = chars[from..to].iter().collect();
    let before = start.len() + chars[from..at].iter().map(|&c| width(c)).sum::<usize>();
    format!("  {start}{shown}{end}\n  {}^\n", " ".repeat(before))
}

/// How many places a character takes on a screen: two for those of East Asia and
/// for pictures, none for marks that are put on the one before.
fn width(c: char) -> usize {
    match u32::from(c) {
        0x300..=0x36f | 0x200b..=0x200f | 0x20d0..=0x20ff | 0xfe00..=0xfe0f => 0,
        0x1100..=0x115f
        | 0x2e80..=0xa4cf
        | 0xac00..=0xd7a3
        | 0xf900..=0xfaff
        | 0xfe30..=0xfe6f
        | 0xff00..=0xff60
        | 0xffe0..=0xffe6
        | 0x1f300..=0x1faff
        | 0x20000..=0x3fffd => 2,
        _ => 1,
    }
}

#[cfg(test)]
mod tests {
    use super::excerpt;

    #[test]
    fn arrows_stand_below() {
        assert_eq!(excerpt("x >= y", 6), "  x >= y\n       ^\n");
        assert_eq!(excerpt("x >=", 5), "  x >=\n      ^\n");
        assert_eq!(excerpt("\u{6e29}\u{5ea6} (", 4), "  \u{6e29}\u{5ea6} (\n       ^\n");
        assert_eq!(excerpt("e\u{301} (", 4), "  e\u{301} (\n    ^\n");
        let long = format!("{}({}", "a".repeat(1_000), "b".repeat(1_000));
        let shown = format!("  ..{}({}..\n", "a".repeat(60), "b".repeat(39));
        assert_eq!(excerpt(&long, 1_001), shown + "  " + &" ".repeat(62) + "^\n");
        let shown = format!("  {}..\n  ^\n", "a".repeat(100));
        assert_eq!(excerpt(&long, 1), shown);
    }
}
