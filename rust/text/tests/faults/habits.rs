//! Faults of what is written elsewhere.

use super::{below, limit_fault};

/// What a colleague would say who looks over one's shoulder.
#[test]
fn of_what_others_write() {
    let none = "has no meaning here: there are none, write 2 x + 2 y for 2 (x + y)";
    let unit = "has no meaning here: a unit is left out, or stands in a comment";
    let best = "there is no optimising: a line says what a limit is, as in x <= 40";
    for (line, fault) in [
        (
            "x >= 93,5",
            "6: 93,5: numbers are written without commas, and a decimal has a point".into(),
        ),
        ("maximize x", format!("10: {best}")),
        ("min x + y", format!("5: {best}")),
        (
            "x >= 1 and y >= 2",
            "8: a line has one limit: what stands behind and begins a new one".to_string(),
        ),
        ("x >= 1 or y >= 2", "8: there is no or: all lines have to hold together".to_string()),
        (
            "zone 1 >= 20",
            "6: a name has no space in it: zone1; or a sign, + or -, is missing".into(),
        ),
        (
            "x >= 1 000",
            "8: a number has no space in it, or a sign, + or -, is missing before \
             this"
                .into(),
        ),
        ("2(x + y) <= 9", format!("2: the character ( {none}")),
        (
            "x >= 20;",
            "8: the character ; has no meaning here: the end of a line ends a limit".into(),
        ),
        ("x >= 06:30", "6: a clock time stands in time rows alone; in minutes it is 390".into()),
        ("x >= 20 \u{b0}C", format!("9: the character \u{b0} {unit}")),
        ("x >= 5 %", format!("8: the character % {unit}")),
        (
            "x, y >= 5",
            "2: the character , has no meaning here: names have a space between \
             them, and a decimal has a point"
                .to_string(),
        ),
        (
            "|x - y| <= 5",
            "1: the character | has no meaning here: there is no \"or\", and no \
             size of a difference"
                .to_string(),
        ),
        (
            "x^2 <= 5",
            "2: the character ^ has no meaning here: only a number and a name can \
             be multiplied"
                .to_string(),
        ),
        (
            "z\u{43e}ne1 >= 5",
            "2: the character \u{43e} has no meaning here: letters of names are \
             those from a to z"
                .to_string(),
        ),
        (
            "x >= \u{ff11}",
            "6: the character \u{ff11} has no meaning here: digits are those from 0 \
             to 9"
                .to_string(),
        ),
        ("x\u{feff} >= 1", "2: the character \\u{feff} has no meaning here".to_string()),
        ("x\u{ad} >= 1", "2: the character \\u{ad} has no meaning here".to_string()),
        ("x\u{301} >= 1", "2: the character \\u{301} has no meaning here".to_string()),
        ("x >= 20 \u{2103}", format!("9: the character \u{2103} {unit}")),
        ("x\u{200b} >= 1", "2: the character \\u{200b} has no meaning here".to_string()),
        (
            "\"x\" >= 1",
            "1: the character \" has no meaning here: names and numbers stand by \
             themselves"
                .to_string(),
        ),
        ("y <= 2 x - y", "12: y comes twice in this line: add them up".to_string()),
        (
            "x >= 1\nx >= 2",
            "3: x has its lower limit already, in line 2; begin with row to have \
             both"
                .to_string(),
        ),
        (
            "x < y\ny - x > 6",
            "7: line 2 limits this sum on the same side; begin with row to have \
             both"
                .to_string(),
        ),
    ] {
        let said = below("names x y", line);
        let (_, said) = said.split_once(':').unwrap();
        assert_eq!(said, fault, "{line}");
    }
    for (opening, fault) in [
        ("name x y", "1:1: name: write names, in small letters"),
        ("Names x y", "1:1: Names: write names, in small letters"),
    ] {
        assert_eq!(limit_fault(&format!("{opening}\nx = 1\ny = 2")), fault);
    }
}
