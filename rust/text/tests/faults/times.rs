//! Faults of time rows.

use super::below;

#[test]
fn of_time_rows() {
    for (text, fault) in [
        ("a - b <= 2.5.1", "1:10: 2.5.1 is no number"),
        (
            "a - b <= 0.001\nc - a <= 30.0010",
            "2:7: this is 30001 times 1/1000 of a minute, and 30000 times is the most",
        ),
        ("0.5 a - 0.5 b <= 5", "1:5: names of time rows are taken once, not more often"),
        ("a - b <=", "1:9: a number or a name is missing here"),
        ("a <= 5", ONE_NAME),
        ("a - b + c <= 5", "1:9: a time row has two names: end - start <= 30"),
        ("2 a - b <= 5", "1:3: names of time rows are taken once, not more often"),
        ("a + b <= 5", "1:5: a time row is about a difference: end - start <= 30"),
        ("a - b <= 30001", "1:10: 30001 is out of range: a limit is from -30000 to 30000"),
        ("a - b", "1:6: a sign is missing: <=, <, >=, > or = says how far they are apart"),
        ("a - a <= 30", "1:5: a - a is 0; begin the line with row if that is meant"),
        ("a - b <= 5\nb >= a - 5", "2:3: line 2 says the same; begin with row to have both"),
        ("a - b <= 6:30", TWO_DIGITS),
        ("a - b <= 24:00", "1:10: 24:00: a clock time is from 00:00 to 23:59"),
        ("a - b <= 06:60", "1:10: 06:60: a clock time is from 00:00 to 23:59"),
        ("06:30:15 <= a - b", THREE_PARTS),
        (
            "a - b = 06:30-08:00",
            "1:9: a range is written 20 <= x <= 40; for a difference write the number",
        ),
        ("row", "1:4: a difference is missing after row"),
        ("a - b <= 30 min", MINUTES),
        ("a - bb <= 30", "1:5: bb is not among the names: a b c"),
        ("a - b <= 30", "0:11: no row speaks of c; a line free c says that this is meant"),
    ] {
        assert_eq!(below("times a b c", text), fault, "{text}");
    }
}

const TWO_DIGITS: &str = "1:10: 6:30: a clock time has hours and minutes, two digits each: 06:30";
const THREE_PARTS: &str =
    "1:1: 06:30:15: a clock time has hours and minutes, two digits each: 06:30";

const ONE_NAME: &str = "1:1: a time row has two names: end - start <= 30; \
     give the beginning of the day one too, and write a - day";

const MINUTES: &str =
    "1:13: min is not among the names; a unit is left out, or stands in a comment: # min";
