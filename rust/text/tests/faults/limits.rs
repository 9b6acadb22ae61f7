//! Faults of lines that say what a limit is.

use super::{below, limit_fault, time_fault};
use text::{limits, times};

#[test]
fn of_limits() {
    let missing = "a number or a name is missing here";
    let item = "a line is no item of a list; where";
    let before = "something is missing before this; where";
    let range = "a range is written 20 <= x <= 40; for a difference write the number";
    let glued = "is no number; between a number and a name stands a space or *";
    for (text, fault) in [
        ("x >= 2.5.1", "1:6: 2.5.1 is no number".to_string()),
        ("x >= 2.5551", "1:6: 2.5551 has more than 3 digits behind the point".to_string()),
        ("x >= 1.500", "1:6: 1.500: is it 1500, or 1.5?".to_string()),
        ("x >= 30.000", "1:6: 30.000: is it 30000, or 30?".to_string()),
        ("x >= 1.255", "1:6: 1.255: is it 1255, or 1.2550?".to_string()),
        ("x >= 100.050 y", "1:6: 100.050: is it 100050, or 100.05?".to_string()),
        (
            "x >= 1/1001",
            "1:6: that is too fine: thousandths are the smallest parts of a number".into(),
        ),
        ("x >= 1/0", "1:7: only a number and a name can be multiplied: 3 * x".to_string()),
        (
            "x >= 1/7\ny >= 0.001",
            "2:3: with the limits before, parts of a unit get finer than thousandths".into(),
        ),
        (
            "x >= 0.001\nx <= 31",
            "2:3: with whole numbers this limit is 31000, and 30000 is the most: \
             limits of this text need parts of 1/1000"
                .to_string(),
        ),
        (
            "x + y >= 100.0010\nfree x y",
            "1:7: with whole numbers this limit is 100001, and 30000 is the most".to_string(),
        ),
        (
            "3 x + y >= 1.0010\nfree x y",
            "1:3: with whole numbers this line has 3000: a coefficient is from -1000 to 1000"
                .into(),
        ),
        (
            "0.001 x + 2 y >= 1",
            "1:13: with whole numbers this line has 2000: a coefficient is from -1000 to 1000"
                .into(),
        ),
        ("x >= .5", "1:6: .5 is no number".to_string()),
        ("x >= 2.", "1:6: 2. is no number".to_string()),
        ("x >= nan", "1:6: nan is no number, and no name".to_string()),
        ("x >= -Inf", "1:7: Inf is no number, and no name".to_string()),
        ("x >= 1e5", format!("1:6: 1e5 {glued}")),
        ("2x >= 5", format!("1:1: 2x {glued}")),
        (
            "x >= 30,000",
            "1:6: 30,000: numbers are written without commas, and a decimal has a point"
                .to_string(),
        ),
        ("x >= 2,", "1:6: 2, is no number".to_string()),
        ("# first\n\nx >=  # nothing", format!("3:5: {missing}")),
        ("x >= ", format!("1:5: {missing}")),
        ("<= 5", format!("1:1: {missing}")),
        ("x + >= 5", format!("1:5: {missing}")),
        ("x - -3 >= 5", format!("1:5: {missing}")),
        ("x y >= 5", "1:3: a sign, + or -, is missing before this".to_string()),
        (
            "3 4 x >= 5",
            "1:3: a number has no space in it, or a sign, + or -, is missing before this".into(),
        ),
        ("x * 3 >= 5", "1:3: only a number and a name can be multiplied: 3 * x".to_string()),
        ("x / y >= 5", "1:3: only a number and a name can be multiplied: 3 * x".to_string()),
        ("3 * 4 >= 5", "1:3: only a number and a name can be multiplied: 3 * x".to_string()),
        ("x + y - x >= 5", "1:9: x comes twice in this line: add them up".to_string()),
        ("x >= x", "1:6: x comes twice in this line: add them up".to_string()),
        (
            "x > 1\nx >= 2",
            "2:3: x has its lower limit already, in line 2; begin with row to have both"
                .to_string(),
        ),
        (
            "x <= 1\n1 < x < 2",
            "2:7: x has its upper limit already, in line 2; begin with row to have both"
                .to_string(),
        ),
        ("1 < x > 5", "1:7: the two signs of a line must point the same way".to_string()),
        ("x <> 5", "1:3: there is no sign for \"other than\"".to_string()),
        ("x == 5", "1:3: write = in place of ==".to_string()),
        ("x => 5", "1:3: write >= in place of =>".to_string()),
        ("x =< 5", "1:3: write <= in place of =<".to_string()),
        ("x != 5", "1:3: there is no sign for \"other than\"".to_string()),
        ("x \u{2265} 5", "1:3: write >= in place of \u{2265}".to_string()),
        ("x >= \u{2212}5", "1:6: write - for minus: this is another dash".to_string()),
        (
            "x >= 5 %",
            "1:8: the character % has no meaning here: a unit is left out, or stands in a comment"
                .to_string(),
        ),
        ("x >= \u{1680}5", "1:6: the character \\u{1680} has no meaning here".to_string()),
        ("x >= 2#0", "1:7: a # between digits: leave a space before a comment".to_string()),
        ("x >= y#2", "1:7: a # between digits: leave a space before a comment".to_string()),
        ("x >- 20", "1:3: >-: is it >=? Leave a space where minus is meant".to_string()),
        ("x <-20", "1:3: <-: is it <=? Leave a space where minus is meant".to_string()),
        ("x >+ 20", "1:3: >+: is it >=? Leave a space where plus is meant".to_string()),
        ("3 >= 2", "1:1: there is no name in this line".to_string()),
        ("x", "1:2: a sign is missing: <=, <, >=, > or = says what the limit is".to_string()),
        ("1 <= x <= 5 <= y", "1:13: a line has one sign or two: 20 <= x <= 40".to_string()),
        ("1 <= x >= 5", "1:8: the two signs of a line must point the same way".to_string()),
        ("1 = x = 1", "1:7: the two signs of a line must point the same way".to_string()),
        ("y <= x <= 5", "1:1: in a line with two signs, names stand between them".to_string()),
        ("1 <= x <= y", "1:11: in a line with two signs, names stand between them".to_string()),
        ("1001 x >= 1", "1:1: 1001 is out of range: a coefficient is from -1000 to 1000".into()),
        (
            "x - 1001 * y >= 1",
            "1:5: 1001 is out of range: a coefficient is from -1000 to 1000".into(),
        ),
        ("x >= 30001", "1:6: 30001 is out of range: a limit is from -30000 to 30000".to_string()),
        ("x >= -30001", "1:7: 30001 is out of range: a limit is from -30000 to 30000".to_string()),
        ("x + 1 >= -30000", "1:7: -30001 is out of range: a limit is from -30000 to 30000".into()),
        ("x >= 99999999999999999999", "1:6: 99999999999999999999 is out of range".to_string()),
        (
            "x >= 1\nx >= 2",
            "2:3: x has its lower limit already, in line 2; begin with row to have both"
                .to_string(),
        ),
        (
            "x >= 1\n-x <= -2",
            "2:4: x has its lower limit already, in line 2; begin with row to have both"
                .to_string(),
        ),
        (
            "x = 1\nx <= 2",
            "2:3: x has its upper limit already, in line 2; begin with row to have both"
                .to_string(),
        ),
        (
            "x + y >= 1\n-y - x <= 2",
            "2:8: line 2 limits this sum on the same side; begin with row to have both".into(),
        ),
        ("free x\nx >= 1", "2:3: x is said to be free, in line 2".to_string()),
        ("x >= 1\nfree y x", "2:8: x has a limit, in line 2".to_string()),
        ("free x x", "1:8: x is said to be free already, in line 2".to_string()),
        ("free", "1:5: a name is missing after free".to_string()),
        ("free x + y", "1:8: after free stand names alone: free x y".to_string()),
        ("x + row >= 1", "1:5: row is no name: it begins a line of its own kind".to_string()),
        (
            "row x + y",
            "1:10: a sign is missing: <=, <, >=, > or = says what the limit is".to_string(),
        ),
        ("free row x + y <= 3", "1:16: a row that is free has no limit".to_string()),
        ("free row", "1:9: a sum is missing after row".to_string()),
        (
            "free row x + 3",
            "1:15: a sign is missing here: a sum without limits has names alone".to_string(),
        ),
        (
            "row x + 3",
            "1:10: a sign is missing here: a sum without limits has names alone".to_string(),
        ),
        ("row", "1:4: a sum is missing after row".to_string()),
        ("x + 0 y >= 1\ny = 2", "1:7: 0 y says nothing: leave it out".to_string()),
        ("- x >= 20", format!("1:1: {item} minus is meant, leave no space")),
        ("row + x >= 20", format!("1:5: {item} plus is meant, leave no space")),
        ("x >= - 20", format!("1:6: {before} minus is meant, leave no space")),
        ("x =- 20", format!("1:4: {before} minus is meant, leave no space")),
        ("20 <= + x", format!("1:7: {before} plus is meant, leave no space")),
        ("x > = 20", "1:3: write >= in one piece".to_string()),
        ("x < = 20", "1:3: write <= in one piece".to_string()),
        ("x = 20-40", format!("1:5: {range}")),
        ("20 - 40 <= x", format!("1:1: {range}")),
    ] {
        assert_eq!(below("names x y", text), fault, "{text}");
    }
}

#[test]
fn of_too_many() {
    let names: Vec<String> = (1..=9).map(|number| format!("x{number}")).collect();
    let text = names.iter().map(|name| format!("{name} >= 1\n")).collect::<String>();
    let fault = "1:31: x9 is one too many: there are 8 names at most";
    assert_eq!(limit_fault(&format!("names {}\n{text}", names.join(" "))), fault);
    let eight = format!("names {}\n{}", names[..8].join(" "), &text[..text.len() - 8]);
    assert!(limits::read(&eight).is_ok());

    let rows: Vec<String> = (2..=26).map(|number| format!("{number} x >= 1\n")).collect();
    let fault = "25:1: one row too many: there are 24 at most";
    assert_eq!(below("names x", &rows.concat()), fault);
    let most = format!("names x\n{}", rows[..24].concat());
    assert_eq!(limits::read(&most).unwrap().rows.len(), 24);
    let shared = most + "-2 x >= -5\nx <= 4\n";
    assert_eq!(limits::read(&shared).unwrap().rows.len(), 24);

    let many: Vec<String> = (0..65).map(|number| format!("t{number}")).collect();
    let fault = "1:253: t64 is one too many: there are 64 names at most";
    assert_eq!(time_fault(&format!("times {}", many.join(" "))), fault);
    let many: String = (0..257).map(|number| format!("a - b <= {number}\n")).collect();
    let fault = "257:1: one row too many: there are 256 at most";
    assert_eq!(below("times a b", &many), fault);
    let most = format!("times a b\n{}", &many[..many.len() - 13]);
    assert_eq!(times::read(&most).unwrap().rows.len(), 256);
}

#[test]
fn of_ends_of_lines() {
    for c in [
        '\r', '\u{c}', '\u{85}', '\u{2028}', '\u{202e}', '\u{2066}', '\u{7}', '\u{8}', '\u{1b}',
        '\u{61c}', '\u{200f}',
    ] {
        let what = format!(
            "1:11: the character {} changes what a screen shows of a line: leave it out",
            c.escape_unicode()
        );
        assert_eq!(below("names x", &format!("x >= 1 # a{c}x <= 4")), what);
    }
}
