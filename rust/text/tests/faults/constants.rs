//! Faults of constants: none of them is turned into another limit, or into none.

use super::{below, limit_fault, time_fault};

const WRITTEN: &str = "a constant is written with its number: let step = 62.5";

#[test]
fn of_definitions() {
    for (lines, fault) in [
        ("let", format!("1:4: {WRITTEN}")),
        ("let 5 = 4", format!("1:5: {WRITTEN}")),
        ("let step", format!("1:9: {WRITTEN}")),
        ("let step 62.5", format!("1:10: {WRITTEN}")),
        ("let step <= 62.5", format!("1:10: {WRITTEN}")),
        ("let step =", format!("1:11: {WRITTEN}")),
        ("let step = -", format!("1:13: {WRITTEN}")),
        ("let step = x", format!("1:12: {WRITTEN}")),
        ("let low = 3\nlet step = low", format!("2:12: {WRITTEN}")),
        ("let step = 3 + 4", format!("1:14: {WRITTEN}")),
        ("let step = 3 <= x", format!("1:14: {WRITTEN}")),
        ("let step = 3 * x", format!("1:14: {WRITTEN}")),
        ("let step = 1/0", format!("1:13: {WRITTEN}")),
        ("let step = 5 degC", "1:14: a unit is left out, or stands in a comment".to_string()),
        (
            "let step = 5degC",
            "1:12: 5degC is no number; between a number and a name stands a space or *".into(),
        ),
        ("let step = 1.500", "1:12: 1.500: is it 1500, or 1.5?".to_string()),
        (
            "let step = 06:30",
            "1:12: a clock time stands in time rows alone; in minutes it is 390".into(),
        ),
        (
            "let step = - 5",
            "1:12: something is missing before this; where minus is meant, leave no space".into(),
        ),
        (
            "let step = 20-40",
            "1:12: a range is written 20 <= x <= 40; for a difference write the number".into(),
        ),
        ("let step == 5", "1:10: write = in place of ==".to_string()),
        (
            "let step = -30001",
            "1:13: 30001 is out of range: a constant is from -30000 to 30000".into(),
        ),
        (
            "let step = 1/1001",
            "1:12: that is too fine: thousandths are the smallest parts of a number".into(),
        ),
        ("let row = 5", "1:5: row is no name: row begins a line of its own kind".to_string()),
        ("let Let = 5", "1:5: Let is no name: let begins a line of its own kind".to_string()),
        ("let small = 5", "1:5: small is no name: answers call an amount so".to_string()),
        ("let x = 5", "1:5: x is among the names, and cannot be a constant".to_string()),
        ("let X = 5", "1:5: X and x, which is among the names, look alike".to_string()),
        ("let zonel = 5", "1:5: zonel and zone1, which is among the names, look alike".to_string()),
        ("let a = 5\nx <= a\nlet a = 5", "3:5: a is defined already, in line 2".to_string()),
        ("let a = 5\nlet A = 6", "2:5: A and a, of line 2, look alike".to_string()),
        ("let a1 = 5\nlet al = 6", "2:5: al and a1, of line 2, look alike".to_string()),
        (
            "top: x <= 5\nlet Top = 5",
            "2:5: line 2 is called Top, which cannot be a constant then".into(),
        ),
        (
            "let top = 5\nTop: x <= 5",
            "2:1: Top is a constant, and cannot be the name of a line".into(),
        ),
        ("top: let step = 5", "1:1: a line let has no name of its own".to_string()),
        ("let: x <= 5", "1:1: let is no name of a line: answers and texts use it otherwise".into()),
    ] {
        assert_eq!(below("names x zone1", lines), fault, "{lines}");
    }
    let late = "1:1: line 2 declares the names, and has to be the first";
    assert_eq!(limit_fault("let step = 5\nnames x\nx <= step"), late);
    let names = "1:1: the names are not declared; put this line first: names x y";
    assert_eq!(limit_fault("let step = 5\nx <= step\ny <= 4"), names);
    assert_eq!(limit_fault("names let"), "1:7: let is no name: let begins a line of its own kind");
}

#[test]
fn of_uses() {
    let unused = "nothing uses step, and it says nothing then: leave it out";
    let product = "only a number and a name can be multiplied: 3 * x";
    let numbers = "a number and a constant are not multiplied; or a sign, + or -, is missing";
    let range =
        "a range is written low <= x <= high; add a constant on the other side to take it off";
    let step = "let step = 62.5\n";
    for (lines, fault) in [
        ("x = 1\ny = 2", format!("1:5: {unused}")),
        ("x = 1\ny = 2 # step", format!("1:5: {unused}")),
        ("x <= stp\ny <= step", "2:6: stp is not among the names; is it step?".to_string()),
        ("x <= Step\ny <= step", "2:6: Step is not among the names; is it step?".to_string()),
        ("x <= low\ny <= step\nlet low = 1", LATE.to_string()),
        ("1 <= x <= low\ny <= step\nlet low = 1", LATE.replace("2:6", "2:11")),
        ("free step x", "2:6: step is a constant, and none of the names".to_string()),
        (
            "free row x + step",
            "2:18: a sign is missing here: a sum without limits has names alone".into(),
        ),
        ("x <= 2 step", format!("2:8: {numbers}")),
        ("x <= step 2", format!("2:11: {numbers}")),
        ("x <= step step", format!("2:11: {numbers}")),
        ("x <= 2 * step", format!("2:8: {product}")),
        ("x <= step / 2", format!("2:11: {product}")),
        ("x <= 1/step", format!("2:7: {product}")),
        ("x / step <= 1", format!("2:3: {product}")),
        ("x step <= 1", "2:3: a sign, + or -, is missing before this".to_string()),
        ("x <= 100 - step", format!("2:6: {range}")),
        ("x <= step-100", format!("2:6: {range}")),
        (
            "x <= - step",
            "2:6: something is missing before this; where minus is meant, leave no space".into(),
        ),
        ("step <= 70", "2:1: there is no name in this line".to_string()),
        ("step = 70", "2:1: there is no name in this line".to_string()),
        (
            "x <= step degC",
            "2:11: degC is not among the names; a unit is left out, or stands in a comment: # degC"
                .into(),
        ),
    ] {
        assert_eq!(below("names x y", &format!("{step}{lines}")), fault, "{lines}");
    }
    let large = "let large = 1000.5\nlarge x + y <= large";
    let what = "2:1: 1000.5 is out of range: a coefficient is from -1000 to 1000";
    assert_eq!(below("names x y", large), what);
    let nothing = "let none = 0\nnone x + y <= 3";
    assert_eq!(below("names x y", nothing), "2:6: 0 x says nothing: leave it out");
}

const LATE: &str = "2:6: low is defined in line 5, and has to be above its use";

#[test]
fn of_time_rows() {
    for (text, fault) in [
        (
            "times a b\nlet gap = 5\na - b <= 4",
            "2:5: nothing uses gap, and it says nothing then: leave it out",
        ),
        (
            "times a b\na - b <= gap\nlet gap = 5",
            "2:10: gap is defined in line 3, and has to be above its use",
        ),
        ("times a b\nlet a = 5\na - b <= 4", "2:5: a is among the names, and cannot be a constant"),
        (
            "times a b\nlet gap = 5\ngap a - b <= 4",
            "3:5: names of time rows are taken once, not more often",
        ),
        (
            "times a b\nlet open = 6:30",
            "2:12: 6:30: a clock time has hours and minutes, two digits each: 06:30",
        ),
        ("times a b\nlet gap = 5\nfree gap", "3:6: gap is a constant, and none of the names"),
    ] {
        assert_eq!(time_fault(text), fault, "{text}");
    }
}
