//! Faults of answers that are handed in.

use text::{answer, limits, Fault};

#[test]
fn of_answers() {
    let problem = "names x y\n1 <= x <= 2\nx + y >= 3\nfree y\n";
    let problem = limits::read(problem).unwrap();
    let fault = |text: &str| answer::read(text, &problem).map_err(|fault: Fault| fault.to_string());
    for (text, what) in [
        ("", "1:1: there is no answer in this text"),
        ("# can", "1:1: there is no answer in this text"),
        ("perhaps", "1:1: an answer begins with a line can or cannot"),
        ("can x = 2", "1:1: an answer begins with a line can or cannot"),
        ("can\nx = 2", "2:6: y has no value"),
        ("can\nx = 2\nx = 3", "3:1: x has a value already"),
        ("can\nz = 2", "2:1: z is no name of the problem"),
        ("can\nx = 2.5.1", "2:5: 2.5.1 is no number"),
        ("can\nx 2", "2:1: here stands a name, =, and its value: x = 7/2"),
        ("cannot\n2 times line 7", "2:9: line 7 of the problem sets no such limit"),
        (
            "cannot\n2 times line 2",
            "2:9: line 2 of the problem sets two limits: say lower or upper",
        ),
        ("cannot\n2 times line 3\n1 times lower 2", "3:1: this limit has its multiplier already"),
        ("cannot\n2 times lower 3", "2:15: there is no such variable"),
        ("1 2.5", "1:3: 2.5 is not a whole number"),
        ("1 99999999999999999999", "1:3: 99999999999999999999 is out of range for a word"),
    ] {
        assert_eq!(fault(text), Err(what.to_string()), "{text}");
    }
    for (value, column) in [
        ("", 4),
        ("2/0", 5),
        ("2 +", 5),
        ("2 + 3", 5),
        ("small", 5),
        ("2 small", 5),
        ("2 + large", 5),
        ("2 + -3 small", 9),
        ("2 + 3/0 small", 9),
        ("2 + small small", 9),
    ] {
        let what = "a value is a number or a fraction: 7/2, or 7/2 - 3/4 small";
        let expected = format!("2:{column}: {what}");
        assert_eq!(fault(&format!("can\nx = {value}")), Err(expected), "{value}");
    }
    let huge = "can\nx = 1/2147483647\ny = 1/2147483646\n";
    let what = "3:1: over one denominator these fractions are too large for the checker";
    assert_eq!(fault(huge), Err(what.to_string()));
    let huge = "can\nx = 0 + 1/9223372036854775807 small\ny = 1/9223372036854775807\n";
    assert_eq!(fault(huge), Err(format!("2:1{}", &what[3..])));
    assert_eq!(fault("can\ny = 3/2 # a comment\nx = -10/4"), Ok(vec![1, 0, 2, -5, 3, -2, 0, 0, 0]));
    let small = "can\nx = -1/2 + small\ny = 3 - 5/3 small";
    assert_eq!(fault(small), Ok(vec![1, 0, 6, -3, 18, 15, 6, -10, -4]));
    let cannot = "cannot\n2 times line 2 upper\n3 times line 3\n5 times lower 0\n";
    assert_eq!(fault(cannot), Ok(vec![2, 0, 0, 5, 0, 3, 2, 0, 0]));
    assert_eq!(fault("1 2\n-3 # 4"), Ok(vec![1, 2, -3]));
    assert_eq!(fault("can\ny = 1.5\nx = -2.50"), Ok(vec![1, 0, 2, -5, 3, -2, 0, 0, 0]));
    let halves = limits::read("names x y\nx >= 0.5\nx + y <= 1.25\nfree y").unwrap();
    assert_eq!(
        answer::read("can\nx = 0.5\ny = 1/3", &halves),
        Ok(vec![1, 0, 3, 3, 2, 10, 0, 0, 0])
    );
    let read = answer::read("cannot\n3 times line 2\n1 times line 3", &halves);
    assert_eq!(read, Ok(vec![2, 0, 0, 6, 0, 0, 0, 0, 1]));
}
