//! The first violation, on request.

use super::{json, ran};

/// The last lines of what is said.
fn told(text: &[u8]) -> String {
    let (said, _, _) = ran(&["solve", "--first", "-"], text);
    let line = said.lines().find(|line| line.starts_with("# At the start"));
    line.unwrap_or_else(|| panic!("{said}")).to_string()
}

#[test]
fn in_the_words_of_the_text() {
    let lines = b"names x y\nx + y >= 2\n2 x - y >= 0\n2 y - x >= 1";
    assert_eq!(told(lines), "# At the start line 2, x + y >= 2, is broken by 2.");
    let named = b"names x y\nx >= 5\ny = 1\nramp: 2 x - y < 7.5";
    assert_eq!(
        told(named),
        "# At the start ramp, 2 x - y < 7.5, is broken by 3/2 + 1/2 small, 1.5."
    );
    let thirds = b"names x y\nx >= 1/3\ny <= 1\nx - y <= 0";
    assert_eq!(
        told(thirds),
        "# At the start line 4, x - y <= 0, is broken by 1/3, about 0.333333."
    );
    let words = b"1 1 2 0 0 0 1 5 0";
    assert_eq!(told(words), "# At the start 2 x0 >= 5 is broken by 5.");
    let none = "# At the start no limit of a sum is broken.";
    assert_eq!(told(b"names x\nx >= 5"), none);
}

/// Of a clash and of a run out of range too; and without being asked for it is
/// not told.
#[test]
fn beside_every_answer() {
    let clash = b"names x y\nx >= 2\ny >= 2\nx + y <= 3";
    assert_eq!(told(clash), "# At the start line 4, x + y <= 3, is broken by 1.");
    let (said, _, _) = ran(&["solve", "-"], clash);
    assert!(!said.contains("At the start"), "{said}");
}

#[test]
fn as_json() {
    let first = |text: &[u8]| {
        let (said, _, _) = ran(&["--json", "solve", "--first", "-"], text);
        assert!(json::is_one_line(&said), "{said}");
        said
    };
    let said = first(b"names x y\nx >= 5\ny = 1\nramp: 2 x - y < 7.5");
    let expected = "\"first\":{\"line\":4,\"name\":\"ramp\",\"limit\":\"2 x - y < 7.5\",\
        \"side\":\"upper\",\"by\":{\"numerator\":3,\"denominator\":2,\"decimal\":\"1.5\",\
        \"exact\":false,\"small\":{\"numerator\":1,\"denominator\":2}}},";
    assert!(said.contains(expected), "{said}");
    assert!(first(b"names x\nx >= 5").contains("\"first\":null,"));
    assert!(!ran(&["--json", "solve", "-"], b"names x\nx >= 5").0.contains("first"));
}
