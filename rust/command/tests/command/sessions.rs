//! Limits switched off and on.

use super::ran;
use std::fs;
use std::path::PathBuf;

/// Limits are switched off and on from the keyboard, or from a script.
#[test]
fn limits_switched_by_line() {
    let script = b"off 6\noff 6\nback\nback\noff 4 upper\noff 4 # a comment\nlist\nwhy\n\n";
    let (said, _, status) =
        ran(&["edit", &format!("{}/problems/f.txt", files::top().display())], script);
    let clash = "cannot   line 4 (x >= 2), line 5 (y >= 2), line 6 (x + y <= 3)\n";
    let expected = format!(
        "{clash}can      x = 2, y = 2\nline 6 is off already\n{clash}there is nothing to take back\n\
         line 4 sets no such limit\ncan      x = 1, y = 2\n\
         line 4   x >= 2       off\nline 5   y >= 2\nline 6   x + y <= 3\n\
         #   line 5   y >= 2       0 to spare\n#   line 6   x + y <= 3   0 to spare\n"
    );
    assert_eq!((said, status), (expected, 4));
    let path = PathBuf::from(env!("CARGO_TARGET_TMPDIR")).join("edited.txt");
    fs::write(&path, "names x y\nx >= 0.5\ny = 1\n-0.5 x - y >= -1.1250\nx >= 0.5 y\n").unwrap();
    let file = path.to_str().unwrap();
    let script = b"off 3 lower\non 3 lower\noff 2\nwhy\n";
    let (said, _, status) = ran(&["edit", file], script);
    let clash =
        "cannot   line 2 (x >= 0.5), 2 times line 3 lower (y >= 1), line 4 (-x - 2 y >= -2.25)\n";
    assert!(said.starts_with(&format!("{clash}can ")) && status == 1, "{said}");
    for (words, what) in [
        (&["edit", "-"][..], "commands from standard input"),
        (&["--json", "edit", "a"], "--json is an option of solve, check"),
    ] {
        let (_, errors, status) = ran(words, b"");
        assert!(status == 4 && errors.contains(what), "{errors}");
    }
    assert_eq!(ran(&["edit", file], b"of 4\n").2, 4);
}
