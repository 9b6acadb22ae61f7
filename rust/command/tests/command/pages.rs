//! Answers as pages.

use super::ran;
use std::fs;
use std::path::PathBuf;
use std::process::Command;

#[test]
fn pages() {
    for (words, input, verdict, told) in [
        (
            ["--page", "solve", "-"],
            "names x y\nx >= 1.5\nx + y <= 3\ny >= 0\n# x <= 4\n",
            "can",
            "3/2",
        ),
        (
            ["--page", "solve", "-"],
            "names x y\nx >= 2\ny >= 2\nx + y <= 3.5 # <&>\n",
            "cannot",
            "0.5 too much",
        ),
        (["--page", "solve", "-"], "names x\n2 < x < 2\n", "cannot", "one of them is strict"),
        (["--page", "solve", "-"], "names x\n0 < x < 0\n", "cannot", "0 &gt; 0"),
        (["--page", "solve", "-"], "1 0 1 7 0", "can", "x0 &gt;= 7"),
        (["--page", "times", "-"], "times a b\na + 30 <= b\nb - a <= 40\n", "can", "30"),
        (
            ["--page", "times", "-"],
            "times a b\na + 30.25 <= b\nb - a <= 20\n",
            "cannot",
            "10.25 too much",
        ),
    ] {
        let (page, _, status) = ran(&words, input.as_bytes());
        assert_eq!(status, i32::from(verdict == "cannot"), "{input}");
        assert!(page.starts_with("<!doctype html>") && page.ends_with("</html>\n"), "{page}");
        assert!(page.contains(&format!("<title>standard input: {verdict}</title>")), "{page}");
        assert!(page.contains(told) && !page.contains("<&>") && !page.contains("http"), "{page}");
        assert!(page.contains("SHA-256 of standard input: <code>") && page.len() < 30_000);
        assert!(!input.contains("# x <= 4") || page.contains("limits in line 5"), "{page}");
        is_closed(&page);
    }
    // A line that has a name is called by it in each table.
    for (action, text, cell, count) in [
        ("solve", "names x y\nsoak: x >= 2\ny >= 2\nx + y <= 3\n", "soak", 2),
        ("solve", "names x y\nsoak: x >= 2\ny >= 2\nx + y <= 5\n", "soak", 1),
        ("times", "times a b\nshift: a + 30 <= b\nb - a <= 20\n", "shift", 1),
        ("times", "times a b\nshift: a + 30 <= b\nb - a <= 40\n", "shift", 1),
    ] {
        let (page, _, _) = ran(&["--page", action, "-"], text.as_bytes());
        let cells = |name: &str| page.matches(&format!("<td class=\"n\">{name}</td>")).count();
        assert_eq!((cells(cell), cells("3") > 0, cells("2")), (count, true, 0), "{page}");
    }
    let (_, errors, status) = ran(&["--page", "check", "a", "b"], b"");
    assert!(status == 4 && errors.contains("--page is an option of solve, times, day"), "{errors}");
}

/// The largest page is small, and a browser shows its words.
#[test]
fn a_browser_shows_the_page() {
    let file = files::top().join("problems/oven-eight.txt");
    let (page, _, _) = ran(&["--page", "solve", file.to_str().unwrap()], b"");
    assert!(page.len() < 30_000, "{} bytes", page.len());
    shows(
        "page",
        &page,
        &["oven-eight.txt", ">can</span>", "940/3 (about 313.333333)", "SHA-256 of"],
    );
}

/// A browser shows the page: these words are in it, and a picture of it can be
/// taken. Where none is installed that is said.
pub fn shows(name: &str, page: &str, words: &[&str]) {
    let room = PathBuf::from(env!("CARGO_TARGET_TMPDIR"));
    let (html, picture) = (room.join(format!("{name}.html")), room.join(format!("{name}.png")));
    fs::write(&html, page).unwrap();
    let browser = |words: &[String]| {
        let fixed = [
            "--headless",
            "--no-sandbox",
            "--disable-gpu",
            "--window-size=900,1100",
            "--no-first-run",
            "--disable-background-networking",
            "--disable-component-update",
            "--host-resolver-rules=MAP * ~NOTFOUND",
        ];
        let room = format!("--user-data-dir={}", room.join(format!("browser-{name}")).display());
        let address = format!("file://{}", html.display());
        Command::new("chromium").args(fixed).arg(room).args(words).arg(address).output()
    };
    let Ok(shown) = browser(&["--dump-dom".to_string()]) else {
        println!("chromium is not installed: no browser has looked at the page {name}");
        return;
    };
    let shown = String::from_utf8_lossy(&shown.stdout).into_owned();
    for words in words {
        assert!(shown.contains(words), "no {words} in\n{shown}");
    }
    browser(&[format!("--screenshot={}", picture.display())]).unwrap();
    let taken = fs::read(&picture).unwrap();
    assert!(taken.starts_with(b"\x89PNG") && taken.len() > 20_000, "{} bytes", taken.len());
}

/// Each tag that is opened is closed.
pub fn is_closed(page: &str) {
    let tags = ["svg", "table", "tr", "td", "pre", "body", "text", "p", "a", "section", "h2", "h3"];
    for tag in tags {
        let [opened, closed] = [format!("<{tag}"), format!("</{tag}>")];
        let spaced = page.matches(&format!("{opened} ")).count();
        let count = page.matches(&format!("{opened}>")).count() + spaced;
        assert_eq!(count, page.matches(&closed).count(), "{tag}: {page}");
    }
}
