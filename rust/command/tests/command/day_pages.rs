//! Days' files and their totals as pages.

use super::pages::{is_closed, shows};
use super::{bytes, ran};
use problems::bundles::{file, ten_bodies, Family};
use problems::limits;
use problems::random::{seed, Random};
use scatterflock::Bundle;

/// The most bytes of the page of a day's file.
const MOST_BYTES: usize = 200_000;

/// A page, with what each of them has.
fn page(action: &str, file: &[u8]) -> (String, i32) {
    let (page, errors, status) = ran(&["--page", action, "-"], file);
    assert_eq!(errors, "");
    assert!(page.starts_with("<!doctype html>") && page.ends_with("</html>\n"), "{page}");
    assert!(page.contains("SHA-256 of standard input: <code>"), "{page}");
    assert!(!page.contains("http") && !page.contains("<script"), "{page}");
    assert!(page.len() <= MOST_BYTES, "{} bytes", page.len());
    is_closed(&page);
    (page, status)
}

/// The line of each body leads to its part.
fn leads_to_its_part(page: &str, bodies: usize) {
    for number in 0..=bodies {
        let is_there = usize::from(number < bodies);
        let link = format!("<a href=\"#body-{number}\">body {number}</a>");
        let part = format!("<section id=\"body-{number}\">\n<h2>Body {number}: ");
        assert_eq!([&link, &part].map(|what| page.matches(what).count()), [is_there; 2], "{page}");
    }
}

#[test]
fn ten_bodies_on_a_page() {
    let ten = file(1, &ten_bodies());
    let (day, status) = page("day", &ten);
    assert_eq!(status, 3);
    assert!(day.contains("<title>standard input: 2 of 10 can</title>"), "{day}");
    let (totals, status) = page("audit", &ten);
    assert_eq!(status, 0);
    assert!(totals.contains("<title>standard input: 10 bodies</title>"), "{totals}");
    for page in [&day, &totals] {
        let bars = "aria-label=\"2 can, 3 cannot, 1 out of range, 4 refused\"";
        assert!(page.contains(bars), "{page}");
        leads_to_its_part(page, 10);
        for (number, class, size, line) in [
            (0, "can", "23 words", "x0 = 1, x1 = 1"),
            (1, "cannot", "5 words", "x0 &gt;= 1, x0 &lt;= 0"),
            (2, "refused", "0 words", "1: the words end before both sizes are told"),
            (6, "out of range", "29 words", "a number became too large"),
            (7, "refused", "9 words", "4: a coefficient is not from -1,000 to 1,000"),
            (8, "cannot", "13 words", "x0 &gt;= 2, x1 &gt;= 2, x0 + x1 &lt;= 3"),
        ] {
            let row = format!(
                "<td><a href=\"#body-{number}\">body {number}</a></td><td>{class}</td>\
                 <td>{size}</td><td>{line}</td>"
            );
            assert!(page.contains(&row), "no {row} in {page}");
        }
        // G and F name the lower limit of variable 0, F and C others.
        let named = "<tr><td class=\"n\">2</td><td class=\"n\">0</td><td>lower</td></tr>";
        assert!(page.contains(named), "{page}");
    }
    // The day has each answer with its picture and its sum, and the problem.
    assert!(day.contains("aria-label=\"asked for 4, allowed 3\"") && day.contains("added up"));
    assert!(day.contains("names x0 x1") && !day.contains("left out below"), "{day}");
    // The totals have the lines of the proved sheet, and of each body what was found.
    assert!(
        totals.contains("<td>pivots 6</td><td>pivots of all answers together</td>"),
        "{totals}"
    );
    assert!(totals.contains("<pre>x0 = 1\nx1 = 1</pre>") && !totals.contains("left out below"));
    let none = page("day", &file(1, &[])).0;
    assert!(
        none.contains("There is no body in this file.") && none.contains("No clash names a limit")
    );
    let words: &[&str] =
        &["2 of 10 can", "Bodies of each class", "body 9", "added up", "SHA-256 of"];
    shows("day", &day, words);
    shows("audit", &totals, &["10 bodies", "the limits clash", "body 9", "SHA-256 of"]);
}

#[test]
fn the_longest_days_have_room() {
    let seed = seed();
    println!("SEED={seed}");
    let largest = |random: &mut Random, edition: usize| {
        let family =
            random.pick(&[limits::Family::Largest, limits::Family::Strict, limits::Family::Full]);
        let words = family.words(random);
        (words[1] <= [16, 24][edition - 1]).then_some(words)
    };
    let mut longest = 0;
    for number in 0..12 {
        let mut random = Random::of_problem(seed, number);
        let edition = 1 + number as usize % 2;
        let (bodies, family) = ([64, 48][edition - 1], limits::Family::ALL[number as usize]);
        let bodies: Vec<Vec<i32>> = (0..bodies)
            .map(|_| match number {
                0..6 => std::iter::repeat_with(|| largest(&mut random, edition))
                    .flatten()
                    .next()
                    .unwrap(),
                _ => family.words(&mut random),
            })
            .collect();
        let Ok(bundle) = Bundle::of_edition(edition as u32, &bodies) else { continue };
        for action in ["day", "audit"] {
            let (page, _) = page(action, &bundle.write());
            leads_to_its_part(&page, bodies.len());
            longest = longest.max(page.len());
        }
    }
    println!("the longest page has {longest} bytes");
    assert!(longest > 50_000, "{longest} bytes, SEED={seed}");
    for number in 0..20 {
        let mut random = Random::of_problem(seed, number);
        let file = Family::Long.file(&mut random);
        if let Ok(bundle) = Bundle::read(&file) {
            let count = bundle.bodies().count();
            leads_to_its_part(&page("day", &file).0, count);
        }
    }
}

#[test]
fn what_is_refused_has_no_page() {
    for action in ["day", "audit"] {
        let (said, _, status) = ran(&["--page", action, "-"], &bytes(&[3, 0]));
        assert_eq!((said.lines().next(), status), (Some("refused 31"), 3));
        for other in ["--json", "--bare"] {
            let (_, errors, status) = ran(&["--page", other, action, "-"], b"");
            assert!(status == 4 && errors.contains("not beside --json"), "{errors}");
        }
    }
}
