//! Verdicts, and what is told beside them.

use super::{bytes, json, ran};
use problems::published::published;
use std::ffi::OsString;
use std::fs;
use std::path::PathBuf;

#[test]
fn verdicts_and_statuses() {
    for (words, input, first, status) in [
        (&["solve", "-"][..], "names x\nx >= 1", "can", 0),
        (&["solve", "-"], "names x\nx >= 1\nx <= 0", "cannot", 1),
        (&["solve", "-"], "names x\n0 < x < 1", "can", 0),
        (&["solve", "-"], "names x\n5 < x <= 5", "cannot", 1),
        (&["solve", "-"], "names x\nfree x", "can", 0),
        (&["solve", "-"], "1 0 9 0 0", "refused 5", 3),
        (&["solve", "-"], "names x\n0 x >= 1", "refused 10", 3),
        (&["solve", "-"], "9 0", "refused 2", 3),
        (&["solve", "-"], "1", "refused 1", 3),
        (&["times", "-"], "times a b\na - b <= 1", "can", 0),
        (&["times", "-"], "times a\nrow a - a < 0", "cannot", 1),
        (&["times", "-"], "times a b\na - b < 1\nb < a", "can", 0),
        (&["times", "-"], "times a b\na - b < 1\na - b >= 1", "cannot", 1),
        (&["times", "-"], "times a b\na - b = 1", "can", 0),
        (&["times", "-"], "65 0", "refused 12", 3),
        (&["words", "-"], "names x\nx >= 1", "1 0 1 1 0", 0),
        (&["words", "-"], "1 0 1 1 0", "names x0", 0),
        (&["words", "--times", "-"], "2 1 0 1 0 1", "times t0 t1", 0),
        (&["words", "--times", "-"], "times a b\na - b <= 1", "2 1 0 1 0 1", 0),
        (&["words", "-"], "times a b\na - b <= 1", "2 1 0 1 0 1", 0),
        (&["help"], "", "usage: scatterflock [--json | --page | --words] solve [--each] [--first] [--wide] FILE", 0),
        (&["--help"], "", "usage: scatterflock [--json | --page | --words] solve [--each] [--first] [--wide] FILE", 0),
        (&["solve", "-", "--json"], "", "{\"error\":\"there is no limit in this text\",\"file\":\"standard input\",\"line\":1,\"column\":1}", 4),
    ] {
        let (output, _, found) = ran(words, input.as_bytes());
        assert_eq!((output.lines().next(), found), (Some(first), status), "{words:?} {input}");
    }
    let range = published().into_iter().find(|case| case.answer[0] == 3).unwrap();
    let (output, _, status) = ran(&["solve", "-"], &bytes(&range.words));
    assert_eq!((output.lines().next(), status), (Some("range"), 2));
    let version = fs::read_to_string(files::top().join("VERSION")).unwrap();
    assert_eq!(ran(&["--version"], b"").0, format!("scatterflock {version}"));
}

/// A line that has a name is called by it.
#[test]
fn lines_with_names() {
    let path = PathBuf::from(env!("CARGO_TARGET_TMPDIR")).join("named.txt");
    let text = "names x y\n2 <= x <= 9\nsoak: y >= 2\nbudget: row x + y <= 3.5 # of both\n";
    fs::write(&path, text).unwrap();
    let file = path.to_str().unwrap();
    let (said, _, status) = ran(&["solve", file], b"");
    assert_eq!(status, 1);
    for line in [
        "1 times soak           # y >= 2",
        "#   budget         x + y <= 4",
        "1 times line 2 lower   # x >= 2",
    ] {
        assert!(said.lines().any(|other| other == line), "no {line} in\n{said}");
    }
    assert_eq!(ran(&["check", file, "-"], said.as_bytes()).2, 0);
    let json = json::read(&ran(&["--json", "solve", file], b"").0).unwrap();
    let names = json.at("limits").list().iter().map(|limit| limit.at("name").clone());
    let text = |name: &str| json::Json::Text(name.to_string());
    assert_eq!(names.collect::<Vec<_>>(), [json::Json::Null, text("soak"), text("budget")]);
    let (said, _, status) = ran(&["edit", file], b"off budget\n");
    assert!(said.ends_with("can      x = 2, y = 2\n") && status == 0, "{said}");
    let (said, _, _) = ran(&["times", "-"], b"times a b\nshift: b - a <= 40\na + 50 <= b\n");
    assert!(said.contains("\nshift    # b - a <= 40\n"), "{said}");
}

/// A comment that reads as a limit is told, in case that it was forgotten.
#[test]
fn limits_that_are_left_out() {
    let text = b"names x\nx >= 1\n# x <= 4\n";
    let (said, _, _) = ran(&["solve", "-"], text);
    assert!(
        said.contains("# Left out, since they are comments, are limits in line 3.\n"),
        "{said}"
    );
    assert!(ran(&["solve", "--json", "-"], text).0.ends_with(",\"left_out\":[3]}\n"));
    let text = b"# b < a\ntimes a b\na - b <= 1\n# b - a > 4\n";
    let (said, _, _) = ran(&["times", "-"], text);
    assert!(
        said.contains("# Left out, since they are comments, are rows in lines 1, 4.\n"),
        "{said}"
    );
    assert!(ran(&["times", "--json", "-"], text).0.ends_with(",\"left_out\":[1,4]}\n"));
    assert!(ran(&["solve", "--json", "-"], b"1 0 1 1 0").0.ends_with(",\"left_out\":[]}\n"));
}

/// A slip in a name, or a unit, declares nothing and turns nothing off.
#[test]
fn slips_are_no_names() {
    for (command, text, place) in [
        ("solve", "names zone1\nzone1 >= 20 degC\n", "2:13: degC is not among the names; a unit"),
        ("solve", "names zone1\nzne1 >= 20\n", "2:1: zne1 is not among the names; is it zone1?"),
        (
            "solve",
            "names zone1 zone2 zone3\n25 <= zone1 <= 40\nzone2 - zone1 <= 60\nzone3 - zon2 <= 60\n\
             zone3 >= 300\n",
            "4:9: zon2 is not among the names; is it zone2?",
        ),
        (
            "times",
            "times start1 start2\nstart2 - strt1 >= 30\n",
            "2:10: strt1 is not among the names; is it start1?",
        ),
        (
            "solve",
            "zone1 >= 20 degC\n",
            "1:1: the names are not declared; put this line first: names zone1\n",
        ),
        ("solve", "times a b\na - b <= 3\n", "1:1: these are time rows"),
        ("check", "names a b\na - b <= 3\n", "1:1: these are limits"),
        ("times", "names a b\na - b <= 3\n", "1:1: these are limits"),
    ] {
        let words = match command {
            "check" => vec!["check", "--times", "-", "problems/a.txt"],
            command => vec![command, "-"],
        };
        let (output, errors, status) = ran(&words, text.as_bytes());
        assert_eq!((output.as_str(), status), ("", 4), "{text}");
        assert!(errors.starts_with(&format!("standard input:{place}")), "{text}: {errors}");
    }
}

#[test]
fn the_texts_come_round() {
    for shown in files::shown::all() {
        let text = shown.text();
        let (words, _, status) = ran(&["words", "-"], text.as_bytes());
        assert_eq!(status, 0, "{}", shown.name);
        let (again, _, _) = ran(&["words", "-"], words.as_bytes());
        assert_eq!(ran(&["words", "-"], again.as_bytes()).0, words, "{}", shown.name);
        let ask = ["words", "--bytes", "-"].map(OsString::from);
        let found = command::run(&ask, &mut text.as_bytes()).output;
        assert_eq!(found, bytes(&shown.words), "{}", shown.name);
    }
}
