//! Faults of names: those that are declared, and those of lines.

use super::{below, limit_fault, time_fault};

#[test]
fn of_openings() {
    for (text, fault) in [
        ("", "1:1: there is no limit in this text"),
        ("# x >= 1\n", "1:1: there is no limit in this text"),
        (
            "\nhello, world\n",
            "2:1: there is no limit in this text: it opens with its names, as in names zone1 zone2",
        ),
        (
            "# oven\n 25 <= zone1 <= 40\nzone2 - zone1 <= 60\n2 heat >= 1",
            "2:2: the names are not declared; put this line first: names zone1 zone2 heat",
        ),
        (
            "zone1 >= 20 degC\nzone2 - zone1 <= 60\nzone2 - zne1 >= 2,5\nzne1 >= 3",
            "1:1: the names are not declared; put this line first: names zone1 zone2",
        ),
        ("times x", "1:1: these are time rows, not limits: scatterflock times answers them"),
        ("can\nx = 2", "1:1: this is an answer: scatterflock check FILE ANSWER looks at it"),
        ("x >= 1\n\nnames x", "1:1: line 3 declares the names, and has to be the first"),
        ("names x\nx >= 1\nnames y", "3:1: a line names stands above all others"),
        ("names x\nx >= 1\ntimes y", "3:1: limits and time rows stand in texts of their own"),
        ("names", "1:6: a name is missing after names"),
        (
            "names x, y",
            "1:8: the character , has no meaning here: names have a space between them, and a \
             decimal has a point",
        ),
        ("names x 2", "1:9: after names stand names alone: names x y"),
        ("names x\nnames y x", "2:9: x is declared already, in line 1"),
        ("names x X", "1:9: X and x differ in small and capital letters alone"),
        ("names x1 xl", "1:10: xl and x1 look alike"),
        ("names xO x0", "1:10: x0 and xO look alike"),
        ("names x Small", "1:9: Small is no name: answers call an amount so"),
        ("names x Row", "1:9: Row is no name: row begins a line of its own kind"),
        ("names x", "1:7: nothing limits x; a line free x says that this is meant"),
    ] {
        assert_eq!(limit_fault(text), fault, "{text}");
    }
    for (text, fault) in [
        ("", "1:1: there is no time row in this text"),
        ("names x", "1:1: these are limits, not time rows: scatterflock solve answers them"),
        (
            "start2 - start1 >= 30 min",
            "1:1: the names are not declared; put this line first: times start2 start1",
        ),
        ("times a\nfree a\nnames b", "3:1: limits and time rows stand in texts of their own"),
    ] {
        assert_eq!(time_fault(text), fault, "{text}");
    }
}

#[test]
fn of_names() {
    let free = "says that this is meant";
    for (text, fault) in [
        ("zone3 - zon2 <= 60", "1:9: zon2 is not among the names; is it zone2?".to_string()),
        ("Zone2 >= 60", "1:1: Zone2 is not among the names; is it zone2?".to_string()),
        ("zone4 >= 60", "1:1: zone4 is not among the names: zone1 zone2 zone3".to_string()),
        (
            "zone1 >= 20 degC",
            "1:13: degC is not among the names; a unit is left out, or stands in a comment: # degC"
                .to_string(),
        ),
        ("zone1 >= 2 zon2", "1:12: zon2 is not among the names; is it zone2?".to_string()),
        ("Free zone1", "1:6: a sign, + or -, is missing before this".to_string()),
        ("Free >= 1", "1:1: Free is no name: write free, at the beginning of a line".to_string()),
        ("free zon2", "1:6: zon2 is not among the names; is it zone2?".to_string()),
        (
            "zone1 = 1\nzone2 = 2\nzone3 - zone2 <= 60",
            format!(
                "3:1: zone3 has no limit and stands in this line alone, so the line says nothing; \
                 a line free zone3 {free}"
            ),
        ),
        (
            "zone1 = 1\nzone2 = 2\nzone3 - zone2 <= 60\nzone2 - zone3 <= 60",
            format!(
                "3:1: zone3 has no limit and stands in this line alone, so the line says nothing; \
                 a line free zone3 {free}"
            ),
        ),
        (
            "zone1 = 1\nzone2 = 2\nfree row zone3 + zone2",
            format!("0:19: nothing limits zone3; a line free zone3 {free}"),
        ),
    ] {
        assert_eq!(below("names zone1 zone2 zone3", text), fault, "{text}");
    }
    for lines in [
        "zone1 = 1\nzone2 = 2\nzone3 - zone2 <= 60\nzone3 - zone1 <= 80",
        "zone1 = 1\nzone2 = 2\nfree zone3\nzone3 - zone2 <= 60",
        "zone1 = 1\n3 zone2 = 2\nrow zone3 >= 7",
    ] {
        assert!(below("names zone1 zone2 zone3", lines).starts_with("Limits"), "{lines}");
    }
}

#[test]
fn of_names_of_lines() {
    for (line, fault) in [
        ("budget:", "1:8: a limit is missing after budget:"),
        ("budget: x = 1\nbudget: y = 1", "2:1: line 2 is called budget already"),
        ("X: x = 1", "1:1: X is among the names, and cannot be that of a line"),
        ("upper: x = 1", "1:1: upper is no name of a line: answers and texts use it otherwise"),
        ("some: free x", "1:1: a line free has no name of its own"),
        (
            "x = 1: y",
            "1:6: the character : has no meaning here: it stands behind the name of a line, \
             as in budget: x + y <= 3",
        ),
    ] {
        assert_eq!(below("names x y", line), fault, "{line}");
    }
    let what = "1:1: some: a line that opens a text has no name of its own";
    assert_eq!(limit_fault("some: names x\nx = 1"), what);
}
