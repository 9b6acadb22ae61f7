//! `day`, `pack` and `unpack`: what they print and write, and with which status.

mod json;

use problems::bundles::{bytes, file, ten_bodies, Family};
use problems::random::{seed, Random};
use std::ffi::OsString;
use std::fs;
use std::io::Write;
use std::path::{Path, PathBuf};
use std::process::{Command, Stdio};

/// Output, errors and status, with this on standard input.
fn ran_bytes(words: &[&str], input: &[u8]) -> (Vec<u8>, String, i32) {
    let words: Vec<OsString> = words.iter().map(OsString::from).collect();
    let ended = command::run(&words, &mut &input[..]);
    (ended.output, ended.errors, i32::from(ended.status))
}

fn ran(words: &[&str], input: &[u8]) -> (String, String, i32) {
    let (output, errors, status) = ran_bytes(words, input);
    (String::from_utf8(output).unwrap(), errors, status)
}

/// An empty folder of its own.
fn folder(name: &str) -> PathBuf {
    let folder = PathBuf::from(env!("CARGO_TARGET_TMPDIR")).join(format!("day-{name}"));
    let _ = fs::remove_dir_all(&folder);
    fs::create_dir_all(&folder).unwrap();
    folder
}

fn path(folder: &Path, name: &str) -> String {
    folder.join(name).to_str().unwrap().to_string()
}

/// The files of a folder by name, with what is in them.
fn files_in(folder: &Path) -> Vec<(String, Vec<u8>)> {
    let mut files: Vec<(String, Vec<u8>)> = fs::read_dir(folder)
        .unwrap()
        .map(|entry| entry.unwrap().path())
        .map(|path| {
            (path.file_name().unwrap().to_string_lossy().into_owned(), fs::read(&path).unwrap())
        })
        .collect();
    files.sort();
    files
}

#[test]
fn a_day_in_the_readers_words() {
    let (said, errors, status) = ran(&["day", "-"], &file(1, &ten_bodies()));
    assert_eq!((errors.as_str(), status), ("", 3));
    let mut lines = said.lines();
    let counts = "10 bodies: 2 can, 3 cannot, 1 out of range, 4 refused";
    for line in [counts, "cannot: 1 5 8", "out of range: 6", "refused: 2 3 4 7", ""] {
        assert_eq!(lines.next(), Some(line));
    }
    for (number, words, first) in [
        (0, "23 words", "can"),
        (1, "5 words", "cannot"),
        (2, "0 words", "refused 1"),
        (3, "1 word", "refused 1"),
        (4, "22 words", "refused 3"),
        (5, "23 words", "cannot"),
        (6, "29 words", "range"),
        (7, "9 words", "refused 4"),
        (8, "13 words", "cannot"),
        (9, "5 words", "can"),
    ] {
        let heading = format!("---- body {number}, {words}");
        assert!(lines.any(|line| line == heading), "no {heading} in\n{said}");
        assert_eq!(lines.next(), Some(first), "{heading}");
    }
    for (number, body) in ten_bodies().iter().enumerate().filter(|(_, body)| body.len() > 4) {
        let (alone, _, _) = ran(&["solve", "-"], &bytes(body));
        assert!(said.contains(&alone), "body {number} has not\n{alone}");
    }
}

#[test]
fn a_day_in_proved_text() {
    let day = file(1, &ten_bodies());
    let proved = fs::read_to_string(files::top().join("crates/day/stdout")).unwrap();
    assert_eq!(ran(&["--bare", "day", "-"], &day), (proved, String::new(), 3));
    assert_eq!(ran(&["--bare", "day", "-"], &day[..7]).0, "refused 30\n");
}

#[test]
fn statuses_are_the_greatest_of_the_bodies() {
    let [can, cannot, refused] = [vec![1, 0, 0, 0, 0], vec![1, 0, 3, 1, 0], vec![1]];
    let range = ten_bodies()[6].clone();
    for (bodies, status) in [
        (vec![], 0),
        (vec![can.clone(), can.clone()], 0),
        (vec![can.clone(), cannot.clone()], 1),
        (vec![cannot.clone(), range.clone(), can.clone()], 2),
        (vec![refused, range, cannot, can], 3),
    ] {
        let day = file(1, &bodies);
        for words in [&["day", "-"][..], &["--json", "day", "-"], &["--bare", "day", "-"]] {
            assert_eq!(ran(words, &day).2, status, "{words:?} {bodies:?}");
        }
    }
    assert_eq!(
        ran(&["day", "-"], &file(1, &[])).0,
        "0 bodies: 0 can, 0 cannot, 0 out of range, 0 refused\n"
    );
}

#[test]
fn a_day_as_json() {
    let day = file(1, &ten_bodies());
    let (said, _, status) = ran(&["--json", "day", "-"], &day);
    assert_eq!(status, 3);
    let told = json::read(&said).unwrap();
    for (field, count) in [("edition", 1), ("can", 2), ("cannot", 3), ("range", 1), ("refused", 4)]
    {
        assert_eq!(told.at(field).number(), count, "{field}");
    }
    let bodies = told.at("bodies").list();
    assert_eq!(bodies.len(), 10);
    for (place, (body, words)) in bodies.iter().zip(ten_bodies()).enumerate() {
        assert_eq!(body.at("body").number(), place as i64);
        let alone = folder("json").join("alone.words");
        fs::write(&alone, bytes(&words)).unwrap();
        let (alone, _, _) = ran(&["--json", "solve", alone.to_str().unwrap()], b"");
        let alone = json::read(&alone).unwrap();
        assert_eq!(body.at("verdict"), alone.at("verdict"), "{place}");
    }
    let (said, _, _) = ran(&["--json", "day", "-"], &file(2, &ten_bodies()));
    assert_eq!(json::read(&said).unwrap().at("edition").number(), 2);
    let (said, _, status) = ran(&["--json", "day", "-"], &bytes(&[3, 0]));
    let refused = json::read(&said).unwrap();
    assert_eq!((refused.at("number").number(), status), (31, 3));
}

#[test]
fn refused_files_are_told_in_words() {
    for (day, said) in [
        (&[0; 7][..], "refused 30\n\n# a day's file has 2 to 16,384 words of four bytes each\n"),
        (
            &bytes(&[3, 0]),
            "refused 31\n\n# there is no such edition: a day's file has edition 1 or 2\n",
        ),
        (&bytes(&[1, 65]), "refused 32\n\n# there must be 0 to 64 bodies in edition 1, 0 to 48 in"),
        (&bytes(&[2, 49]), "refused 32\n"),
        (&bytes(&[1, 1, 4, -1]), "refused 34\n"),
        (&bytes(&[1, 0, 0]), "refused 35\n"),
    ] {
        for words in [&["day", "-"][..], &["unpack", "-", "nowhere"]] {
            let (found, errors, status) = ran(words, day);
            assert!(found.starts_with(said), "{words:?}: {found}");
            assert_eq!((errors.as_str(), status), ("", 3));
        }
    }
    assert!(!Path::new("nowhere").exists());
    for bodies in [ten_bodies(), vec![vec![7; 300]]] {
        let (said, _, status) = ran(&["solve", "-"], &file(1, &bodies));
        assert!(said.contains("#   this is a day's file: scatterflock day answers") && status == 3);
    }
    let (said, _, _) = ran(&["day", "-"], b"names x\nx >= 5\n ");
    assert!(said.contains("#   this file is a text: scatterflock pack makes"), "{said}");
}

#[test]
fn texts_words_and_numbers_are_packed() {
    let room = folder("pack");
    let out = path(&room, "monday.day");
    fs::write(room.join("a.txt"), "names zone\nzone >= 5\n").unwrap();
    fs::write(room.join("b.words"), bytes(&[1, 0, 3, 1, 0])).unwrap();
    fs::write(room.join("c.txt"), "names x\nx >= 0.25\n").unwrap();
    fs::write(room.join("d.words"), []).unwrap();
    let names = ["a.txt", "b.words", "c.txt", "d.words"].map(|name| path(&room, name));
    let [a, b, c, d] = names.each_ref().map(String::as_str);
    let (said, errors, status) = ran(&["pack", &out, a, b, c, d, "-"], b"1 0 2 0 7");
    assert_eq!((errors.as_str(), status), ("", 0));
    let lines: Vec<&str> = said.lines().collect();
    assert_eq!(lines.len(), 5, "{said}");
    assert!(lines[0].starts_with("body 0   5 words   ") && lines[0].ends_with("a.txt"), "{said}");
    assert!(lines[2].ends_with("its values count parts of 1/4"), "{said}");
    assert!(
        lines[3].contains("0 words") && lines[3].contains("refused 1: the words end"),
        "{said}"
    );
    assert!(lines[4].ends_with("standard input"), "{said}");
    let bodies = [
        vec![1, 0, 1, 5, 0],
        vec![1, 0, 3, 1, 0],
        vec![1, 0, 1, 1, 0],
        vec![],
        vec![1, 0, 2, 0, 7],
    ];
    assert_eq!(fs::read(&out).unwrap(), file(1, &bodies));
    assert_eq!(ran_bytes(&["pack", "-", a, b, c, d, "-"], b"1 0 2 0 7").0, file(1, &bodies));
    assert_eq!(ran(&["pack", &out, a], b"").2, 0);
    assert_eq!(fs::read(&out).unwrap(), file(1, &bodies[..1]));
}

#[test]
fn what_is_not_packed() {
    let room = folder("unpacked");
    let out = path(&room, "day");
    let [bad, odd, text] = ["bad.txt", "odd.words", "text.txt"].map(|name| path(&room, name));
    fs::write(&bad, "names x\nx >= y\n").unwrap();
    fs::write(&odd, [1, 2, 3]).unwrap();
    fs::write(&text, "names x\nx >= 5\n").unwrap();
    let many: Vec<&str> = ["pack", &out].into_iter().chain([text.as_str(); 65]).collect();
    let long = path(&room, "long.words");
    fs::write(&long, vec![0; 4 * 16_381]).unwrap();
    for (words, status, told) in [
        (&["pack", &out, &bad][..], 4, "bad.txt:2:6"),
        (&["pack", &out, &odd], 5, "odd.words: its 3 bytes are no whole number of words"),
        (&["pack", &out, "not-there.txt"], 5, "not-there.txt: it cannot be read"),
        (&["pack", &text, &text], 5, "text.txt: it is there and is no day's file"),
        (&["pack", &path(&room, "no/such"), &text], 5, "such: it cannot be written"),
        (&["pack", "/dev/full", &text], 5, "/dev/full: it cannot be written"),
        (&many, 3, "refused 32"),
        (&[&["--edition=2"], &many[..51]].concat(), 3, "refused 32"),
        (&["pack", "--edition=3", &out, &text], 3, "refused 31"),
        (&["pack", "--edition=0", &out, &text], 3, "refused 31"),
        (&["pack", "--edition=x", &out, &text], 4, "the edition is --edition=1 or --edition=2"),
        (&["pack", "--edition", "1", &out, &text], 4, "the edition is --edition=1"),
        (&["--edition=1", "day", "-"], 4, "--edition is an option of pack"),
        (&["pack", &out, &long], 3, "refused 30"),
        (&["pack", &out], 4, "pack takes the file to write, and then files"),
        (&["pack"], 4, "pack takes the file to write"),
        (&["pack", &out, "-", "-"], 4, "one of the files can be standard input"),
        (&["--json", "pack", &out, &text], 4, "--json is an option of solve, check"),
        (&["unpack", &out], 4, "unpack takes a file and a folder"),
        (&["unpack", "not-there.day", &out], 5, "not-there.day: it cannot be read"),
        (&["day"], 4, "day takes one file"),
        (&["--json", "--bare", "day", "-"], 4, "--bare is an option of day"),
        (&["--bare", "solve", "-"], 4, "--bare is an option of day"),
        (&["--each", "day", "-"], 4, "--each is an option of solve"),
        (&["--page", "pack", &out, &text], 4, "--page is an option of solve, times, day"),
        (&["unpak", &out, "x"], 4, "is it unpack?"),
    ] {
        let (output, errors, found) = ran(words, b"");
        assert!(
            found == status && (output + &errors).contains(told),
            "{words:?}: {errors} {found}"
        );
        assert!(!Path::new(&out).exists(), "{words:?}");
    }
    assert_eq!(fs::read_to_string(&text).unwrap(), "names x\nx >= 5\n");
}

#[test]
fn ten_bodies_unpacked() {
    let room = folder("ten");
    let day = file(1, &ten_bodies());
    let texts = path(&room, "a/b");
    let (said, errors, status) = ran(&["unpack", "-", &texts], &day);
    assert_eq!((errors.as_str(), status), ("", 0));
    assert_eq!(said.lines().count(), 10);
    let names: Vec<String> = files_in(Path::new(&texts)).into_iter().map(|file| file.0).collect();
    let expected = (0..10).map(|number| {
        let ending = if [2, 3, 4, 7].contains(&number) { "words" } else { "txt" };
        format!("body-{number:02}.{ending}")
    });
    assert_eq!(names, expected.collect::<Vec<String>>());
    let first = fs::read_to_string(room.join("a/b/body-01.txt")).unwrap();
    assert_eq!(first, "names x0\n1 <= x0 <= 0\n");
    let (_, errors, status) = ran(&["unpack", "-", &texts], &day);
    assert!(status == 5 && errors.contains("body-00.txt: it is there already"), "{errors}");
    let words = path(&room, "words");
    assert_eq!(ran(&["unpack", "--bytes", "-", &words], &day).2, 0);
    for (body, (name, content)) in ten_bodies().iter().zip(files_in(Path::new(&words))) {
        assert!(name.ends_with(".words") && content == bytes(body), "{name}");
    }
}

/// What is unpacked and packed again in its edition is the same file, byte for
/// byte.
#[test]
fn there_and_back() {
    let seed = seed();
    println!("SEED={seed}");
    let (mut days, mut texts) = ([0; 2], 0);
    for number in 0..150 {
        let mut random = Random::of_problem(seed, number);
        let day = random.pick(&[Family::Whole, Family::Many]).file(&mut random);
        let room = folder("back");
        let unpacked = path(&room, "bodies");
        assert_eq!(ran(&["unpack", "-", &unpacked], &day).2, 0, "SEED={seed}, {number}");
        let names: Vec<String> =
            files_in(Path::new(&unpacked)).into_iter().map(|file| file.0).collect();
        texts += names.iter().filter(|name| name.ends_with(".txt")).count();
        let files: Vec<String> =
            names.iter().map(|name| path(&room, &format!("bodies/{name}"))).collect();
        if files.is_empty() {
            continue;
        }
        let edition = format!("--edition={}", day[0]);
        let words: Vec<&str> =
            ["pack", &edition, "-"].into_iter().chain(files.iter().map(String::as_str)).collect();
        assert!(ran_bytes(&words, b"").0 == day, "SEED={seed}, {number}");
        days[usize::from(day[0]) - 1] += 1;
    }
    assert!(days.iter().all(|&days| days > 40) && texts > 500, "{days:?} {texts}, SEED={seed}");
}

/// The night shift's way: the texts in problems/ packed, and the day printed.
#[test]
fn the_texts_of_the_problems() {
    let room = folder("problems");
    let out = path(&room, "all.day");
    let shown = files::shown::all();
    let texts: Vec<String> = shown
        .iter()
        .map(|shown| {
            files::top().join(format!("problems/{}.txt", shown.name)).display().to_string()
        })
        .collect();
    let words: Vec<&str> =
        ["pack", &out].into_iter().chain(texts.iter().map(String::as_str)).collect();
    assert_eq!(ran(&words, b"").2, 0);
    let bodies: Vec<Vec<i32>> = shown.into_iter().map(|shown| shown.words).collect();
    assert_eq!(fs::read(&out).unwrap(), file(2, &bodies));
    let (said, _, status) = ran(&["day", &out], b"");
    let counts = format!("{} bodies in edition 2: ", bodies.len());
    assert!(said.starts_with(&counts) && said.contains("refused 10") && status == 3, "{said}");
}

/// A body of twenty rows makes the file edition 2; in edition 1 it is refused, and
/// the others are answered.
#[test]
fn twenty_rows() {
    let room = folder("rows");
    let out = path(&room, "rows.day");
    let [three, small] = ["oven-three", "a"]
        .map(|name| files::top().join(format!("problems/{name}.txt")).display().to_string());
    let (said, _, status) = ran(&["pack", &out, &three, &small], b"");
    assert!(status == 0 && said.contains("20 rows, which edition 2 allows"), "{said}");
    assert_eq!(fs::read(&out).unwrap()[0], 2);
    let (said, _, status) = ran(&["day", &out], b"");
    assert!(status == 0 && said.starts_with("2 bodies in edition 2: 2 can, "), "{said}");
    assert_eq!(ran(&["pack", &out, &small], b"").2, 0);
    assert_eq!(fs::read(&out).unwrap()[0], 1);

    let (said, _, status) = ran(&["pack", "--edition=1", &out, &three, &small], b"");
    assert!(status == 0 && said.contains("refused 2: there must be"), "{said}");
    assert_eq!(fs::read(&out).unwrap()[0], 1);
    let (said, _, status) = ran(&["day", &out], b"");
    assert!(said.starts_with("2 bodies: 1 can, 0 cannot, 0 out of range, 1 refused\n"), "{said}");
    assert!(said.contains("\n---- body 0, 200 words\nrefused 2\n") && status == 3, "{said}");
    let (said, _, status) = ran(&["--json", "day", &out], b"");
    let told = json::read(&said).unwrap();
    assert_eq!((told.at("bodies").list()[0].at("number").number(), status), (2, 3));
    assert!(ran(&["--bare", "day", &out], b"").0.starts_with("refused 2\ncan\n"));
    let (said, _, _) = ran(&["unpack", &out, &path(&room, "bodies")], b"");
    assert!(said.contains("body-00.words   200 words   refused 2"), "{said}");
}

/// Nobody reads on: the command says nothing, and its status tells.
#[test]
fn a_closed_pipe_is_silent() {
    for options in [&["day", "-"][..], &["--json", "day", "-"], &["--bare", "day", "-"]] {
        let mut child = Command::new(env!("CARGO_BIN_EXE_scatterflock"))
            .args(options)
            .stdin(Stdio::piped())
            .stdout(Stdio::piped())
            .stderr(Stdio::piped())
            .spawn()
            .unwrap();
        drop(child.stdout.take());
        child.stdin.take().unwrap().write_all(&file(1, &ten_bodies())).unwrap();
        let ran = child.wait_with_output().unwrap();
        assert_eq!((ran.status.code(), ran.stderr.len()), (Some(141), 0), "{options:?}");
    }
}

/// What docs/formats/bundle.md shows of the command is what it prints.
#[test]
fn the_page_shows_what_is_printed() {
    let room = folder("page");
    std::os::unix::fs::symlink(files::top().join("problems"), room.join("problems")).unwrap();
    let page = fs::read_to_string(files::top().join("docs/formats/bundle.md")).unwrap();
    let lines: String = page
        .lines()
        .map(|line| match line.strip_prefix("    ") {
            None if line.is_empty() => "\n".to_string(),
            None => "text\n".to_string(),
            Some(shown) => format!("{shown}\n"),
        })
        .collect();
    let shown: Vec<&str> = lines.split("$ scatterflock ").skip(1).collect();
    assert_eq!(shown.len(), 4);
    for shown in shown {
        let (words, expected) = shown.split_once('\n').unwrap();
        let expected = expected.split("\ntext\n").next().unwrap();
        let ran = Command::new(env!("CARGO_BIN_EXE_scatterflock"))
            .args(words.split(' '))
            .current_dir(&room)
            .output()
            .unwrap();
        assert_eq!(String::from_utf8(ran.stdout).unwrap(), expected, "{words}");
    }
}
