//! Words of the command line, files, and output.

use super::{bytes, ran};
use std::fs::{self, File};
use std::io::Write;
use std::path::PathBuf;
use std::process::{Command, Stdio};

fn program() -> Command {
    let mut command = Command::new(env!("CARGO_BIN_EXE_scatterflock"));
    command.current_dir(PathBuf::from(env!("CARGO_MANIFEST_DIR")).join("../.."));
    command
}

#[test]
fn usage_and_files() {
    for (words, status, what) in [
        (&[][..], 4, "there is no command"),
        (&["melt", "-"], 4, "there is no command melt;"),
        (&["slove", "-"], 4, "there is no command slove; is it solve?"),
        (&["--jsno", "solve", "-"], 4, "there is no option --jsno; is it --json?"),
        (&["solve"], 4, "solve takes one file"),
        (&["check", "-"], 4, "check takes two files"),
        (&["check", "-", "-"], 4, "not both"),
        (&["solve", "--fast", "-"], 4, "there is no option --fast"),
        (&["solve", "--bytes", "-"], 4, "--bytes is an option of words, trace and unpack"),
        (&["trace", "--times", "-"], 4, "--times is an option of check and words"),
        (&["check", "--wide", "--times", "-", "a"], 4, "and not beside --wide"),
        (&["trace"], 4, "trace takes one file"),
        (&["replay", "-"], 4, "replay takes two files"),
        (&["replay", "-", "-"], 4, "not both"),
        (&["times", "--each", "-"], 4, "--each is an option of solve"),
        (&["--page", "solve", "--first", "-"], 4, "--first is an option of solve, and not beside"),
        (&["trace", "--first", "-"], 4, "--first is an option of solve, and not beside"),
        (&["times", "--wide", "-"], 4, "--wide is an option of solve and check"),
        (&["solve", "no-such-file"], 5, "it cannot be read"),
        (&["solve", "."], 5, "it cannot be read"),
        (&["solve", "--", "--json"], 5, "it cannot be read"),
    ] {
        let (output, errors, found) = ran(words, b"");
        assert_eq!((output.as_str(), found), ("", status), "{words:?}");
        assert!(errors.contains(what), "{words:?}: {errors}");
    }
    let (output, _, status) = ran(&["words", "--json", "-"], b"");
    let what = "--json is an option of solve, check, times, day, audit, trace and replay";
    assert_eq!((output, status), (format!("{{\"error\":\"{what}\"}}\n"), 4));
    let (_, errors, status) = ran(&["solve", "-"], &vec![b'#'; 2 << 20]);
    assert!(status == 5 && errors.contains("longer"), "{errors}");
    let wide = |text: &str| text.encode_utf16().flat_map(u16::to_le_bytes).collect::<Vec<u8>>();
    for text in ["names x\nx >= 1\n", "\u{feff}names x\nx >= 1 # \u{b0}\n"] {
        let path = PathBuf::from(env!("CARGO_TARGET_TMPDIR")).join("wide.txt");
        fs::write(&path, wide(text)).unwrap();
        for (file, input) in [("-", wide(text)), (path.to_str().unwrap(), vec![])] {
            let (_, errors, status) = ran(&["solve", file], &input);
            let told = errors.contains(":1:1: this text is UTF-16: save it as UTF-8");
            assert!(status == 4 && told, "{errors}");
        }
    }
    for name in ["some.bin", "SOME.WORDS"] {
        let path = PathBuf::from(env!("CARGO_TARGET_TMPDIR")).join(name);
        fs::write(&path, bytes(&[1, 0, 1, 1, 0])).unwrap();
        assert_eq!(ran(&["words", path.to_str().unwrap()], b"").0, "names x0\nx0 >= 1\n");
    }
    let long = format!("names x\nx >= 1{}\n", " + (".repeat(200_000));
    for text in
        [&long, &long.replace('(', "y"), &long.replace(" + (", "9"), &long.replace(" + (", "y")]
    {
        let (_, errors, status) = ran(&["solve", "-"], text.as_bytes());
        assert!(status == 4 && errors.len() < 500, "{} bytes", errors.len());
    }
    let (_, errors, status) = ran(&["solve", "-"], b"names x\n# \xff");
    assert_eq!(status, 4);
    assert!(
        errors.starts_with("standard input:2:3: this byte is no text: save it as UTF-8"),
        "{errors}"
    );
}

/// Every option with every command: taken by those whose usage has it, and by no
/// others.
#[test]
fn options_are_taken_as_the_usage_has_them() {
    let help = ran(&["--help"], b"").0;
    let usage = help.lines().take_while(|line| !line.is_empty());
    let usage: Vec<&str> = usage.map(|line| line.split_once("scatterflock ").unwrap().1).collect();
    let commands = ["solve", "check", "times", "words", "smtlib", "edit", "day", "audit", "pack"];
    let options = ["--json", "--page", "--words", "--each", "--times", "--bytes", "--bare"];
    let mut taken = 0;
    for command in commands.into_iter().chain(["unpack", "trace", "replay"]) {
        let line = usage.iter().find(|line| line.split(' ').any(|word| word == command)).unwrap();
        let files = line.split(&format!("{command} ")).nth(1).unwrap().split(' ');
        let files = files.filter(|word| !word.starts_with('[') && !word.ends_with(']')).count();
        for option in options.into_iter().chain(["--edition=1"]) {
            let words = [&[option, command], &["no-such-folder/a"; 2][..files]].concat();
            let (_, errors, _) = ran(&words, b"");
            let name = option.split('=').next().unwrap();
            let is_taken = !errors.contains(&format!("{name} is an option of "));
            let is_told = line.split(['[', ']', ' ', '=']).any(|word| word == name);
            assert_eq!(is_taken, is_told, "{words:?}: {errors}");
            taken += usize::from(is_taken);
        }
    }
    assert_eq!(taken, 22);
}

/// The man page and the completion know every command and every option.
#[test]
fn the_man_page_and_the_completion_have_all_words() {
    let help = ran(&["--help"], b"").0;
    let words = help.split([' ', '\n', '[', ']', ',', '=']);
    let options = words.filter(|word| word.starts_with("--") && word.len() > 2);
    let commands = help.lines().filter_map(|line| line.strip_prefix("  ")?.split(' ').next());
    let commands = commands.filter(|word| word.starts_with(|c: char| c.is_ascii_lowercase()));
    let [page, completion] = ["docs/scatterflock.1", "tools/scatterflock.bash"]
        .map(|file| fs::read_to_string(files::top().join(file)).unwrap().replace('\\', ""));
    let mut count = 0;
    for word in options.chain(commands) {
        let is_in = |text: &str| {
            text.split(|c: char| !c.is_ascii_alphanumeric() && c != '-').any(|part| part == word)
        };
        assert!(is_in(&page), "docs/scatterflock.1 has no {word}");
        assert!(is_in(&completion), "tools/scatterflock.bash has no {word}");
        count += 1;
    }
    assert!(count > 30, "{count} words");
}

#[test]
fn bytes_are_refused_as_the_program_does() {
    for (length, number) in [(0, 1), (7, 1), (9, 3), (812, 2), (1_160, 2), (1_164, 3)] {
        let path = PathBuf::from(env!("CARGO_TARGET_TMPDIR")).join("some.words");
        fs::write(&path, vec![0; length]).unwrap();
        let (output, _, status) = ran(&["solve", path.to_str().unwrap()], b"");
        assert_eq!((output.lines().next(), status), (Some(&format!("refused {number}")[..]), 3));
    }
}

#[test]
fn a_full_disk_is_told_and_a_closed_pipe_is_not() {
    let full = File::options().write(true).open("/dev/full").unwrap();
    let ran = program().args(["solve", "problems/a.txt"]).stdout(full).output().unwrap();
    assert_eq!(ran.status.code(), Some(5));
    let said = String::from_utf8(ran.stderr).unwrap();
    assert!(said.starts_with("scatterflock: the output cannot be written"), "{said}");

    let mut child = program()
        .args(["solve", "-"])
        .stdin(Stdio::piped())
        .stdout(Stdio::piped())
        .stderr(Stdio::piped())
        .spawn()
        .unwrap();
    drop(child.stdout.take());
    child.stdin.take().unwrap().write_all(b"names x\nx >= 1\n").unwrap();
    let ran = child.wait_with_output().unwrap();
    assert_eq!((ran.status.code(), ran.stderr.len()), (Some(141), 0));
}
