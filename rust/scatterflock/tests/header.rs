//! include/scatterflock.h, compiled as C and as C++: `header.c`, `bundle.c` and
//! `sheet.c` call the archive through it and compare what it gives, `stable.c`
//! lists what stays of it, and `examples/planner.c` is run. Where the machine is
//! not x86-64 that is done twice: with the archive that is linked here, and with
//! the code for x86-64 under an emulator.

use scatterflock::{
    number_text, raw, sizes, BundleRefusal, Refusal, SmtlibRefusal, SwitchRefusal, TimesRefusal,
};
use std::collections::BTreeMap;
use std::fs;
use std::path::{Path, PathBuf};
use std::process::{Command, Output};

#[test]
fn as_c() {
    calls_through("gcc", "c", "c99");
}

#[test]
fn as_cpp() {
    calls_through("g++", "c++", "c++11");
}

#[test]
fn the_planner_runs() {
    for machine in machines() {
        let said = machine.runs("gcc", &["-std=c99"], "../../examples/planner.c", "planner");
        assert_eq!(said, "zone 0: 45/1 degrees\nzone 1: 95/1 degrees\n");
    }
}

#[test]
fn the_header_quotes_the_planner() {
    let [header, planner] = ["include/scatterflock.h", "examples/planner.c"].map(read);
    let quoted: Vec<&str> = header
        .lines()
        .filter_map(|line| line.strip_prefix(" *     "))
        .take_while(|line| !line.starts_with("words can be read"))
        .collect();
    assert!(quoted.len() > 6, "{quoted:?}");
    let lines: Vec<&str> = planner.lines().map(str::trim).collect();
    for line in quoted {
        assert!(lines.contains(&line.trim()), "examples/planner.c has no line {line}");
    }
}

#[test]
fn the_names_of_the_header_are_those_of_the_crate() {
    let header = read("include/scatterflock.h");
    let named = named(&header);
    let camel = |debug: String| {
        let split = |c: char| if c.is_uppercase() { format!("_{c}") } else { c.to_string() };
        debug.chars().map(split).collect::<String>().trim_matches('_').to_uppercase()
    };
    for refusal in Refusal::ALL {
        assert_eq!(named[&camel(format!("{refusal:?}"))[..]], refusal.number());
    }
    for refusal in TimesRefusal::ALL {
        let name = format!("TIMES_{}", camel(format!("{refusal:?}")));
        assert_eq!(named[&name[..]], refusal.number());
    }
    for refusal in SwitchRefusal::ALL {
        let name = format!("SWITCH_{}", camel(format!("{refusal:?}")));
        assert_eq!(named[&name[..]], refusal.number());
    }
    for refusal in BundleRefusal::ALL {
        let name = format!("BUNDLE_{}", camel(format!("{refusal:?}")));
        assert_eq!(named[&name[..]], refusal.number());
    }
    assert_eq!(named["SMTLIB_TOKEN"], SmtlibRefusal::NUMBER);
    for (name, size) in [
        ("MOST_VARIABLES", sizes::MOST_VARIABLES),
        ("MOST_ROWS", sizes::MOST_ROWS),
        ("LARGEST_COEFFICIENT", sizes::LARGEST_COEFFICIENT as usize),
        ("LARGEST_LIMIT", sizes::LARGEST_LIMIT as usize),
        ("LARGEST_NUMBER", sizes::LARGEST_NUMBER as usize),
        ("MOST_WORDS", sizes::MOST_WORDS),
        ("MOST_ANSWER", sizes::MOST_ANSWER),
        ("MOST_WIDE", sizes::MOST_WIDE),
        ("MOST_VERTICES", sizes::MOST_VERTICES),
        ("MOST_TIME_ROWS", sizes::MOST_TIME_ROWS),
        ("LARGEST_LENGTH", sizes::LARGEST_LENGTH as usize),
        ("MOST_TIME_WORDS", 2 + 4 * sizes::MOST_TIME_ROWS),
        ("MOST_TIMES", sizes::MOST_TIMES),
        ("SLICE_WORDS", size_of::<raw::Slice>() / 8 - 1),
        ("SESSION_WORDS", size_of::<raw::Session>() / 8),
        ("MOST_BODIES", sizes::MOST_BODIES),
        ("FIRST_BODIES", sizes::FIRST_BODIES),
        ("FIRST_ROWS", sizes::FIRST_ROWS),
        ("SECOND_BODIES", sizes::SECOND_BODIES),
        ("MOST_FILE_WORDS", sizes::MOST_FILE_WORDS),
        ("MOST_DAY_TEXT", sizes::MOST_DAY_TEXT),
        ("MOST_SHEET", sizes::MOST_SHEET),
    ] {
        assert_eq!(named[name] as usize, size, "{name}");
    }
    let small = format!("#define SCATTERFLOCK_LARGEST_SMALL INT64_C({})", sizes::LARGEST_SMALL);
    assert!(header.lines().any(|line| line.starts_with(&small)), "{small}");
}

#[test]
fn each_number_has_the_same_words_in_c_and_in_python() {
    let header = read("include/scatterflock.h");
    let returned = header.split("/* What the functions return. More refusals may come. */");
    let listed = returned.last().unwrap().split("};").next().unwrap();
    let mut numbers: Vec<u32> = listed
        .lines()
        .filter_map(|line| line.split_once(" = "))
        .map(|(_, number)| number.split([',', ' ']).next().unwrap().parse().unwrap())
        .collect();
    numbers.sort_unstable();
    assert!(numbers.len() > 30, "{numbers:?}");
    let told = |number: &u32| number_text(*number).map(|text| format!("{number} {text}\n"));
    let expected: String = numbers.iter().filter_map(told).collect();
    assert_eq!(expected, (0..200).filter_map(|number| told(&number)).collect::<String>());
    assert_eq!(expected.lines().count(), numbers.len(), "{expected}");
    for (compiler, language, standard) in [("gcc", "c", "-std=c99"), ("g++", "c++", "-std=c++11")] {
        let options = ["-x", language, standard];
        let name = format!("texts-{language}");
        assert_eq!(machines()[0].runs(compiler, &options, "tests/texts.c", &name), expected);
    }
    let module = read("python/scatterflock.py");
    let table = module.split("TEXTS = {\n").nth(1).unwrap().split("}\n").next().unwrap();
    let table: String =
        table.lines().map(|line| line.trim().replace(": \"", " ").replace("\",", "\n")).collect();
    assert_eq!(format!("0 answered\n{table}"), expected);
}

/// Each row of the page's tables: a number, its name in the header, its text.
#[test]
fn numbers_are_those_of_the_page() {
    let [header, page] = ["include/scatterflock.h", "docs/formats/numbers.md"].map(read);
    let named = named(&header);
    let mut numbers = Vec::new();
    for line in page.lines().filter(|line| line.starts_with("| ")) {
        let cells: Vec<&str> = line.trim_matches(['|', ' ']).split(" | ").collect();
        let Ok(number) = cells[0].parse() else { continue };
        assert_eq!(named.get(cells[1].trim_matches('`')), Some(&number), "{line}");
        assert_eq!(number_text(number).as_deref(), Some(cells[2]), "{line}");
        numbers.push(number);
    }
    numbers.sort_unstable();
    let all = [0..=17, 30..=36, 41..=44, 51..=54, 60..=60];
    assert_eq!(numbers, all.into_iter().flatten().collect::<Vec<u32>>());
}

#[test]
fn one_version() {
    let version = env!("CARGO_PKG_VERSION");
    assert_eq!(read("VERSION").trim_end(), version);
    assert!(read("CHANGELOG.md").contains(&format!("\n## {version}")));
    let header = read("include/scatterflock.h");
    let mut parts = version.split('.');
    for (name, part) in [
        ("", format!("\"{version}\"")),
        ("_MAJOR", parts.next().unwrap().to_string()),
        ("_MINOR", parts.next().unwrap().to_string()),
        ("_PATCH", parts.next().unwrap().to_string()),
    ] {
        assert!(header.contains(&format!("#define SCATTERFLOCK_VERSION{name} {part}\n")), "{name}");
    }
}

fn here() -> &'static Path {
    Path::new(env!("CARGO_MANIFEST_DIR"))
}

/// The numbers that the header gives names.
fn named(header: &str) -> BTreeMap<&str, u32> {
    header
        .lines()
        .filter_map(|line| line.trim().strip_prefix("SCATTERFLOCK_")?.split_once(" = "))
        .map(|(name, number)| {
            let digits = number.split([',', ' ']).next().unwrap();
            (name, digits.parse().unwrap())
        })
        .collect()
}

/// A file, from the top of the repository.
fn read(file: &str) -> String {
    fs::read_to_string(here().join("../..").join(file)).unwrap()
}

fn calls_through(compiler: &str, language: &str, standard: &str) {
    for machine in machines() {
        let standard = format!("-std={standard}");
        let most = format!("-DMOST_SMTLIB={}", sizes::MOST_SMTLIB);
        for source in ["header", "bundle", "sheet", "stable"] {
            let (name, source) = (format!("{source}-{language}"), format!("tests/{source}.c"));
            machine.runs(compiler, &["-x", language, &standard, &most], &source, &name);
        }
    }
}

/// An archive, and how programs with it are made and run.
struct Machine {
    archive: PathBuf,
    is_emulated: bool,
}

fn machines() -> Vec<Machine> {
    let linked = Machine { archive: env!("SCATTERFLOCK_LIBRARY").into(), is_emulated: false };
    if cfg!(target_arch = "x86_64") {
        return vec![linked];
    }
    let archive = here().join("../../target/staticlib/libscatterflock.a");
    vec![linked, Machine { archive, is_emulated: true }]
}

impl Machine {
    /// Compiles a file, with the archive and these options, and runs it.
    fn runs(&self, compiler: &str, options: &[&str], source: &str, name: &str) -> String {
        let program = self.program(name);
        let mut compile = Command::new(self.compiler(compiler));
        compile.args(["-O2", "-Wall", "-Wextra", "-Wpedantic", "-Werror", "-I"]);
        compile.arg(here().join("../../include")).args(options).arg(here().join(source));
        compile.args(["-x", "none"]).arg(&self.archive).arg("-o").arg(&program);
        succeeds(compile);
        succeeds(self.run(&program))
    }

    fn compiler(&self, name: &str) -> String {
        if self.is_emulated {
            format!("x86_64-linux-gnu-{name}")
        } else {
            name.to_string()
        }
    }

    fn program(&self, name: &str) -> PathBuf {
        let ending = if self.is_emulated { "-emulated" } else { "" };
        Path::new(env!("CARGO_TARGET_TMPDIR")).join(format!("{name}{ending}"))
    }

    fn run(&self, program: &Path) -> Command {
        if !self.is_emulated {
            return Command::new(program);
        }
        let mut emulated = Command::new("qemu-x86_64");
        emulated.args(["-L", "/usr/x86_64-linux-gnu"]).arg(program);
        emulated
    }
}

fn succeeds(mut command: Command) -> String {
    let Output { status, stdout, stderr } =
        command.output().unwrap_or_else(|error| panic!("{command:?} does not start: {error}"));
    let said = String::from_utf8_lossy(&stdout).into_owned();
    let error = String::from_utf8_lossy(&stderr);
    assert!(status.success(), "{command:?} ends with {status}: {said}{error}");
    said
}
