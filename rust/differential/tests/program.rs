//! The program `ramp` on random and damaged bytes, against the text of the
//! reference. What it prints is what `lines::respond` makes of what it reads.

use problems::limits::Family;
use problems::random::{seed, Random};
use std::collections::BTreeMap;
use std::io::{ErrorKind, Write};
use std::process::{Command, Stdio};

const INPUTS: u64 = 400;
/// One word more than the largest problem has, and some.
const MOST_BYTES: usize = 1_200;
const PROGRAM: &str = concat!(env!("CARGO_MANIFEST_DIR"), "/../../target/bin/ramp");

/// What the program prints. It is code for x86-64.
fn printed(input: &[u8]) -> Vec<u8> {
    let mut command = if cfg!(target_arch = "x86_64") {
        Command::new(PROGRAM)
    } else {
        let mut command = Command::new("qemu-x86_64");
        command.args(["-L", "/usr/x86_64-linux-gnu", PROGRAM]);
        command
    };
    let mut child =
        command.stdin(Stdio::piped()).stdout(Stdio::piped()).spawn().unwrap_or_else(|error| {
            panic!("{command:?} does not start: {error}; tools/program ramp")
        });
    let given = child.stdin.take().expect("it is piped").write_all(input);
    // It does not read on where there are more bytes than a problem has.
    assert!(given.is_ok() || given.is_err_and(|error| error.kind() == ErrorKind::BrokenPipe));
    let ended = child.wait_with_output().expect("it ends");
    assert!(ended.status.success(), "{} for {input:?}; tools/program ramp", ended.status);
    ended.stdout
}

/// Bytes of any kind; or a problem's, as they are or with a few changed, cut off
/// or added.
fn bytes(random: &mut Random) -> Vec<u8> {
    if random.percent(15) {
        let count = random.below(MOST_BYTES);
        return (0..count).map(|_| random.bits() as u8).collect();
    }
    let words = Family::ALL[random.below(Family::ALL.len())].words(random);
    let mut bytes: Vec<u8> = words.iter().flat_map(|word| word.to_le_bytes()).collect();
    match random.below(5) {
        0 => bytes.truncate(random.below(bytes.len() + 1)),
        1 => bytes.extend((0..random.size(1, 8)).map(|_| 0)),
        2 if !bytes.is_empty() => {
            for _ in 0..random.size(1, 3) {
                let place = random.below(bytes.len());
                bytes[place] ^= 1 << random.below(8);
            }
        }
        _ => {}
    }
    bytes
}

/// A least share is four standard deviations below what is expected, or lower.
#[test]
fn random_and_damaged_bytes() {
    let seed = seed();
    println!("SEED={seed}");
    let mut first_words: BTreeMap<String, u64> = BTreeMap::new();
    for input in 0..INPUTS {
        let bytes = bytes(&mut Random::of_problem(seed, input));
        let [found, wanted] = [printed(&bytes), reference::respond(&bytes)];
        assert_eq!(found, wanted, "SEED={seed}, input {input}: {bytes:?}");
        let text = String::from_utf8(wanted).expect("a text has plain letters");
        let line = text.lines().next().expect("something is always printed");
        *first_words.entry(line.to_string()).or_default() += 1;
    }
    println!("{first_words:?}");
    for (line, least) in [("can", 30), ("cannot", 30), ("refused 2", 3), ("refused 3", 100)] {
        assert!(first_words.get(line) > Some(&least), "{line}, SEED={seed}");
    }
}

/// Each count of bytes around the fewest and the most.
#[test]
fn counts_at_the_edges() {
    for count in (0..14).chain(1_150..1_175) {
        let bytes = vec![1; count];
        assert_eq!(printed(&bytes), reference::respond(&bytes), "{count} bytes");
    }
}
