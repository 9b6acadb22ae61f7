//! One day's file through its auditor's sheet. Every byte that is lent is compared.

use crate::archive;
use crate::lent::Lent;
use problems::audits::audited;
use problems::bundles::Family;
use problems::random::Random;

/// What the room for a sheet is before it is lent.
const BYTE: u8 = 0xa5;

/// The figures of a sheet, or the file's refusal.
pub struct Outcome {
    /// 0, or the refusal of the file.
    pub number: u32,
    /// Each line above those of the variables, by its name.
    pub counts: Vec<(String, u64)>,
    /// How often a limit is named.
    pub named: u64,
    /// Whether no body has a verdict.
    pub without_verdict: bool,
}

/// Compares a file of many bodies, every third time one of a family of files.
pub fn compare(random: &mut Random) -> Result<Outcome, String> {
    let family = Family::ALL[random.below(Family::ALL.len())];
    let file = if random.percent(33) { family.file(random) } else { audited(random) };
    let shown = |what: String| format!("{what}, in a file of {} bytes", file.len());
    let text = reference::sheet_text(&file);
    let rooms = [random.below(text.len()), text.len() - 1, text.len(), text.len() + 9];
    for room in rooms {
        compare_sheet(&file, room).map_err(shown)?;
    }
    Ok(outcome(&String::from_utf8_lossy(&text)))
}

/// The sheet in so many bytes: they hold it, or are kept.
pub fn compare_sheet(file: &[u8], room: usize) -> Result<(), String> {
    let read = Lent::new(file, !BYTE);
    let mut out = Lent::new(&vec![BYTE; room], !BYTE);
    let length = archive::sheet(read.lent(), out.lent_mut());
    if read.back()? != file {
        return Err("the file that was read has changed".to_string());
    }
    let found = out.back()?;
    let mut expected = vec![BYTE; room];
    let expected_length = reference::sheet(file, &mut expected);
    if (length, &found) != (expected_length, &expected) {
        let [found, expected] =
            [found, expected].map(|bytes| String::from_utf8_lossy(&bytes).into_owned());
        return Err(format!(
            "in {room} bytes its sheet of {length} is\n{found}\nand that of the reference, of \
             {expected_length},\n{expected}"
        ));
    }
    Ok(())
}

fn outcome(text: &str) -> Outcome {
    let lines: Vec<Vec<&str>> = text.lines().map(|line| line.split(' ').collect()).collect();
    let figure = |digits: &str| digits.parse::<u64>().expect("it is a figure");
    if let [line] = &lines[..] {
        let number = figure(line[1]) as u32;
        return Outcome { number, counts: vec![], named: 0, without_verdict: false };
    }
    let is_named = |line: &&Vec<&str>| line[1] == "lower";
    let named = lines.iter().filter(is_named).map(|line| figure(line[2]) + figure(line[4])).sum();
    let counts = lines.iter().filter(|line| !is_named(line)).map(|line| match line[..] {
        ["refused", number, count] => (format!("refused {number}"), figure(count)),
        _ => (line[0].to_string(), figure(line[1])),
    });
    let counts = counts.collect();
    Outcome { number: 0, counts, named, without_verdict: text.contains(" body none\n") }
}
