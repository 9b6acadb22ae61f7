//! `scatterflock day`: the answers to all bodies of a day's file.

mod as_page;

pub use as_page::bodies;

use crate::digest::digest;
use crate::input::{self, Content, Input};
use crate::options::Options;
use crate::problem;
use crate::{json, solve, Ended, Failure, CAN, CANNOT, RANGE, REFUSED};
use progress::Progress;
use scatterflock::{Bundle, BundleRefusal, Problem, Refusal};
use std::ffi::OsStr;
use std::io::Read;

pub fn run(file: &OsStr, options: &Options, stdin: &mut dyn Read) -> Result<Ended, Failure> {
    let (name, bytes) = input::bytes(file, stdin)?;
    if options.bare {
        return Ok(bare(&bytes));
    }
    let bundle = read(&bytes)?;
    if options.page {
        return as_page::page(&name, &digest(&bytes), &bundle);
    }
    let bodies = under_way("day", &bundle);
    let told = bodies.map(|words| told(&name, &bundle, words, options));
    let told = told.collect::<Result<Vec<Ended>, Failure>>()?;
    let day = Day { file: name, bundle, told };
    Ok(if options.json { day.as_json() } else { day.as_text() })
}

/// The bodies of a bundle. Where they take long, a terminal says which one it is.
fn under_way<'a>(work: &str, bundle: &'a Bundle) -> impl Iterator<Item = &'a [i32]> {
    let mut progress = Progress::new(work, bundle.bodies().count() as u64);
    bundle.bodies().inspect(move |_| progress.step())
}

/// The bundle of a file.
pub fn read(bytes: &[u8]) -> Result<Bundle, Failure> {
    Bundle::read(bytes).map_err(|refusal| {
        let is_text = !bytes.contains(&0) && std::str::from_utf8(bytes).is_ok();
        let note = "this file is a text: scatterflock pack makes a day's file of texts";
        refused(refusal, if is_text { vec![note.to_string()] } else { vec![] })
    })
}

/// The refusal of a day's file, with lines that tell where it comes from.
pub fn refused(refusal: BundleRefusal, notes: Vec<String>) -> Failure {
    Failure::Refused { number: refusal.number(), what: refusal.to_string(), notes }
}

/// The proved text as it is, and the greatest status of its bodies.
fn bare(bytes: &[u8]) -> Ended {
    let text = scatterflock::day(bytes);
    let status = text.lines().map(|line| match line {
        "cannot" => CANNOT,
        "range" => RANGE,
        line if line.starts_with("refused") => REFUSED,
        _ => CAN,
    });
    let status = status.max().unwrap_or(CAN);
    Ended::saying(text, status)
}

/// The answer to a body, or its refusal.
fn told(name: &str, bundle: &Bundle, words: &[i32], options: &Options) -> Result<Ended, Failure> {
    let (file, digest) = (name.to_string(), String::new());
    let input = Input { file, digest, content: Content::Words(words.to_vec()) };
    let answered = match Problem::from_words_within(bundle.most_rows(), words) {
        Err(Refusal::Sizes) => Err(problem::refused(Refusal::Sizes, vec![])),
        _ => solve::answer(input, options),
    };
    match answered {
        Err(refused @ Failure::Refused { .. }) => Ok(refused.told(options.json)),
        answered => answered,
    }
}

struct Day {
    file: String,
    bundle: Bundle,
    /// What is said of each body.
    told: Vec<Ended>,
}

impl Day {
    /// The greatest of the statuses of the bodies.
    fn status(&self) -> u8 {
        self.told.iter().map(|told| told.status).max().unwrap_or(CAN)
    }

    /// The numbers of the bodies that have each status, from 0 to 3.
    fn by_status(&self) -> [Vec<usize>; 4] {
        [CAN, CANNOT, RANGE, REFUSED].map(|status| {
            let numbered = self.told.iter().enumerate();
            numbered.filter(|(_, told)| told.status == status).map(|(number, _)| number).collect()
        })
    }

    fn as_text(&self) -> Ended {
        let by_status = self.by_status();
        let [can, cannot, range, refused] = by_status.each_ref().map(Vec::len);
        let bodies = match self.told.len() {
            1 => "1 body".to_string(),
            count => format!("{count} bodies"),
        };
        let bodies = match self.bundle.edition() {
            1 => bodies,
            edition => format!("{bodies} in edition {edition}"),
        };
        let mut said = format!(
            "{bodies}: {can} can, {cannot} cannot, {range} out of range, {refused} refused\n"
        );
        for (what, bodies) in ["cannot", "out of range", "refused"].iter().zip(&by_status[1..]) {
            let numbers: String = bodies.iter().map(|number| format!(" {number}")).collect();
            said += &if bodies.is_empty() { String::new() } else { format!("{what}:{numbers}\n") };
        }
        for (number, (words, told)) in self.bundle.bodies().zip(&self.told).enumerate() {
            let answer = String::from_utf8_lossy(&told.output);
            said += &format!("\n---- body {number}, {}\n{answer}", count_text(words));
        }
        Ended::saying(said, self.status())
    }

    fn as_json(&self) -> Ended {
        let bodies = self.told.iter().enumerate().map(|(number, told)| {
            let answer = String::from_utf8_lossy(&told.output);
            let fields = answer.trim_end().trim_start_matches('{');
            format!("{{\"body\":{number},{fields}")
        });
        let bodies = json::list(bodies);
        let [can, cannot, range, refused] = self.by_status().map(|bodies| bodies.len().to_string());
        let fields = [
            ("file", json::text(&self.file)),
            ("edition", self.bundle.edition().to_string()),
            ("can", can),
            ("cannot", cannot),
            ("range", range),
            ("refused", refused),
            ("bodies", bodies),
        ];
        Ended::saying(json::object(&fields), self.status())
    }
}

/// How many words there are.
pub fn count_text(words: &[i32]) -> String {
    match words.len() {
        1 => "1 word".to_string(),
        count => format!("{count} words"),
    }
}
