//! The table that is printed.

use crate::contenders::Contender;

pub fn heading(contenders: &[Contender]) -> String {
    let (first, others) = contenders.split_first().expect("there is a yardstick");
    let mut line = format!("{:7}{:16}{:>10}", "what", "set", first.name);
    for other in others {
        line += &format!("{:>16}{:>8}", other.name, "ratio");
    }
    format!("{line}  {:>8}   can / cannot / range, of 100", "pivots")
}

pub fn line(what: &str, set: &str, times: &[f64], more: &str) -> String {
    let mut line = format!("{what:7}{set:16}{:10.0}", times[0]);
    for time in &times[1..] {
        line += &format!("{time:16.0}{:8.2}", time / times[0]);
    }
    format!("{line}  {more}").trim_end().to_string()
}
