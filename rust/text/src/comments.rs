//! Comments that read as a limit.

use crate::constants::WORD;
use crate::labels::Labels;
use crate::names::Names;
use crate::opening::{self, Holds};
use crate::statement::statement;
use crate::tokens::{lines, Line};

/// How many places of a comment are looked at, from its end: more than a limit has
/// words.
const MOST_PLACES: usize = 64;

/// The lines of a text with a comment whose end reads as a limit or a time row of
/// its names: somebody may have left it out for a while and forgotten it, or a line
/// feed is missing behind a comment.
#[must_use]
pub fn left_out(text: &str) -> Vec<usize> {
    let Some(holds) = Holds::of(text) else { return vec![] };
    let mut all = lines(text).peekable();
    let Ok(mut names) = opening::names(text, &mut all, holds, usize::MAX) else { return vec![] };
    for line in all.flatten().map(Line::with_minutes).filter(|line| line.begins_with(WORD)) {
        // One that is at fault is told elsewhere, and no comment uses it.
        let _ = names.constants.define(&line, &names.list, &Labels::default());
    }
    let comments = text.split('\n').enumerate().filter_map(|(place, line)| {
        let mut comments = line.split('#').skip(1);
        comments.any(|comment| ends_in_limit(comment, &mut names)).then_some(place + 1)
    });
    comments.collect()
}

/// Whether a comment reads as a limit from one of its words on, or from a name or
/// a constant that its last word is glued to.
fn ends_in_limit(comment: &str, names: &mut Names) -> bool {
    if !comment.contains(['<', '>', '=']) {
        return false;
    }
    let is_part = |c: char| c.is_alphanumeric() || c == '_' || c == '.';
    let mut before = ' ';
    let starts = comment.char_indices().filter(|&(at, c)| {
        let is_inside = is_part(before) && is_part(c);
        let is_word = !c.is_whitespace() && !is_inside;
        before = c;
        let mut known = names.list.iter().map(String::as_str).chain(names.constants.names());
        is_word || known.any(|name| comment[at..].starts_with(name))
    });
    let starts: Vec<usize> = starts.map(|(at, _)| at).collect();
    let mut last = starts.iter().rev().take(MOST_PLACES);
    last.any(|&at| reads_as_limit(&comment[at..], names).is_some())
}

fn reads_as_limit(text: &str, names: &mut Names) -> Option<()> {
    let line = lines(text).next()?.ok()?.with_minutes();
    let line = names.constants.put_in(line).ok()?;
    let said = statement(&line, usize::from(line.begins_with("row"))).ok()?;
    let is_limit = said.lower.is_some() || said.upper.is_some();
    let known = said.terms.iter().all(|term| names.list.contains(&term.name));
    (is_limit && known).then_some(())
}

#[cfg(test)]
mod tests {
    use super::left_out;

    #[test]
    fn comments_that_read_as_limits() {
        let text = "# zone1 = 3\nnames zone1 zone2\nzone1 >= 1 # zone2 <= 4\n#zone2 >= 20\n\
                    # zone2 <= 40 was too cold\n## row zone1 - zone2 < 4 # a step\n# zone3 = 4\n#\n\
                    zone2 <= 9 # 75 at most\nzone1 < 9 # warmzone1 <= 4 # or so\n\
                    zone1 > 0 # warm20 <= zone1 <= 40\n";
        assert_eq!(left_out(text), [1, 3, 4, 6, 10, 11]);
        assert_eq!(left_out("times a b\na - b <= 1\n  # b < a\n"), [3]);
        assert_eq!(left_out("times a b\na - b <= 1 # as agreedb - a < 3\n"), [2]);
        assert_eq!(left_out("# x >= 1\n"), []);
        let constants =
            "names a\nlet low = 2\na >= low # a <= high\nlet high = 9 # of lowhigh >= a\n\
                         # a <= hig\n# let low = 3\na < high\n";
        assert_eq!(left_out(constants), [3, 4]);
    }
}
