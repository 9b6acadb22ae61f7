//! What would be read as something else than was meant.

use crate::fault::Fault;
use crate::tokens::{Kind, Line, Sign, Token};

/// The fault of an item of a list, of a minus with nothing before it, of two
/// limits, of a sign in two pieces, or of a range.
pub fn misleading(line: &Line, tokens: &[Token]) -> Option<Fault> {
    if let [Token { kind: first @ (Kind::Plus | Kind::Minus), column }, next, ..] = tokens {
        if next.column > column + 1 {
            let sign = if *first == Kind::Minus { "minus" } else { "plus" };
            let what =
                format!("a line is no item of a list; where {sign} is meant, leave no space");
            return Some(line.fault(*column, what));
        }
    }
    for three in tokens.windows(3) {
        let (Kind::Sign(_), Kind::Plus | Kind::Minus) = (&three[0].kind, &three[1].kind) else {
            continue;
        };
        if three[2].column > three[1].column + 1 {
            let sign = if three[1].kind == Kind::Minus { "minus" } else { "plus" };
            let what =
                format!("something is missing before this; where {sign} is meant, leave no space");
            return Some(line.fault(three[1].column, what));
        }
    }
    for three in tokens.windows(3) {
        let [before, word, next] = [0, 1, 2].map(|place| &three[place].kind);
        let is_thing = |kind: &Kind| kind.is_number() || matches!(kind, Kind::Name(_));
        let Kind::Name(word) = word else { continue };
        if !is_thing(before) || !is_thing(next) {
            continue;
        }
        let what = match word.as_str() {
            "and" => "a line has one limit: what stands behind and begins a new one",
            "or" => "there is no or: all lines have to hold together",
            _ => continue,
        };
        return Some(line.fault(three[1].column, what));
    }
    for pair in tokens.windows(2) {
        let what = match (&pair[0].kind, &pair[1].kind) {
            (Kind::Sign(Sign::Below), Kind::Sign(Sign::Equal)) => "write <= in one piece",
            (Kind::Sign(Sign::Above), Kind::Sign(Sign::Equal)) => "write >= in one piece",
            _ => continue,
        };
        return Some(line.fault(pair[0].column, what));
    }
    let mut sides = tokens.split(|token| matches!(token.kind, Kind::Sign(_)));
    let range = sides.find(|side| match side {
        [low, minus, high] => {
            low.kind.is_number() && high.kind.is_number() && minus.kind == Kind::Minus
        }
        _ => false,
    })?;
    let is_constant = |token: &Token| matches!(token.kind, Kind::Constant(_));
    let what = match range.iter().any(is_constant) {
        true => {
            "a range is written low <= x <= high; add a constant on the other side to take it off"
        }
        false => "a range is written 20 <= x <= 40; for a difference write the number",
    };
    Some(line.fault(range[0].column, what))
}
