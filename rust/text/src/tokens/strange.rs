//! Characters that no line has.

/// Whether it is a space, and looks like one. That of Ogham looks like a dash.
pub fn is_space(c: char) -> bool {
    c.is_whitespace() && c != '\u{1680}'
}

/// Whether a screen may show a new line here, another order of the characters, or
/// something else in place of others, so that a comment hides a limit or looks
/// like one.
pub fn is_unseen(c: char) -> bool {
    let is_control = c.is_control() && c != '\t';
    let is_end = matches!(c, '\u{2028}' | '\u{2029}');
    let is_turn = matches!(c, '\u{61c}' | '\u{200e}' | '\u{200f}');
    is_control
        || is_end
        || is_turn
        || matches!(c, '\u{202a}'..='\u{202e}' | '\u{2066}'..='\u{2069}')
}

/// What to say of such a character.
pub fn unseen(c: char) -> String {
    format!("the character {} changes what a screen shows of a line: leave it out", shown(c))
}

/// A character, or its number where it would not be seen.
fn shown(c: char) -> String {
    match c {
        c if c.is_ascii_graphic() => c.to_string(),
        c if c.is_ascii() || c.is_whitespace() => c.escape_unicode().to_string(),
        c => c.escape_debug().to_string(),
    }
}

/// What to say of a character that no line has.
pub fn no_meaning(c: char) -> String {
    let advice = match c {
        '(' | ')' | '[' | ']' | '{' | '}' => ": there are none, write 2 x + 2 y for 2 (x + y)",
        ';' => ": the end of a line ends a limit",
        ':' => ": it stands behind the name of a line, as in budget: x + y <= 3",
        ',' => ": names have a space between them, and a decimal has a point",
        '&' => ": a line has one limit",
        '|' => ": there is no \"or\", and no size of a difference",
        '^' => ": only a number and a name can be multiplied",
        '"' | '\'' | '`' => ": names and numbers stand by themselves",
        '\u{b0}' | '%' | '$' | '\u{20ac}' | '\u{b5}' | '\u{2103}' | '\u{2109}' | '\u{2126}' => {
            ": a unit is left out, or stands in a comment"
        }
        c if c.is_alphabetic() => ": letters of names are those from a to z",
        c if c.is_numeric() => ": digits are those from 0 to 9",
        _ => "",
    };
    format!("the character {} has no meaning here{advice}", shown(c))
}
