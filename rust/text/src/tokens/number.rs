//! Numbers of a line, and what is none.

use super::{short, Kind};

/// Everything that somebody may have meant as one number.
pub fn number(chars: &[char]) -> Result<(Kind, usize), String> {
    let is_part = |c: &char| c.is_alphanumeric() || matches!(c, '_' | '.' | ',');
    let text: String = chars.iter().take_while(|c| is_part(c)).collect();
    if let Some(minutes) = clock(&text, &chars[text.chars().count()..])? {
        return Ok((Kind::Clock(minutes), CLOCK.len()));
    }
    if text.chars().all(|c| c.is_ascii_digit()) {
        let number = text.parse().map_err(|_| format!("{} is out of range", short(&text)))?;
        return Ok((Kind::Number(number), text.len()));
    }
    if let Some(decimal) = decimal(&text)? {
        return Ok((decimal, text.len()));
    }
    let text = short(&text);
    let has_comma = text.contains(',');
    let is_plain = |c: char| c.is_ascii_digit() || c == ',';
    Err(if has_comma && text.chars().all(is_plain) && !text.ends_with(',') {
        format!("{text}: numbers are written without commas, and a decimal has a point")
    } else if text.chars().all(|c| is_plain(c) || c == '.') {
        format!("{text} is no number")
    } else {
        format!("{text} is no number; between a number and a name stands a space or *")
    })
}

/// The most digits behind the point of a decimal.
const MOST_DIGITS: usize = 3;

/// The decimal that a text is, if it is one.
fn decimal(text: &str) -> Result<Option<Kind>, String> {
    let Some((whole, part)) = text.split_once('.') else { return Ok(None) };
    let are_digits = |text: &str| !text.is_empty() && text.chars().all(|c| c.is_ascii_digit());
    if !are_digits(whole) || !are_digits(part) {
        return Ok(None);
    }
    let is_above_0 = whole.chars().any(|c| c != '0');
    if part.len() == 3 && whole.len() <= 3 && is_above_0 {
        let decimal = match part.trim_end_matches('0') {
            "" => whole.to_string(),
            less if less.len() < 3 => format!("{whole}.{less}"),
            _ => format!("{text}0"),
        };
        return Err(format!("{text}: is it {whole}{part}, or {decimal}?"));
    }
    let part = part.trim_end_matches('0');
    if part.len() > MOST_DIGITS {
        return Err(format!("{} has more than {MOST_DIGITS} digits behind the point", short(text)));
    }
    let digits = format!("{whole}{part}").parse();
    let digits = digits.map_err(|_| format!("{} is out of range", short(text)))?;
    Ok(Some(Kind::Decimal(digits, 10_i64.pow(part.len() as u32))))
}

/// How a clock time is written: hours and minutes, two digits each.
const CLOCK: &str = "06:30";

/// The minutes of a clock time that begins with these hours, if it is one.
fn clock(hours: &str, behind: &[char]) -> Result<Option<i64>, String> {
    let is_part = |c: &char| c.is_alphanumeric() || matches!(c, '_' | '.' | ',' | ':');
    let behind: String = behind.iter().take_while(|c| is_part(c)).collect();
    let begins = |rest: &&str| rest.starts_with(|c: char| c.is_ascii_digit());
    let Some(minutes) = behind.strip_prefix(':').filter(begins) else { return Ok(None) };
    let told = short(&format!("{hours}{behind}"));
    let [whole, part] = [hours, minutes].map(|digits| {
        let are_two = digits.len() == 2 && digits.bytes().all(|c| c.is_ascii_digit());
        digits.parse::<i64>().ok().filter(|_| are_two)
    });
    match (whole, part) {
        (Some(hours @ 0..24), Some(minutes @ 0..60)) => Ok(Some(60 * hours + minutes)),
        (Some(_), Some(_)) => Err(format!("{told}: a clock time is from 00:00 to 23:59")),
        _ => Err(format!("{told}: a clock time has hours and minutes, two digits each: {CLOCK}")),
    }
}
