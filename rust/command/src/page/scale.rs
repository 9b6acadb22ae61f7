//! Values between their limits, one line each.

use super::{drawn, safe};
use text::Exact;

/// A value to draw. Numbers are rounded for the picture alone; what is written
/// beside it is exact.
pub struct Dot {
    pub label: String,
    pub value: f64,
    pub said: String,
    /// Lower and upper: the number, and whether it is strict.
    pub limits: [Option<(Exact, bool)>; 2],
}

const WIDE: f64 = 350.0;
const STEP: f64 = 30.0;
/// About how wide a letter is.
const LETTER: f64 = 7.2;

/// All on one axis, or each on its own.
pub fn scale(dots: &[Dot], is_shared: bool) -> String {
    let all = dots.iter().fold((f64::MAX, f64::MIN), |(low, high), dot| {
        let (least, most) = span(dot);
        (low.min(least), high.max(most))
    });
    let longest = |text: fn(&Dot) -> &str| {
        dots.iter().map(|dot| text(dot).chars().count()).max().unwrap_or(0) as f64 * LETTER
    };
    let left = longest(|dot| &dot.label) + if is_shared { 20.0 } else { 64.0 };
    let mut said = String::new();
    for (place, dot) in dots.iter().enumerate() {
        let ends = padded(if is_shared { all } else { span(dot) });
        said += &line(dot, (left, 20.0 + STEP * place as f64), ends, is_shared);
    }
    let foot = 20.0 + STEP * dots.len() as f64;
    if is_shared {
        said += &axis(padded(all), (left, foot));
    }
    let high = foot + if is_shared { 24.0 } else { 0.0 };
    let wide = left + WIDE + 64.0 + longest(|dot| &dot.said);
    format!(
        "<svg viewBox=\"0 0 {wide:.0} {high}\" width=\"{wide:.0}\" role=\"img\">\n{said}</svg>\n"
    )
}

/// From the least to the largest number of a line; 0 is one of them where there
/// is one limit, so that it can be seen how far the value is from it.
fn span(dot: &Dot) -> (f64, f64) {
    let limits = dot.limits.iter().flatten().map(|limit| drawn(limit.0));
    let zero = (limits.clone().count() == 1).then_some(0.0);
    let ends = limits.chain([dot.value]).chain(zero);
    ends.fold((f64::MAX, f64::MIN), |(low, high), end| (low.min(end), high.max(end)))
}

fn padded((low, high): (f64, f64)) -> (f64, f64) {
    let pad = ((high - low) * 0.08).max(0.5);
    (low - pad, high + pad)
}

fn line(dot: &Dot, (left, y): (f64, f64), (low, high): (f64, f64), is_shared: bool) -> String {
    let x = |value: f64| left + (value - low) / (high - low) * WIDE;
    let [from, to] = [(dot.limits[0], left), (dot.limits[1], left + WIDE)]
        .map(|(limit, end)| limit.map_or(end, |(number, _)| x(drawn(number))));
    let mut said = format!(
        "<text x=\"0\" y=\"{:.0}\">{}</text>\
         <line x1=\"{from:.1}\" y1=\"{y}\" x2=\"{to:.1}\" y2=\"{y}\" stroke=\"#9db2cc\" \
         stroke-width=\"8\"/>",
        y + 5.0,
        safe(&dot.label)
    );
    for (limit, anchor, shift) in [(dot.limits[0], "end", -8.0), (dot.limits[1], "start", 8.0)] {
        let Some((number, is_strict)) = limit else { continue };
        let dash = if is_strict { " stroke-dasharray=\"3 2\"" } else { "" };
        let at = x(drawn(number));
        said += &format!(
            "<line x1=\"{at:.1}\" y1=\"{:.0}\" x2=\"{at:.1}\" y2=\"{:.0}\" stroke=\"#111\" \
             stroke-width=\"2\"{dash}/>",
            y - 8.0,
            y + 8.0
        );
        if !is_shared {
            said += &format!(
                "<text x=\"{:.1}\" y=\"{:.0}\" text-anchor=\"{anchor}\">{number}</text>",
                at + shift,
                y + 5.0
            );
        }
    }
    said + &format!(
        "<circle cx=\"{:.1}\" cy=\"{y}\" r=\"5.5\" fill=\"#111\" stroke=\"#fff\"/>\
         <text x=\"{:.0}\" y=\"{:.0}\">{}</text>\n",
        x(dot.value),
        left + WIDE + if is_shared { 20.0 } else { 60.0 },
        y + 5.0,
        safe(&dot.said)
    )
}

/// An axis with a mark at about every fifth of it.
fn axis((low, high): (f64, f64), (left, y): (f64, f64)) -> String {
    let rough = (high - low) / 5.0;
    let ten = 10f64.powf(rough.log10().floor());
    let step = [1.0, 2.0, 5.0, 10.0].map(|part| part * ten).into_iter().find(|&step| step >= rough);
    let step = step.unwrap_or(10.0 * ten);
    let mut said = format!(
        "<line x1=\"{left:.1}\" y1=\"{y}\" x2=\"{:.1}\" y2=\"{y}\" stroke=\"#111\"/>",
        left + WIDE
    );
    let mut mark = (low / step).ceil() * step;
    while mark <= high {
        let at = left + (mark - low) / (high - low) * WIDE;
        let number = (mark * 1e6).round() / 1e6 + 0.0;
        said += &format!(
            "<line x1=\"{at:.1}\" y1=\"{y}\" x2=\"{at:.1}\" y2=\"{:.0}\" stroke=\"#111\"/>\
             <text x=\"{at:.1}\" y=\"{:.0}\" text-anchor=\"middle\">{number}</text>",
            y + 4.0,
            y + 18.0
        );
        mark += step;
    }
    said + "\n"
}
