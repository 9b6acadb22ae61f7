//! What the limits of a clash ask for, and what they allow: two bars of parts,
//! of which the first is longer, or as long while a limit is strict.

use super::{drawn, safe};
use crate::fraction::Fraction;

/// A limit's part in a clash: so much is asked for where it is above 0, and
/// allowed where it is below.
pub struct Part {
    pub label: String,
    /// A shorter one.
    pub place: String,
    pub amount: Fraction,
}

const LEFT: f64 = 90.0;
const WIDE: f64 = 620.0;
const HIGH: f64 = 34.0;

/// The bars. Amounts are rounded for the picture alone.
pub fn bars(parts: &[Part]) -> String {
    let sized = |sign: i128| {
        let parts = parts.iter().filter(move |part| part.amount.numerator.signum() == sign);
        parts.collect::<Vec<&Part>>()
    };
    let (asked, allowed) = (sized(1), sized(-1));
    let none = Fraction::new(0, 1);
    let total = |parts: &[&Part]| parts.iter().fold(none, |sum, part| sum.plus(part.amount));
    let (more, less) = (total(&asked), total(&allowed));
    let too_much = more.plus(less);
    let most = drawn(more).max(-drawn(less));
    if most <= 0.0 {
        return "<p>Each of them is 0: the sum is 0 &gt; 0, since one of them is strict.</p>\n"
            .to_string();
    }
    let scale = WIDE / most;
    let mut said =
        bar("asked for", &asked, (10.0, scale)) + &bar("allowed", &allowed, (78.0, scale));
    let from = LEFT - drawn(less) * scale;
    let to = LEFT + drawn(more) * scale;
    if too_much.numerator > 0 {
        said += &format!(
            "<rect x=\"{from:.1}\" y=\"78\" width=\"{:.1}\" height=\"{HIGH}\" fill=\"none\" \
             stroke=\"#111\" stroke-dasharray=\"4 3\"/>\
             <text x=\"{to:.1}\" y=\"130\" text-anchor=\"end\">{} too much</text>\n",
            to - from,
            too_much.as_text()
        );
    } else {
        said += &format!(
            "<text x=\"{to:.1}\" y=\"130\" text-anchor=\"end\">as much, and one of them is strict</text>\n"
        );
    }
    format!(
        "<svg viewBox=\"0 0 730 140\" width=\"730\" role=\"img\" \
         aria-label=\"asked for {}, allowed {}\">\n{said}</svg>\n",
        shown(more),
        shown(less)
    )
}

/// The size of an amount.
fn shown(amount: Fraction) -> String {
    Fraction::new(amount.numerator.abs(), amount.denominator).as_text()
}

fn bar(name: &str, parts: &[&Part], (top, scale): (f64, f64)) -> String {
    let mut at = LEFT;
    let mut said = format!(
        "<text x=\"{:.0}\" y=\"{:.0}\" text-anchor=\"end\">{name}</text>\n",
        LEFT - 10.0,
        top + 22.0
    );
    if parts.is_empty() {
        said += &format!("<text x=\"{:.0}\" y=\"{:.0}\">nothing</text>\n", LEFT + 6.0, top + 22.0);
    }
    for (place, part) in parts.iter().enumerate() {
        let wide = drawn(part.amount).abs() * scale;
        let fill = if place % 2 == 0 { "#e4ebf4" } else { "#c3d2e6" };
        let inside = shown(part.amount);
        said += &format!(
            "<rect x=\"{at:.1}\" y=\"{top}\" width=\"{wide:.1}\" height=\"{HIGH}\" fill=\"{fill}\" \
             stroke=\"#111\"><title>{}: {inside}</title></rect>\n",
            safe(&part.label)
        );
        let both = format!("{}: {inside}", part.label);
        let placed = format!("{}: {inside}", part.place);
        let fits = |text: &str| text.chars().count() as f64 * 7.4 < wide - 6.0;
        if let Some(text) = [both, placed, inside].into_iter().find(|text| fits(text)) {
            said += &format!(
                "<text x=\"{:.1}\" y=\"{:.0}\" text-anchor=\"middle\">{}</text>\n",
                at + wide / 2.0,
                top + 22.0,
                safe(&text)
            );
        }
        // Where the limit does not fit beside its amount, its line stands below.
        let has_place = fits(&format!("{}: {}", part.place, shown(part.amount)));
        if !has_place && part.place.chars().count() as f64 * 6.4 < wide {
            said += &format!(
                "<text x=\"{:.1}\" y=\"{:.0}\" text-anchor=\"middle\" class=\"small\">{}</text>\n",
                at + wide / 2.0,
                top + HIGH + 13.0,
                safe(&part.place)
            );
        }
        at += wide;
    }
    said
}
