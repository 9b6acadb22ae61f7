//! How many there are of each kind: a bar each.

use super::safe;

const LEFT: f64 = 110.0;
const WIDE: f64 = 540.0;
const HIGH: f64 = 22.0;
const STEP: f64 = 30.0;

/// A bar for each kind, as long as there are many, with the count behind it.
pub fn counts(kinds: &[(&str, usize)]) -> String {
    let most = kinds.iter().map(|kind| kind.1).max().unwrap_or(0).max(1) as f64;
    let mut said = String::new();
    for (place, (kind, count)) in kinds.iter().enumerate() {
        let top = 4.0 + STEP * place as f64;
        let wide = WIDE * *count as f64 / most;
        said += &format!(
            "<text x=\"{:.0}\" y=\"{:.0}\" text-anchor=\"end\">{}</text>\
             <rect x=\"{LEFT}\" y=\"{top}\" width=\"{wide:.1}\" height=\"{HIGH}\" \
             fill=\"#c3d2e6\" stroke=\"#111\"/>\
             <text x=\"{:.1}\" y=\"{:.0}\">{count}</text>\n",
            LEFT - 10.0,
            top + 16.0,
            safe(kind),
            LEFT + wide + 8.0,
            top + 16.0,
        );
    }
    let told: Vec<String> = kinds.iter().map(|(kind, count)| format!("{count} {kind}")).collect();
    let high = 8.0 + STEP * kinds.len() as f64;
    format!(
        "<svg viewBox=\"0 0 730 {high}\" width=\"730\" role=\"img\" aria-label=\"{}\">\n{said}</svg>\n",
        safe(&told.join(", "))
    )
}
