//! Points in time, and the rows that are met exactly between them.

use super::safe;

pub struct Point {
    pub label: String,
    pub minutes: f64,
    pub said: String,
}

/// A row that is met exactly: it holds the later point to the earlier one.
pub struct Tie {
    pub earlier: usize,
    pub later: usize,
    pub said: String,
}

const LEFT: f64 = 150.0;
const WIDE: f64 = 480.0;
const STEP: f64 = 34.0;

pub fn timeline(points: &[Point], ties: &[Tie]) -> String {
    let end = points.iter().map(|point| point.minutes).fold(0.0, f64::max).max(1.0);
    let x = |minutes: f64| LEFT + minutes / end * WIDE;
    let mut order: Vec<usize> = (0..points.len()).collect();
    order.sort_by(|&a, &b| points[a].minutes.total_cmp(&points[b].minutes));
    let mut y = vec![0.0; points.len()];
    for (place, &point) in order.iter().enumerate() {
        y[point] = 24.0 + STEP * place as f64;
    }
    let mut said = String::new();
    for tie in ties {
        let (from, to) = (x(points[tie.earlier].minutes), x(points[tie.later].minutes));
        let (top, foot) = (y[tie.earlier], y[tie.later]);
        said += &format!(
            "<polyline points=\"{from:.1},{top} {from:.1},{foot} {to:.1},{foot}\" fill=\"none\" \
             stroke=\"#6b86a8\" stroke-width=\"2\"><title>{}</title></polyline>\n",
            safe(&tie.said)
        );
        if to - from > 30.0 {
            said += &format!(
                "<text x=\"{:.1}\" y=\"{:.0}\" text-anchor=\"middle\" fill=\"#444\">{}</text>\n",
                (from + to) / 2.0,
                foot - 5.0,
                safe(&tie.said)
            );
        }
    }
    for (point, &y) in points.iter().zip(&y) {
        let at = x(point.minutes);
        said += &format!(
            "<text x=\"{:.0}\" y=\"{:.0}\" text-anchor=\"end\">{}</text>\
             <circle cx=\"{at:.1}\" cy=\"{y}\" r=\"5.5\" fill=\"#111\"/>\
             <text x=\"{:.1}\" y=\"{:.0}\">{}</text>\n",
            LEFT - 16.0,
            y + 5.0,
            safe(&point.label),
            at + 11.0,
            y + 5.0,
            safe(&point.said)
        );
    }
    let high = 24.0 + STEP * points.len() as f64;
    format!("<svg viewBox=\"0 0 730 {high}\" width=\"730\" role=\"img\">\n{said}</svg>\n")
}
