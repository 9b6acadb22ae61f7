//! The start, which variable leaves, which enters, and one step. X is the type
//! of values.

use crate::base::{is_pos, lowest, matrix, table};
use crate::problem::{vars, Problem};
use crate::tableau::{entry, pivot, relation, small, Tableau};
use crate::value::{total, Values};

/// Seat v is `None` where v is basic, and `Some(x)` where it is nonbasic with
/// the value x.
#[derive(Clone)]
pub struct State<X> {
    pub tableau: Tableau,
    pub seats: Vec<Option<X>>,
}

pub fn seat<X: Copy>(s: &State<X>, v: usize) -> Option<X> {
    s.seats.get(v).copied().flatten()
}

pub fn den<X>(s: &State<X>) -> i128 {
    s.tableau.den
}

/// Below its lower limit, so it must rise; above its upper limit, so it must
/// fall.
#[derive(Debug, Clone, Copy, PartialEq, Eq)]
pub enum Side {
    Below,
    Above,
}

/// The leaving variable, the side on which it is outside, and by how much,
/// over den.
#[derive(Debug, Clone, Copy, PartialEq, Eq)]
pub struct Leaving<X> {
    pub variable: usize,
    pub side: Side,
    pub shortfall: X,
}

pub fn leaves<X>(variable: usize, side: Side, shortfall: X) -> Leaving<X> {
    Leaving { variable, side, shortfall }
}

/// 1 where the two are the same.
pub fn same(v: usize, w: usize) -> i128 {
    if v == w {
        1
    } else {
        0
    }
}

/// A problem variable is itself; a row's variable is its sum over them.
pub fn start_entry<X>(p: &Problem<X>, v: usize, w: usize) -> i128 {
    if v < p.n {
        same(v, w)
    } else if w < p.n {
        (p.coefficient)(v - p.n, w)
    } else {
        0
    }
}

/// The entry, with its sign swapped where the leaving variable must fall.
pub fn pull(side: Side, a: i128) -> i128 {
    match side {
        Side::Below => a,
        Side::Above => -a,
    }
}

/// What one step comes to.
pub enum Outcome<X> {
    Can,
    Cannot(Vec<i128>, Vec<i128>),
    Range,
    Goes(State<X>),
}

pub fn positive(z: i128) -> i128 {
    if is_pos(z) {
        z
    } else {
        0
    }
}

/// Evidence from the relation y of the violated row, turned to rise: upper
/// multipliers where it is above 0, lower ones where it is below.
pub fn evidence<X>(n: usize, side: Side, y: impl Fn(usize) -> i128) -> Outcome<X> {
    Outcome::Cannot(
        table(n, |v| positive(-pull(side, y(v)))),
        table(n, |v| positive(pull(side, y(v)))),
    )
}

pub fn admit<X>(n: usize, s: State<X>) -> Outcome<X> {
    if small(n, &s.tableau) {
        Outcome::Goes(s)
    } else {
        Outcome::Range
    }
}

/// A nonbasic variable's value; a basic one's stands for nothing, as its
/// entries are 0.
pub fn seated<X>(values: &Values<X>, seat: Option<X>) -> X
where
    X: Copy,
{
    match seat {
        None => values.nil,
        Some(x) => x,
    }
}

/// den times the value of v.
pub fn scaled<X: Copy>(values: &Values<X>, p: &Problem<X>, s: &State<X>, v: usize) -> X {
    total(values, vars(p), |w| (values.scale)(entry(&s.tableau, v, w), seated(values, seat(s, w))))
}

/// 0 where the limits allow it, else the lower one where that is above 0, else
/// the upper one.
pub fn start_value<X: Copy>(values: &Values<X>, lower: Option<X>, upper: Option<X>) -> X {
    let nil = values.nil;
    match (lower, upper) {
        (None, None) => nil,
        (None, Some(u)) if (values.less)(u, nil) => u,
        (None, Some(_)) => nil,
        (Some(l), _) if (values.less)(nil, l) => l,
        (Some(_), None) => nil,
        (Some(_), Some(u)) if (values.less)(u, nil) => u,
        (Some(_), Some(_)) => nil,
    }
}

pub fn start_seat<X: Copy>(values: &Values<X>, p: &Problem<X>, v: usize) -> Option<X> {
    if v < p.n {
        Some(start_value(values, (p.lower)(v), (p.upper)(v)))
    } else {
        None
    }
}

pub fn start<X: Copy>(values: &Values<X>, p: &Problem<X>) -> State<X> {
    State {
        tableau: Tableau { den: 1, rows: matrix(vars(p), |v, w| start_entry(p, v, w)) },
        seats: table(vars(p), |v| start_seat(values, p, v)),
    }
}

/// den, and den times a value, against a limit that may be missing.
pub fn under<X: Copy>(values: &Values<X>, d: i128, x: X, lower: Option<X>) -> bool {
    match lower {
        None => false,
        Some(l) => (values.less)(x, (values.scale)(d, l)),
    }
}

pub fn over<X: Copy>(values: &Values<X>, d: i128, x: X, upper: Option<X>) -> bool {
    match upper {
        None => false,
        Some(u) => (values.less)((values.scale)(d, u), x),
    }
}

/// x less y.
pub fn gap<X: Copy>(values: &Values<X>, x: X, y: X) -> X {
    (values.plus)(x, (values.scale)(-1, y))
}

/// How far den times the value is outside den times the limit on a side.
pub fn shortfall_by<X: Copy>(
    values: &Values<X>,
    d: i128,
    x: X,
    lower: Option<X>,
    upper: Option<X>,
    side: Side,
) -> X {
    match side {
        Side::Below => gap(values, (values.scale)(d, seated(values, lower)), x),
        Side::Above => gap(values, x, (values.scale)(d, seated(values, upper))),
    }
}

pub fn shortfall_of<X: Copy>(
    values: &Values<X>,
    p: &Problem<X>,
    s: &State<X>,
    v: usize,
    side: Side,
) -> X {
    shortfall_by(values, den(s), scaled(values, p, s, v), (p.lower)(v), (p.upper)(v), side)
}

pub fn broken<X: Copy>(
    values: &Values<X>,
    p: &Problem<X>,
    s: &State<X>,
    v: usize,
    seat: Option<X>,
) -> Option<Leaving<X>> {
    let leaves = |side| Some(leaves(v, side, shortfall_of(values, p, s, v, side)));
    match seat {
        Some(_) => None,
        None if under(values, den(s), scaled(values, p, s, v), (p.lower)(v)) => leaves(Side::Below),
        None if over(values, den(s), scaled(values, p, s, v), (p.upper)(v)) => leaves(Side::Above),
        None => None,
    }
}

pub fn leaving<X: Copy>(values: &Values<X>, p: &Problem<X>, s: &State<X>) -> Option<Leaving<X>> {
    lowest(vars(p), |v| broken(values, p, s, v, seat(s, v)))
}

/// Whether no upper limit stops x: there is none, or x is below it.
pub fn may_rise<X: Copy>(values: &Values<X>, x: X, upper: Option<X>) -> bool {
    match upper {
        None => true,
        Some(u) => (values.less)(x, u),
    }
}

/// Whether no lower limit stops x: there is none, or x is above it.
pub fn may_fall<X: Copy>(values: &Values<X>, x: X, lower: Option<X>) -> bool {
    match lower {
        None => true,
        Some(l) => (values.less)(l, x),
    }
}

pub fn suits<X: Copy>(
    values: &Values<X>,
    a: i128,
    seat: Option<X>,
    lower: Option<X>,
    upper: Option<X>,
) -> bool {
    match (a.signum(), seat) {
        (_, None) => false,
        (0, Some(_)) => false,
        (1, Some(x)) => may_rise(values, x, upper),
        (_, Some(x)) => may_fall(values, x, lower),
    }
}

pub fn entering<X: Copy>(
    values: &Values<X>,
    p: &Problem<X>,
    s: &State<X>,
    r: Leaving<X>,
) -> Option<usize> {
    lowest(vars(p), |w| {
        let a = pull(r.side, entry(&s.tableau, r.variable, w));
        suits(values, a, seat(s, w), (p.lower)(w), (p.upper)(w)).then_some(w)
    })
}

/// The limit that the leaving variable violates.
pub fn limit_at<X: Copy>(values: &Values<X>, p: &Problem<X>, r: Leaving<X>) -> X {
    match r.side {
        Side::Below => seated(values, (p.lower)(r.variable)),
        Side::Above => seated(values, (p.upper)(r.variable)),
    }
}

pub fn moved<X: Copy>(
    values: &Values<X>,
    p: &Problem<X>,
    s: &State<X>,
    r: Leaving<X>,
    w: usize,
) -> State<X> {
    let mut seats = s.seats.clone();
    seats[w] = None;
    seats[r.variable] = Some(limit_at(values, p, r));
    State { tableau: pivot(vars(p), &s.tableau, r.variable, w), seats }
}

pub fn step<X: Copy>(values: &Values<X>, p: &Problem<X>, s: &State<X>) -> Outcome<X> {
    match leaving(values, p, s) {
        None => Outcome::Can,
        Some(r) => match entering(values, p, s, r) {
            None => evidence(vars(p), r.side, |u| relation(&s.tableau, r.variable, u)),
            Some(w) => admit(vars(p), moved(values, p, s, r, w)),
        },
    }
}
