//! Problems that look like the zones of an oven: a set point for each zone,
//! limits on the steps between neighbours, and a few sums over some zones; and
//! three zones that are followed from one point of a ramp to the next.

use crate::draft::{at_least, at_most, between, Draft, FREE};
use crate::random::Random;

/// An oven of 4 to 8 zones with up to 16 rows.
pub fn oven(random: &mut Random) -> Draft {
    let zones = random.size(4, 8);
    let ramp = random.within(10, 60);
    let mut rows = Vec::new();
    let mut limits: Vec<[i32; 3]> = (0..zones).map(|zone| set_point(random, zone, zones)).collect();
    for zone in 1..zones {
        rows.push(difference(zones, zone, zone - 1));
        limits.push(step(random, ramp));
    }
    for zone in 2..zones {
        if rows.len() < 16 && random.percent(50) {
            rows.push(bend(zones, zone));
            limits.push(between(-ramp, ramp));
        }
    }
    while rows.len() < 16 && random.percent(60) {
        let (row, limit) = total(random, zones);
        rows.push(row);
        limits.push(limit);
    }
    Draft { n: zones, rows, limits }
}

/// The first and last zones are told, the others have room.
fn set_point(random: &mut Random, zone: usize, zones: usize) -> [i32; 3] {
    match zone {
        0 => between(20, 20 + random.within(0, 40)),
        last if last == zones - 1 => at_least(random.within(80, 320)),
        _ if random.percent(30) => FREE,
        _ => between(random.within(20, 60), random.within(150, 400)),
    }
}

fn step(random: &mut Random, ramp: i32) -> [i32; 3] {
    match random.below(3) {
        0 => at_most(ramp),
        1 => between(0, ramp),
        _ => between(-ramp, ramp),
    }
}

/// One zone less another.
fn difference(zones: usize, zone: usize, other: usize) -> Vec<i32> {
    let mut row = vec![0; zones];
    row[zone] = 1;
    row[other] = -1;
    row
}

/// How much the slope changes at a zone.
fn bend(zones: usize, zone: usize) -> Vec<i32> {
    let mut row = vec![0; zones];
    row[zone] = 1;
    row[zone - 1] = -2;
    row[zone - 2] = 1;
    row
}

/// The power of three zones, each with its own share.
fn total(random: &mut Random, zones: usize) -> (Vec<i32>, [i32; 3]) {
    let mut row = vec![0; zones];
    for _ in 0..3 {
        row[random.below(zones)] = random.within(1, 5);
    }
    let weight: i32 = row.iter().sum();
    let limit = if random.percent(50) {
        at_most(weight * random.within(60, 250))
    } else {
        at_least(weight * random.within(20, 120))
    };
    (row, limit)
}

/// Three zones at two points of a ramp: variables 0 to 2 are the set points
/// while it is held, 3 to 5 those at its top. No two zones are far apart, each
/// rises by so much, no two rise alike, and heaters give what they can. There
/// are 17 to 24 rows.
pub fn zones(random: &mut Random) -> Draft {
    let apart = random.within(5, 40);
    let rise = random.within(30, 120);
    let held = (0..3).map(|_| between(random.within(100, 150), random.within(160, 200)));
    let mut limits: Vec<[i32; 3]> = held.collect();
    limits.extend((0..3).map(|_| between(random.within(180, 220), random.within(230, 260))));
    let mut rows = Vec::new();
    for (one, other) in [(1, 0), (2, 1), (2, 0)] {
        for point in [0, 3] {
            rows.push(difference(6, point + one, point + other));
            limits.push(between(-apart, apart));
        }
        let mut steeper = difference(6, 3 + one, one);
        steeper[3 + other] = -1;
        steeper[other] = 1;
        rows.push(steeper);
        limits.push(between(-random.within(0, apart), random.within(0, apart)));
    }
    for zone in 0..3 {
        rows.push(difference(6, 3 + zone, zone));
        limits.push(step(random, rise));
    }
    let most = random.size(17, 24);
    while rows.len() < most {
        let (row, limit) = heat(random);
        rows.push(row);
        limits.push(limit);
    }
    Draft { n: 6, rows, limits }
}

/// What the heaters of one point give together, each with its own share.
fn heat(random: &mut Random) -> (Vec<i32>, [i32; 3]) {
    let point = random.pick(&[0, 3]);
    let mut row = vec![0; 6];
    for share in &mut row[point..point + 3] {
        *share = random.within(1, 9);
    }
    let weight: i32 = row.iter().sum();
    let limit = if random.percent(60) {
        at_most(weight * random.within(170, 260))
    } else {
        at_least(weight * random.within(100, 170))
    };
    (row, limit)
}
