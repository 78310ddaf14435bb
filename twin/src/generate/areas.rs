//! Areas: good ones, ones at the bounds, other descriptions of a ground, ones that
//! differ from another in one number by one, and bad ones.

use super::random::Random;
use super::values::wide_alias;
use crate::area::{Area, CIRCLE, LATITUDE_BOUND, LONGITUDE_BOUND};
use crate::ground::one_change_away;

/// A good area.
pub fn fresh(random: &mut Random) -> Area {
    let shape = random.below(3);
    let shortest_b = u64::from(shape != CIRCLE);
    Area {
        shape,
        latitude: i128::from(random.below(1_800_000_001)) - LATITUDE_BOUND,
        longitude: i128::from(random.below(3_600_000_001)) - LONGITUDE_BOUND,
        a: random.between(1, 65_535),
        b: random.between(shortest_b, 65_535),
        angle: random.below(360),
    }
}

/// A good area whose numbers stand at, or one from, their bounds.
pub fn at_the_bounds(random: &mut Random) -> Area {
    let shape = random.below(3);
    let shortest_b = u64::from(shape != CIRCLE);
    Area {
        shape,
        latitude: random.pick(&[-900_000_000, -899_999_999, -1, 0, 1, 899_999_999, 900_000_000]),
        longitude: random.pick(&[-1_800_000_000, -1_799_999_999, 0, 1_799_999_999, 1_800_000_000]),
        a: random.pick(&[1, 2, 255, 256, 65_534, 65_535]),
        b: random.pick(&[shortest_b, shortest_b + 1, 127, 128, 65_534, 65_535]),
        angle: random.pick(&[0, 1, 127, 128, 255, 256, 358, 359]),
    }
}

pub fn good(random: &mut Random) -> Area {
    match random.percent(60) {
        true => at_the_bounds(random),
        false => fresh(random),
    }
}

/// A good area of this shape.
pub fn of_shape(random: &mut Random, shape: u64) -> Area {
    let area = good(random);
    let shortest_b = u64::from(shape != CIRCLE);
    Area { shape, b: area.b.max(shortest_b), ..area }
}

/// A good area that a few changes, one after the other, make of this good one.
pub fn described_otherwise(random: &mut Random, area: &Area) -> Area {
    let mut other = *area;
    for _ in 0..random.between(1, 4) {
        let (before, free) = (other, fresh(random));
        let changed: Vec<Area> = one_change_away(&before, &free).collect();
        other = random.pick(&changed);
    }
    other
}

/// The area with the number at this place, of six, one up or down. It may be
/// bad then, but has a record form.
pub fn one_apart(area: &Area, place: u64, up: bool) -> Area {
    let step = |number: u64| if up || number == 0 { number + 1 } else { number - 1 };
    let signed = |number: i128, lowest: i128| {
        if up || number <= lowest {
            number + 1
        } else {
            number - 1
        }
    };
    let mut near = *area;
    match place {
        0 => near.shape = step(area.shape),
        1 => near.latitude = signed(area.latitude, -LATITUDE_BOUND),
        2 => near.longitude = signed(area.longitude, -LONGITUDE_BOUND),
        3 => near.a = step(area.a),
        4 => near.b = step(area.b),
        _ => near.angle = step(area.angle),
    }
    near
}

/// The area with one number that can't be good: just outside its bounds, an
/// alias of the number that stood there, or the largest that a record can hold.
pub fn spoiled(random: &mut Random, area: &Area) -> Area {
    let mut bad = *area;
    match random.below(7) {
        0 => bad.shape = spoiled_number(random, &[3, 4, 255], area.shape),
        1 => bad.latitude = spoiled_degree(random, area.latitude, LATITUDE_BOUND),
        2 => bad.longitude = spoiled_degree(random, area.longitude, LONGITUDE_BOUND),
        3 => bad.a = spoiled_number(random, &[0, 65_536, 65_537], area.a),
        4 => bad.b = spoiled_number(random, &[65_536, 65_537], area.b),
        5 => (bad.shape, bad.b) = (random.between(1, 2), 0),
        _ => bad.angle = spoiled_number(random, &[360, 361, 615, 719, 65_535], area.angle),
    }
    bad
}

fn spoiled_degree(random: &mut Random, stood: i128, bound: i128) -> i128 {
    let largest = i128::from(u64::MAX) - bound;
    let turn = stood + (1 << random.pick(&[32, 33, 63]));
    random.pick(&[bound + 1, bound + 2, turn.min(largest), largest])
}

fn spoiled_number(random: &mut Random, outside: &[u64], stood: u64) -> u64 {
    match random.below(6) {
        0 | 1 => wide_alias(random, stood),
        2 => u64::MAX,
        _ => random.pick(outside),
    }
}

/// Any area, given those that the table knows.
pub fn any(random: &mut Random, known: &[Area], bad: u64) -> Area {
    let base = if known.is_empty() { fresh(random) } else { random.pick(known) };
    if random.percent(bad) {
        let once = spoiled(random, &base);
        return if random.percent(30) { spoiled(random, &once) } else { once };
    }
    match random.below(10) {
        0..=3 => fresh(random),
        4 => at_the_bounds(random),
        5 | 6 => base,
        7 => described_otherwise(random, &base),
        _ => {
            let (place, up) = (random.below(6), random.percent(50));
            one_apart(&base, place, up)
        }
    }
}

#[cfg(test)]
mod tests {
    use super::*;
    use crate::call::Call;
    use crate::write::record_bytes;

    #[test]
    fn good_ones_are_good_and_spoiled_ones_are_not() {
        let mut random = Random::new(5);
        for _ in 0..5_000 {
            let (fresh, bound) = (fresh(&mut random), at_the_bounds(&mut random));
            assert!(fresh.is_good() && bound.is_good(), "{fresh:?} {bound:?}");
            let bad = spoiled(&mut random, &bound);
            let twice = spoiled(&mut random, &bad);
            assert!(!bad.is_good(), "{bad:?}");
            assert!(record_bytes(&Call::DgvlArea(Some(twice))).is_some(), "{twice:?}");
        }
    }

    #[test]
    fn other_descriptions_are_equal_to_the_first() {
        let mut random = Random::new(7);
        let mut others = 0;
        for _ in 0..2_000 {
            let area = good(&mut random);
            let other = described_otherwise(&mut random, &area);
            assert!(area.equals(&other), "{area:?} {other:?}");
            others += u64::from(area != other);
        }
        assert!(others > 1_500, "only {others} in other numbers");
    }

    #[test]
    fn near_ones_differ_in_one_number() {
        let mut random = Random::new(6);
        for round in 0..600 {
            let area = at_the_bounds(&mut random);
            let near = one_apart(&area, round % 6, round % 4 < 2);
            assert_ne!(near, area);
            assert!(near.latitude >= -LATITUDE_BOUND && near.longitude >= -LONGITUDE_BOUND);
        }
    }
}
