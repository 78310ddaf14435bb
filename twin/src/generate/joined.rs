//! Pairs of equal areas, one for each way in which two can be joined
//! (`area-changes`).

use super::areas::of_shape;
use super::random::Random;
use crate::area::{Area, CIRCLE, ELLIPSE, FULL_TURN, LATITUDE_BOUND, LONGEST_DISTANCE, RECTANGLE};

pub type Pair = (Area, Area);
pub type Maker = fn(&mut Random) -> Pair;

pub const MAKERS: [Maker; 18] = [
    twice::<CIRCLE>,
    twice::<RECTANGLE>,
    twice::<ELLIPSE>,
    twice_at_a_pole,
    circle_with_another_b,
    circle_with_another_angle,
    circle_with_another_b_and_angle,
    half_turn::<RECTANGLE>,
    half_turn::<ELLIPSE>,
    exchange::<RECTANGLE>,
    exchange::<ELLIPSE>,
    exchange_past_359::<RECTANGLE>,
    exchange_past_359::<ELLIPSE>,
    square_turned::<90>,
    square_turned::<180>,
    ellipse_and_circle,
    disc_turned_by_quarters,
    disc_turned,
];

/// A good area whose a and b differ.
pub fn oblong(random: &mut Random, shape: u64) -> Area {
    let area = of_shape(random, shape);
    let beside = if area.a > 1 { area.a - 1 } else { 2 };
    Area { b: if area.b == area.a { beside } else { area.b }, ..area }
}

/// A good area whose a and b are equal.
pub fn even(random: &mut Random, shape: u64) -> Area {
    let area = of_shape(random, shape);
    Area { b: area.a, ..area }
}

fn twice<const SHAPE: u64>(random: &mut Random) -> Pair {
    let area = of_shape(random, SHAPE);
    (area, area)
}

fn twice_at_a_pole(random: &mut Random) -> Pair {
    let shape = random.below(3);
    let latitude = random.pick(&[-LATITUDE_BOUND, LATITUDE_BOUND]);
    let area = Area { latitude, ..of_shape(random, shape) };
    (area, area)
}

fn circle_with_another_b(random: &mut Random) -> Pair {
    let circle = of_shape(random, CIRCLE);
    (circle, Area { b: random.other(circle.b, LONGEST_DISTANCE), ..circle })
}

fn circle_with_another_angle(random: &mut Random) -> Pair {
    let circle = of_shape(random, CIRCLE);
    (circle, circle.turned(random.between(1, FULL_TURN - 1)))
}

fn circle_with_another_b_and_angle(random: &mut Random) -> Pair {
    let (circle, with_another_b) = circle_with_another_b(random);
    (circle, with_another_b.turned(random.between(1, FULL_TURN - 1)))
}

fn half_turn<const SHAPE: u64>(random: &mut Random) -> Pair {
    let area = Area { angle: random.below(180), ..oblong(random, SHAPE) };
    (area, area.turned(180))
}

fn exchange<const SHAPE: u64>(random: &mut Random) -> Pair {
    let area = Area { angle: random.below(270), ..oblong(random, SHAPE) };
    (area, area.exchanged().turned(90))
}

fn exchange_past_359<const SHAPE: u64>(random: &mut Random) -> Pair {
    let area = Area { angle: random.between(270, 359), ..oblong(random, SHAPE) };
    (area, area.exchanged().turned(90))
}

fn square_turned<const DEGREES: u64>(random: &mut Random) -> Pair {
    let square = even(random, RECTANGLE);
    (square, square.turned(DEGREES))
}

fn ellipse_and_circle(random: &mut Random) -> Pair {
    let ellipse = even(random, ELLIPSE);
    let (b, angle) = (random.between(0, LONGEST_DISTANCE), random.below(FULL_TURN));
    (ellipse, Area { shape: CIRCLE, b, angle, ..ellipse })
}

fn disc_turned_by_quarters(random: &mut Random) -> Pair {
    let ellipse = even(random, ELLIPSE);
    (ellipse, ellipse.turned(random.pick(&[90, 180, 270])))
}

/// By an angle that only the circle between the two allows.
fn disc_turned(random: &mut Random) -> Pair {
    let ellipse = even(random, ELLIPSE);
    let degrees = 90 * random.below(4) + random.between(1, 89);
    (ellipse, ellipse.turned(degrees))
}

#[cfg(test)]
mod tests {
    use super::*;

    #[test]
    fn the_areas_of_each_pair_are_equal() {
        let mut random = Random::new(8);
        for _ in 0..500 {
            for make in MAKERS {
                let (one, other) = make(&mut random);
                assert!(one.equals(&other), "{one:?} {other:?}");
            }
        }
    }
}
