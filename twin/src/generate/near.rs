//! Pairs of areas that are not equal, though a wrong rule could take them for it.

use super::areas::{of_shape, one_apart};
use super::joined::{even, oblong, Maker, Pair};
use super::random::Random;
use crate::area::{
    Area, CIRCLE, EAST_END, ELLIPSE, LATITUDE_BOUND, LONGEST_DISTANCE, LONGITUDE_BOUND, RECTANGLE,
    WEST_END,
};

pub const MAKERS: [Maker; 27] = [
    one_more::<RECTANGLE, ANGLE>,
    one_more::<ELLIPSE, ANGLE>,
    one_more::<RECTANGLE, B>,
    one_more::<ELLIPSE, B>,
    one_more::<CIRCLE, A>,
    one_more::<RECTANGLE, A>,
    one_more::<ELLIPSE, A>,
    one_more::<CIRCLE, LATITUDE>,
    one_more::<RECTANGLE, LONGITUDE>,
    exchanged_alone::<RECTANGLE>,
    exchanged_alone::<ELLIPSE>,
    turned_alone::<RECTANGLE>,
    turned_alone::<ELLIPSE>,
    circle_exchanged,
    circles_of_different_a,
    square_and_circle,
    square_and_ellipse,
    rectangle_and_ellipse,
    nearly_disc_and_circle::<false, false>,
    nearly_disc_and_circle::<false, true>,
    nearly_disc_and_circle::<true, false>,
    nearly_disc_and_circle::<true, true>,
    one_off_an_end::<1>,
    one_off_an_end::<-1>,
    at_a_pole::<1>,
    at_a_pole::<-1>,
    square_turned_by_45,
];

/// Places of `area-numbers`.
const LATITUDE: u64 = 1;
const LONGITUDE: u64 = 2;
const A: u64 = 3;
const B: u64 = 4;
const ANGLE: u64 = 5;

fn one_more<const SHAPE: u64, const PLACE: u64>(random: &mut Random) -> Pair {
    loop {
        let area = oblong(random, SHAPE);
        let more = one_apart(&area, PLACE, true);
        if more.is_good() {
            return (area, more);
        }
    }
}

fn exchanged_alone<const SHAPE: u64>(random: &mut Random) -> Pair {
    let area = oblong(random, SHAPE);
    (area, area.exchanged())
}

fn turned_alone<const SHAPE: u64>(random: &mut Random) -> Pair {
    let area = oblong(random, SHAPE);
    (area, area.turned(90))
}

/// b is above 0, so that only the shape keeps the exchange from joining them.
fn circle_exchanged(random: &mut Random) -> Pair {
    let circle = Area { shape: CIRCLE, ..oblong(random, RECTANGLE) };
    (circle, circle.exchanged().turned(90))
}

fn circles_of_different_a(random: &mut Random) -> Pair {
    let circle = of_shape(random, CIRCLE);
    let a = 1 + random.other(circle.a - 1, LONGEST_DISTANCE - 1);
    (circle, Area { a, ..circle })
}

fn square_and_circle(random: &mut Random) -> Pair {
    let square = even(random, RECTANGLE);
    (square, Area { shape: CIRCLE, ..square })
}

fn square_and_ellipse(random: &mut Random) -> Pair {
    let square = even(random, RECTANGLE);
    (square, Area { shape: ELLIPSE, ..square })
}

fn rectangle_and_ellipse(random: &mut Random) -> Pair {
    let rectangle = oblong(random, RECTANGLE);
    (rectangle, Area { shape: ELLIPSE, ..rectangle })
}

/// An ellipse whose axes differ by one, the longer being a or b, and the circle
/// with a or b for its radius.
fn nearly_disc_and_circle<const LONG_A: bool, const OF_B: bool>(random: &mut Random) -> Pair {
    let (_, more) = one_more::<ELLIPSE, B>(random);
    let long_b = Area { a: more.b - 1, ..more };
    let ellipse = if LONG_A { long_b.exchanged() } else { long_b };
    let a = if OF_B { ellipse.b } else { ellipse.a };
    (ellipse, Area { shape: CIRCLE, a, ..ellipse })
}

fn one_off_an_end<const SIGN: i128>(random: &mut Random) -> Pair {
    let shape = random.below(3);
    let area = of_shape(random, shape);
    let off = Area { longitude: SIGN * (LONGITUDE_BOUND - 1), ..area };
    (off, Area { longitude: -SIGN * LONGITUDE_BOUND, ..area })
}

fn at_a_pole<const SIGN: i128>(random: &mut Random) -> Pair {
    let shape = random.below(3);
    let area = Area { latitude: SIGN * LATITUDE_BOUND, ..of_shape(random, shape) };
    // The two ends would be equal, so one of them is never an end.
    let inside = random.pick(&[0, 1, EAST_END - 1]);
    let longitude = random.pick(&[WEST_END, -1, EAST_END]);
    (Area { longitude: inside, ..area }, Area { longitude, ..area })
}

fn square_turned_by_45(random: &mut Random) -> Pair {
    let square = even(random, RECTANGLE);
    (square, square.turned(45))
}

#[cfg(test)]
mod tests {
    use super::*;

    #[test]
    fn the_areas_of_no_pair_are_equal() {
        let mut random = Random::new(9);
        for _ in 0..500 {
            for make in MAKERS {
                let (one, other) = make(&mut random);
                assert!(one.is_good() && other.is_good(), "{one:?} {other:?}");
                assert!(!one.equals(&other), "{one:?} {other:?}");
            }
        }
    }
}
