//! The ways in which a stop's area and an equal one that is given are joined
//! (`area-changes`), told by what differs in their numbers, without the search.

use super::Likeness;
use crate::area::{Area, CIRCLE, EAST_END, ELLIPSE, LATITUDE_BOUND, RECTANGLE, WEST_END};

/// All that can differ is the end of the longitudes.
pub const UNCHANGED: [Likeness; 8] = [
    ("the same six numbers", |stop, given| given == stop),
    ("circle, west end to east end", from_end::<CIRCLE, WEST_END>),
    ("circle, east end to west end", from_end::<CIRCLE, EAST_END>),
    ("rectangle, west end to east end", from_end::<RECTANGLE, WEST_END>),
    ("rectangle, east end to west end", from_end::<RECTANGLE, EAST_END>),
    ("ellipse, west end to east end", from_end::<ELLIPSE, WEST_END>),
    ("ellipse, east end to west end", from_end::<ELLIPSE, EAST_END>),
    ("both ends, at a pole", |stop, given| {
        stop.latitude.abs() == LATITUDE_BOUND && Some(*given) == stop.at_the_other_end()
    }),
];

/// The longitude is the same.
pub const CHANGED: [Likeness; 22] = [
    ("circle, another b", |stop, given| circles(stop, given) == (true, false)),
    ("circle, another angle", |stop, given| circles(stop, given) == (false, true)),
    ("circle, another b and angle", |stop, given| circles(stop, given) == (true, true)),
    ("rectangle, 180 added", turned::<RECTANGLE, 180>),
    ("rectangle, 180 taken off", turned::<RECTANGLE, -180>),
    ("ellipse, 180 added", turned::<ELLIPSE, 180>),
    ("ellipse, 180 taken off", turned::<ELLIPSE, -180>),
    ("rectangle exchanged, 90 added", exchanged::<RECTANGLE, 90>),
    ("rectangle exchanged, 90 taken off", exchanged::<RECTANGLE, -90>),
    ("rectangle exchanged, 90 added past 359", exchanged::<RECTANGLE, -270>),
    ("rectangle exchanged, 90 taken off below 0", exchanged::<RECTANGLE, 270>),
    ("ellipse exchanged, 90 added", exchanged::<ELLIPSE, 90>),
    ("ellipse exchanged, 90 taken off", exchanged::<ELLIPSE, -90>),
    ("ellipse exchanged, 90 added past 359", exchanged::<ELLIPSE, -270>),
    ("ellipse exchanged, 90 taken off below 0", exchanged::<ELLIPSE, 270>),
    ("square turned by 90", square_turned::<90>),
    ("square turned by 180", square_turned::<180>),
    ("square turned by 270", square_turned::<270>),
    ("ellipse to circle", even_to_circle::<ELLIPSE>),
    ("circle to ellipse", |stop, given| even_to_circle::<ELLIPSE>(given, stop)),
    ("ellipse of equal axes, quarter turns", |stop, given| disc_turned(stop, given) == Some(true)),
    ("ellipse of equal axes, another angle", |stop, given| disc_turned(stop, given) == Some(false)),
];

fn from_end<const SHAPE: u64, const END: i128>(stop: &Area, given: &Area) -> bool {
    let at_the_end = stop.shape == SHAPE && stop.longitude == END;
    at_the_end && Some(*given) == stop.at_the_other_end()
}

/// Whether b and the angle of two circles differ, of which nothing else does.
fn circles(stop: &Area, given: &Area) -> (bool, bool) {
    let alike = Area { b: given.b, angle: given.angle, ..*stop } == *given;
    let are_circles = alike && stop.shape == CIRCLE;
    (are_circles && stop.b != given.b, are_circles && stop.angle != given.angle)
}

fn degrees(stop: &Area, given: &Area) -> i128 {
    i128::from(given.angle) - i128::from(stop.angle)
}

fn turned<const SHAPE: u64, const DEGREES: i128>(stop: &Area, given: &Area) -> bool {
    stop.shape == SHAPE
        && stop.a != stop.b
        && *given == Area { angle: given.angle, ..*stop }
        && degrees(stop, given) == DEGREES
}

pub fn exchanged<const SHAPE: u64, const DEGREES: i128>(stop: &Area, given: &Area) -> bool {
    turned::<SHAPE, DEGREES>(&stop.exchanged(), given)
}

pub fn square_turned<const DEGREES: u64>(stop: &Area, given: &Area) -> bool {
    stop.shape == RECTANGLE && stop.a == stop.b && *given == stop.turned(DEGREES)
}

/// From a square, or an ellipse of equal axes, to the circle of that size.
pub fn even_to_circle<const SHAPE: u64>(stop: &Area, given: &Area) -> bool {
    let circle = Area { shape: CIRCLE, b: given.b, angle: given.angle, ..*stop };
    stop.shape == SHAPE && stop.a == stop.b && *given == circle
}

/// For ellipses of equal axes at two angles: whether these are quarter turns
/// apart, so that no circle is needed between them.
fn disc_turned(stop: &Area, given: &Area) -> Option<bool> {
    let is_disc = stop.shape == ELLIPSE && stop.a == stop.b;
    let is_turned = *given == Area { angle: given.angle, ..*stop } && given != stop;
    (is_disc && is_turned).then(|| degrees(stop, given) % 90 == 0)
}
