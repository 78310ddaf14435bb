//! The ways in which a stop's area and one that is given are nearly joined. No
//! chain of changes joins them, but a wrong rule would.

use super::joined::{even_to_circle, exchanged, square_turned};
use super::Likeness;
use crate::area::{Area, CIRCLE, EAST_END, ELLIPSE, LATITUDE_BOUND, RECTANGLE, WEST_END};

/// Some pairs of these forms are equal, such as those of both ends at a pole. They
/// are not counted, since their records are listed as equal.
pub const MISSED: [Likeness; 30] = [
    ("rectangle, angle 1 more", angle_1_more::<RECTANGLE>),
    ("ellipse, angle 1 more", angle_1_more::<ELLIPSE>),
    ("rectangle, b 1 more", b_1_more::<RECTANGLE>),
    ("ellipse, b 1 more", b_1_more::<ELLIPSE>),
    ("circle, a 1 more", a_1_more::<CIRCLE>),
    ("rectangle, a 1 more", a_1_more::<RECTANGLE>),
    ("ellipse, a 1 more", a_1_more::<ELLIPSE>),
    ("latitude 1 more", |stop, given| *given == Area { latitude: stop.latitude + 1, ..*stop }),
    ("longitude 1 more", |stop, given| *given == Area { longitude: stop.longitude + 1, ..*stop }),
    ("rectangle exchanged without the 90", exchanged::<RECTANGLE, 0>),
    ("ellipse exchanged without the 90", exchanged::<ELLIPSE, 0>),
    ("rectangle, 90 added without the exchange", turned_alone::<RECTANGLE>),
    ("ellipse, 90 added without the exchange", turned_alone::<ELLIPSE>),
    ("circle exchanged, 90 added", |stop, given| {
        stop.shape == CIRCLE && stop.a != stop.b && *given == stop.exchanged().turned(90)
    }),
    ("circles of different a", |stop, given| {
        stop.shape == CIRCLE && stop.a != given.a && *given == Area { a: given.a, ..*stop }
    }),
    ("square to circle", even_to_circle::<RECTANGLE>),
    ("circle to square", |stop, given| even_to_circle::<RECTANGLE>(given, stop)),
    ("square to ellipse of equal axes", square_to_ellipse),
    ("ellipse of equal axes to square", |stop, given| square_to_ellipse(given, stop)),
    ("rectangle to ellipse", rectangle_to_ellipse),
    ("ellipse to rectangle", |stop, given| rectangle_to_ellipse(given, stop)),
    ("ellipse, b one above a, and circle of a", nearly_disc::<1, false>),
    ("ellipse, b one above a, and circle of b", nearly_disc::<1, true>),
    ("ellipse, b one below a, and circle of a", nearly_disc::<-1, false>),
    ("ellipse, b one below a, and circle of b", nearly_disc::<-1, true>),
    ("one off the west end, and the east end", longitudes::<{ WEST_END + 1 }, EAST_END>),
    ("one off the east end, and the west end", longitudes::<{ EAST_END - 1 }, WEST_END>),
    ("two longitudes at the north pole", at_pole::<LATITUDE_BOUND>),
    ("two longitudes at the south pole", at_pole::<{ -LATITUDE_BOUND }>),
    ("square turned by 45", square_turned::<45>),
];

fn angle_1_more<const SHAPE: u64>(stop: &Area, given: &Area) -> bool {
    stop.shape == SHAPE && *given == Area { angle: stop.angle + 1, ..*stop }
}

fn b_1_more<const SHAPE: u64>(stop: &Area, given: &Area) -> bool {
    stop.shape == SHAPE && *given == Area { b: stop.b + 1, ..*stop }
}

fn a_1_more<const SHAPE: u64>(stop: &Area, given: &Area) -> bool {
    stop.shape == SHAPE && *given == Area { a: stop.a + 1, ..*stop }
}

fn turned_alone<const SHAPE: u64>(stop: &Area, given: &Area) -> bool {
    stop.shape == SHAPE && stop.a != stop.b && *given == stop.turned(90)
}

fn square_to_ellipse(stop: &Area, given: &Area) -> bool {
    stop.a == stop.b && as_ellipse(stop, given)
}

fn rectangle_to_ellipse(stop: &Area, given: &Area) -> bool {
    stop.a != stop.b && as_ellipse(stop, given)
}

fn as_ellipse(stop: &Area, given: &Area) -> bool {
    stop.shape == RECTANGLE && *given == Area { shape: ELLIPSE, ..*stop }
}

/// In either order, an ellipse whose b is so much above its a, and the circle with
/// one of the two for its radius.
fn nearly_disc<const ABOVE: i128, const OF_B: bool>(stop: &Area, given: &Area) -> bool {
    let is_pair = |ellipse: &Area, circle: &Area| {
        let a = if OF_B { ellipse.b } else { ellipse.a };
        ellipse.shape == ELLIPSE
            && i128::from(ellipse.b) - i128::from(ellipse.a) == ABOVE
            && *circle == Area { shape: CIRCLE, a, b: circle.b, angle: circle.angle, ..*ellipse }
    };
    is_pair(stop, given) || is_pair(given, stop)
}

/// The areas differ in nothing else and have these longitudes, in either order.
fn longitudes<const ONE: i128, const OTHER: i128>(stop: &Area, given: &Area) -> bool {
    *given == Area { longitude: given.longitude, ..*stop }
        && [(ONE, OTHER), (OTHER, ONE)].contains(&(stop.longitude, given.longitude))
}

fn at_pole<const LATITUDE: i128>(stop: &Area, given: &Area) -> bool {
    stop.latitude == LATITUDE
        && given.longitude != stop.longitude
        && *given == Area { longitude: given.longitude, ..*stop }
}
