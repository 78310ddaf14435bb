//! A small range of good areas that holds every kind of case, for tests.

use crate::area::{
    Area, CIRCLE, EAST_END, ELLIPSE, FULL_TURN, LATITUDE_BOUND, RECTANGLE, WEST_END,
};

const NORTH: i128 = LATITUDE_BOUND;

/// Latitudes and longitudes: the ends, one off them, and the poles.
pub const CENTRES: [(i128, i128); 10] = [
    (0, WEST_END),
    (0, WEST_END + 1),
    (0, 0),
    (0, EAST_END - 1),
    (0, EAST_END),
    (1, WEST_END),
    (NORTH, WEST_END),
    (NORTH, 0),
    (NORTH, EAST_END),
    (-NORTH, 0),
];

/// Angles around the quarters of a turn and between them; the first eight have one
/// of each sort.
pub const ANGLES: [u64; 16] =
    [0, 1, 45, 90, 91, 180, 270, 359, 44, 89, 134, 179, 181, 225, 269, 271];

pub fn every_angle() -> Vec<u64> {
    (0..FULL_TURN).collect()
}

/// The good areas with these centres and angles, and distances up to the longest.
pub fn areas(centres: &[(i128, i128)], longest: u64, angles: &[u64]) -> Vec<Area> {
    let mut areas = Vec::new();
    for &(latitude, longitude) in centres {
        for shape in [CIRCLE, RECTANGLE, ELLIPSE] {
            for (a, b) in (1..=longest).flat_map(|a| (0..=longest).map(move |b| (a, b))) {
                let area = Area { shape, latitude, longitude, a, b, angle: 0 };
                areas.extend(angles.iter().map(|&angle| Area { angle, ..area }));
            }
        }
    }
    areas.retain(Area::is_good);
    areas
}
