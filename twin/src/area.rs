//! Areas (docs/RULES.md, "Area").

pub const CIRCLE: u64 = 0;
pub const RECTANGLE: u64 = 1;
pub const ELLIPSE: u64 = 2;

pub const LATITUDE_BOUND: i128 = 900_000_000;
pub const LONGITUDE_BOUND: i128 = 1_800_000_000;
pub const WEST_END: i128 = -LONGITUDE_BOUND;
pub const EAST_END: i128 = LONGITUDE_BOUND;
pub const LONGEST_DISTANCE: u64 = 65_535;
pub const LARGEST_ANGLE: u64 = 359;
pub const FULL_TURN: u64 = LARGEST_ANGLE + 1;

/// The six numbers of an area, wide enough for every number that a day file
/// can hold: one that fits no narrow type answers 2, never 14
/// (`record-too-wide`).
///
/// `==` asks for the same six numbers, as two calls or two tables are compared.
/// Whether two areas are equal is asked by [`equals`](Area::equals).
#[derive(Clone, Copy, Debug, PartialEq, Eq)]
pub struct Area {
    pub shape: u64,
    pub latitude: i128,
    pub longitude: i128,
    pub a: u64,
    pub b: u64,
    pub angle: u64,
}

impl Area {
    /// `area-good`. The upper bound of a and b is part of it.
    pub fn is_good(&self) -> bool {
        let shortest_b = if self.shape == CIRCLE { 0 } else { 1 };
        [CIRCLE, RECTANGLE, ELLIPSE].contains(&self.shape)
            && (-LATITUDE_BOUND..=LATITUDE_BOUND).contains(&self.latitude)
            && (-LONGITUDE_BOUND..=LONGITUDE_BOUND).contains(&self.longitude)
            && (1..=LONGEST_DISTANCE).contains(&self.a)
            && (shortest_b..=LONGEST_DISTANCE).contains(&self.b)
            && self.angle <= LARGEST_ANGLE
    }

    /// So many degrees added to the angle, modulo 360.
    pub fn turned(&self, degrees: u64) -> Area {
        Area { angle: (self.angle + degrees) % FULL_TURN, ..*self }
    }

    /// a and b exchanged.
    pub fn exchanged(&self) -> Area {
        Area { a: self.b, b: self.a, ..*self }
    }

    /// For an area at one end of the longitudes, the same at the other.
    pub fn at_the_other_end(&self) -> Option<Area> {
        let at_an_end = [WEST_END, EAST_END].contains(&self.longitude);
        at_an_end.then(|| Area { longitude: -self.longitude, ..*self })
    }
}

#[cfg(test)]
mod tests {
    use super::*;

    const GOOD: Area = Area { shape: RECTANGLE, latitude: 0, longitude: 0, a: 1, b: 1, angle: 0 };

    fn good(change: impl Fn(&mut Area)) -> bool {
        let mut area = GOOD;
        change(&mut area);
        area.is_good()
    }

    #[test]
    fn shapes() {
        for shape in 0..=2 {
            assert!(good(|area| area.shape = shape));
        }
        for shape in [3, 255, 256, 1 << 32, u64::MAX] {
            assert!(!good(|area| area.shape = shape));
        }
    }

    #[test]
    fn latitude_and_longitude_bounds() {
        for sign in [-1, 1] {
            assert!(good(|area| area.latitude = sign * 900_000_000));
            assert!(!good(|area| area.latitude = sign * 900_000_001));
            assert!(good(|area| area.longitude = sign * 1_800_000_000));
            assert!(!good(|area| area.longitude = sign * 1_800_000_001));
        }
        assert!(!good(|area| area.latitude = 1 << 32));
        assert!(!good(|area| area.longitude = i128::MIN));
    }

    #[test]
    fn distances() {
        for distance in [1, 65_535] {
            assert!(good(|area| area.a = distance));
            assert!(good(|area| area.b = distance));
        }
        for distance in [0, 65_536, 65_537, u64::MAX] {
            assert!(!good(|area| area.a = distance));
            assert!(!good(|area| area.b = distance));
        }
    }

    #[test]
    fn only_a_circle_may_have_b_0() {
        assert!(good(|area| (area.shape, area.b) = (CIRCLE, 0)));
        assert!(!good(|area| (area.shape, area.b) = (RECTANGLE, 0)));
        assert!(!good(|area| (area.shape, area.b) = (ELLIPSE, 0)));
        assert!(!good(|area| (area.shape, area.a) = (CIRCLE, 0)));
        assert!(!good(|area| (area.shape, area.b) = (CIRCLE, 65_536)));
    }

    #[test]
    fn the_angle_is_bounded_for_each_shape() {
        for shape in 0..=2 {
            assert!(good(|area| (area.shape, area.angle) = (shape, 359)));
            assert!(!good(|area| (area.shape, area.angle) = (shape, 360)));
        }
    }

    #[test]
    fn turns_stay_below_360() {
        let at = |angle| Area { angle, ..GOOD };
        assert_eq!(at(269).turned(90), at(359));
        assert_eq!(at(270).turned(90), at(0));
        assert_eq!(at(359).turned(270), at(269));
    }

    #[test]
    fn only_an_end_has_another_end() {
        let at = |longitude| Area { longitude, ..GOOD };
        assert_eq!(at(1_800_000_000).at_the_other_end(), Some(at(-1_800_000_000)));
        assert_eq!(at(-1_800_000_000).at_the_other_end(), Some(at(1_800_000_000)));
        for longitude in [0, 1_799_999_999, -1_799_999_999, 1_800_000_001, i128::MIN] {
            assert_eq!(at(longitude).at_the_other_end(), None);
        }
    }
}
