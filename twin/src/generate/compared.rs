//! Days on which areas are compared: joined ones and near misses, each of a pair
//! once as a stop's area and once as the one that is given.

use super::areas;
use super::day::Day;
use super::joined::{self, Pair};
use super::near;
use super::random::Random;
use crate::area::{EAST_END, WEST_END};
use crate::call::{Call, GEO_ANYCAST, GEO_BROADCAST};

/// Each pair where it lies and at the two ends of the longitudes, and chains.
pub fn joined_areas(random: Random) -> Day {
    let mut day = day_with_stops(random);
    for make in joined::MAKERS {
        let pair = make(&mut day.random);
        compare_both_ways(&mut day, pair);
        let (mut one, mut other) = make(&mut day.random);
        (one.longitude, other.longitude) = (WEST_END, EAST_END);
        compare_both_ways(&mut day, (one, other));
    }
    for _ in 0..6 {
        let area = areas::good(&mut day.random);
        let other = areas::described_otherwise(&mut day.random, &area);
        compare_both_ways(&mut day, (area, other));
    }
    day
}

pub fn near_misses(random: Random) -> Day {
    let mut day = day_with_stops(random);
    for make in near::MAKERS {
        let pair = make(&mut day.random);
        compare_both_ways(&mut day, pair);
    }
    day
}

/// Some stops elsewhere, so that the index of the one in question varies. There is
/// room for one more, but not always for two.
fn day_with_stops(random: Random) -> Day {
    let mut day = Day::new(random, 0);
    let maximum = day.random.between(3, 9);
    day.good_start(maximum);
    for _ in 0..day.random.between(0, maximum - 2) {
        let area = areas::fresh(&mut day.random);
        day.enable_with(area, &[]);
    }
    if day.random.percent(50) {
        day.disable_one();
    }
    day
}

fn compare_both_ways(day: &mut Day, (one, other): Pair) {
    for (of_stop, given) in [(one, other), (other, one)] {
        let stop = day.enable_with(of_stop, &[]);
        for transport in [GEO_ANYCAST, GEO_BROADCAST] {
            day.indicate_to_area(transport, given);
        }
        let second = day.enable_with(given, &[]);
        for index in [stop.link, second.link].into_iter().flatten() {
            day.add(&Call::Disable(index));
        }
    }
}
