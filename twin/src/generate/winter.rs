//! Old day files, of last winter: interface kind 2 was in use then, and is retired now
//! (`kind-retired`). So their first starts are refused, and some of their stops, which
//! stand in records of kind 2.

use super::day::{Day, Weights};
use super::random::Random;
use super::starts::{self, ALL_BUT_STARTS};
use super::values;
use crate::call::{Call, GEO_BROADCAST};
use crate::link::{InterfaceNumbers, RETIRED_KIND};
use crate::table::StopSettings;

/// More enables than disables, so that a small table gets full.
const AMONG_THE_STOPS: Weights = [0, 4, 2, 1, 1, 6, 4, 2, 1];

/// Starts of kind 2 with records behind them, which are 16; then a good start, and
/// the day goes on.
pub fn last_winter(random: Random) -> Day {
    let mut day = Day::new(random, 3);
    for _ in 0..day.random.between(1, 3) {
        old_start(&mut day);
        let count = day.random.between(1, 25);
        day.any_records(count, &ALL_BUT_STARTS);
    }
    let maximum = day.maximum(0);
    day.good_start(maximum);
    for _ in 0..30 {
        old_stop(&mut day);
        day.any_records(4, &AMONG_THE_STOPS);
    }
    // As a second start it is 16, not 30.
    old_start(&mut day);
    day.any_records(10, &AMONG_THE_STOPS);
    day
}

fn old_start(day: &mut Day) {
    let largest = day.limits().largest_maximum;
    let settings = match day.random.percent(70) {
        true => starts::retired(&mut day.random, largest),
        false => starts::retired_and_one_outside(&mut day.random, largest),
    };
    day.add(&Call::Start(settings));
}

/// A stop of kind 2, what arrives for its area, and most often the same stop with a
/// kind that links can have: the refusal left area, prefix and index unused.
fn old_stop(day: &mut Day) {
    let (area, prefixes) = day.area_and_prefix();
    let flag = values::flag(&mut day.random, 10);
    let interface = InterfaceNumbers { kind: RETIRED_KIND, flag };
    day.add_old_enable(&StopSettings { area, prefixes, interface });
    day.indicate_to_area(GEO_BROADCAST, area);
    if day.random.percent(60) {
        day.enable_with(area, prefixes.listed());
    }
}
