//! Days with a table of thousands of stops, as only a table over a run has it. The
//! same days are made with a few hundred.

use super::city::City;
use super::day::Day;
use super::packets::{self, near_prefix};
use super::prefixes::first_bits;
use super::random::Random;
use super::themes::ALL_CALLS;
use super::{areas, values};
use crate::call::{Call, Destination, GEO_ANYCAST, GEO_BROADCAST, GEO_UNICAST};
use crate::limits::DISPATCHLIST;
use crate::packet::Address;
use crate::prefix::Prefix;
use crate::table::{Stop, FIRST_STOP, LARGEST_MAXIMUM_OVER_A_RUN};

/// A table that is filled up to the maximum, looked at from all sides, and filled again
/// after some of its stops have been disabled.
pub fn full_table(random: Random, maximum: u64) -> Day {
    let mut day = Day::within(DISPATCHLIST, random, 0);
    let mut city = City::new(&mut day.random);
    start(&mut day, maximum);
    enable_until_full(&mut day, &mut city);
    look_around(&mut day, &city);
    // Once with the last stop enabled behind the gaps, and once without it.
    for last_stays in [true, false] {
        let gone = disable_some(&mut day, maximum, last_stays);
        look_around(&mut day, &city);
        look_for(&mut day, &city, &gone);
        enable_again(&mut day, &mut city, &gone);
    }
    indices_above(&mut day);
    day.bad = 3;
    day.any_records(60, &ALL_CALLS);
    day
}

/// Thousands of stops, but fewer than there are indices, and records of every kind.
pub fn mixed(random: Random) -> Day {
    let mut day = Day::within(DISPATCHLIST, random, 0);
    let mut city = City::new(&mut day.random);
    let maximum = day.random.between(2_400, LARGEST_MAXIMUM_OVER_A_RUN - 2);
    start(&mut day, maximum);
    enable(&mut day, &mut city, 2_300);
    day.bad = 3;
    for _ in 0..6 {
        look_around(&mut day, &city);
        day.any_records(40, &ALL_CALLS);
        day.disable_one();
    }
    indices_above(&mut day);
    day
}

/// Packets that are longer than a number of 16 bits can say. Their length modulo
/// 65,536 is that of a good packet, and so is their length field.
pub fn long_packets(random: Random) -> Day {
    let mut day = Day::within(DISPATCHLIST, random, 0);
    let mut city = City::new(&mut day.random);
    start(&mut day, 66);
    enable(&mut day, &mut city, 10);
    let (_, source) = city.elsewhere(&mut day.random);
    let to = packets::multicast(&mut day.random);
    let packet = packets::packet(&mut day.random, &source, &to, 65_536 + 40);
    day.indicate(GEO_UNICAST, Destination::Mid(1), &packet);
    day.old_request_on(FIRST_STOP, None, &packet);
    day.request_by(FIRST_STOP, None, &source, &packet);
    // Reading goes on behind them.
    look_around(&mut day, &city);
    day.any_records(40, &ALL_CALLS);
    day
}

/// Starts that the maximum alone refuses, then the good one, then one that is 16.
pub fn start(day: &mut Day, maximum: u64) {
    let wide = values::wide_alias(&mut day.random, maximum);
    for outside in [LARGEST_MAXIMUM_OVER_A_RUN + 1, wide] {
        day.good_start(outside);
    }
    if day.random.percent(50) {
        let outside = day.random.pick(&[0, 1, 4_095, 4_096, 8_191, 65_535, u64::MAX]);
        day.good_start(outside);
    }
    day.good_start(maximum);
    day.good_start(65);
}

/// Enables so many new stops. The first one has two prefixes.
pub fn enable(day: &mut Day, city: &mut City, count: u64) {
    for place in 0..count {
        let (area, prefixes) = match place {
            0 => city.stop(&mut day.random, 2),
            _ => city.any_stop(&mut day.random),
        };
        day.enable_with(area, &prefixes);
    }
}

/// Enables new stops until no index is unused, and then one by each kind of record,
/// which gets none. The first stop has two prefixes, and so has the one that takes the
/// last unused index.
pub fn enable_until_full(day: &mut Day, city: &mut City) {
    loop {
        let table = day.table().expect("the day has started");
        let unused = table.maximum - 1 - table.stops.len() as u64;
        let with_two = unused == 1 || table.stops.is_empty();
        let (area, prefixes) = match unused {
            0 => break,
            _ if with_two => city.stop(&mut day.random, 2),
            _ => city.any_stop(&mut day.random),
        };
        day.enable_with(area, &prefixes);
    }
    let (area, prefixes) = city.stop(&mut day.random, 1);
    day.old_enable_with(area, &prefixes);
    day.enable_list(area, &prefixes);
}

/// The enabled stops with several prefixes at the front, somewhere between and at the
/// end.
fn marked(day: &mut Day) -> [(u64, Stop); 3] {
    let table = day.table().expect("the day has started");
    let with_several = table.stops.iter().filter(|(_, stop)| stop.prefixes.count > 1);
    let stops: Vec<(u64, Stop)> = with_several.map(|(&index, &stop)| (index, stop)).collect();
    [stops[0], day.random.pick(&stops), stops[stops.len() - 1]]
}

/// What arrives for the first, one between, the last and none of the stops; enables
/// that they refuse; and requests on them.
pub fn look_around(day: &mut Day, city: &City) {
    let marked = marked(day);
    for (index, stop) in marked {
        arrive(day, city, &stop);
        refused_by(day, city, &stop, &stop);
        request(day, index);
    }
    let [(_, first), _, (_, last)] = marked;
    for (one, other) in [(first, last), (last, first)] {
        arrive_for_two(day, &one, &other);
        refused_by(day, city, &one, &other);
    }
    let (area, to) = city.elsewhere(&mut day.random);
    day.indicate_to_area(GEO_BROADCAST, area);
    let (_, source) = city.elsewhere(&mut day.random);
    arrive_by(day, &source, &to);
}

/// By area, and by destination and by source of each prefix.
fn arrive(day: &mut Day, city: &City, stop: &Stop) {
    for transport in [GEO_ANYCAST, GEO_BROADCAST] {
        let area = areas::described_otherwise(&mut day.random, &stop.area);
        day.indicate_to_area(transport, area);
    }
    for prefix in stop.prefixes.listed() {
        let within = near_prefix(&mut day.random, prefix, true);
        let (_, elsewhere) = city.elsewhere(&mut day.random);
        arrive_by(day, &elsewhere, &within);
        arrive_by(day, &within, &elsewhere);
    }
}

/// `line-3`: the destination is asked first, wherever the stops stand in the table and
/// the prefixes in their lists.
fn arrive_for_two(day: &mut Day, of_destination: &Stop, of_source: &Stop) {
    let to = near_prefix(&mut day.random, &of_destination.prefixes.places[1], true);
    let source = near_prefix(&mut day.random, &of_source.prefixes.places[0], true);
    arrive_by(day, &source, &to);
}

fn arrive_by(day: &mut Day, source: &Address, to: &Address) {
    let packet = packets::packet(&mut day.random, source, to, 40);
    let mid = values::mid(&mut day.random, 0);
    day.indicate(GEO_UNICAST, Destination::Mid(mid), &packet);
}

/// Enables of each kind with the area of one stop, with a prefix within one of the
/// other, and with both, which is 4. In kind 9 it stands behind a new one.
fn refused_by(day: &mut Day, city: &City, of_area: &Stop, of_prefix: &Stop) {
    let area = areas::described_otherwise(&mut day.random, &of_area.area);
    let (new_area, address) = city.elsewhere(&mut day.random);
    let new = first_bits(&address, 128);
    day.old_enable_with(area, &[new]);
    day.enable_list(area, &[new]);
    for prefix in &of_prefix.prefixes.listed()[..2] {
        let inside = within(&mut day.random, prefix);
        for given in [new_area, area] {
            day.old_enable_with(given, &[inside]);
            day.enable_list(given, &[new, inside]);
        }
    }
}

/// No shorter than the prefix, and inside it, so that it overlaps no other's.
fn within(random: &mut Random, prefix: &Prefix) -> Prefix {
    let address = near_prefix(random, prefix, true);
    first_bits(&address, random.between(prefix.length, 128))
}

/// Requests of both kinds that an enabled stop link does not refuse.
fn request(day: &mut Day, index: u64) {
    let source = packets::with_identifier(&mut day.random);
    let to = packets::multicast(&mut day.random);
    let packet = packets::packet(&mut day.random, &source, &to, 40);
    day.old_request_on(index, None, &packet);
    day.request_by(index, None, &source, &packet);
}

/// Disables the first or the last stop, and some between; what they were.
fn disable_some(day: &mut Day, maximum: u64, last_stays: bool) -> Vec<(u64, Stop)> {
    let mut indices = vec![if last_stays { FIRST_STOP } else { maximum }];
    for _ in 0..6 {
        indices.push(day.random.between(FIRST_STOP + 1, maximum - 1));
    }
    let mut gone = Vec::new();
    for index in indices {
        let stop = day.table().and_then(|table| table.stops.get(&index).copied());
        gone.extend(stop.map(|stop| (index, stop)));
        // Where the index was drawn twice, the second time it is 7.
        day.add(&Call::Disable(index));
    }
    gone
}

/// Nothing finds a disabled stop.
fn look_for(day: &mut Day, city: &City, gone: &[(u64, Stop)]) {
    for (index, stop) in gone {
        arrive(day, city, stop);
        request(day, *index);
        day.add(&Call::Disable(*index));
    }
}

/// Half of the settings that are gone come back, those of the last first, their
/// prefixes in another order; new stops take the rest of the indices.
fn enable_again(day: &mut Day, city: &mut City, gone: &[(u64, Stop)]) {
    for (_, stop) in gone.iter().rev().step_by(2) {
        let prefixes: Vec<Prefix> = stop.prefixes.listed().iter().rev().copied().collect();
        day.enable_list(stop.area, &prefixes);
    }
    enable_until_full(day, city);
}

/// `reply-7`: indices above the maximum, with a record of the run and without one, and
/// some that a narrow type would take for one that is enabled.
pub fn indices_above(day: &mut Day) {
    let maximum = day.table().expect("the day has started").maximum;
    let last = LARGEST_MAXIMUM_OVER_A_RUN;
    let mut indices = vec![maximum + 1, last + 1, last + 2, last + 3, u64::MAX];
    if maximum < last {
        indices.extend([day.random.between(maximum + 1, last), last]);
    }
    let enabled = day.enabled_index().unwrap_or(FIRST_STOP);
    indices.extend([(1 << 12) + enabled, values::wide_alias(&mut day.random, enabled)]);
    for index in indices {
        day.add(&Call::Disable(index));
        request(day, index);
    }
}
