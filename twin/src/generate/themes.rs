//! Days of whole records, each with a theme of the rules.

use super::day::{Day, Weights};
use super::faults::several_faults;
use super::hops::next_hops;
use super::packets;
use super::random::Random;
use super::several::{lists_of_prefixes, operators};
use super::starts::starts;
use super::{areas, lists, prefixes, values};
use crate::area::Area;
use crate::call::{Call, Destination, GEO_ANYCAST, GEO_BROADCAST, GEO_UNICAST};
use crate::prefix::Prefix;
use crate::reply::Refusal;
use crate::table::LARGEST_MAXIMUM;

/// Starts, enables of kind 2, disables, DGVL areas, own MIDs, indications, requests of
/// kinds 7 and 8, enables of kind 9.
pub const ALL_CALLS: Weights = [1, 10, 8, 7, 4, 30, 10, 18, 16];

/// Full tables: every index enabled, then 6; disables and enables again.
pub fn full_table(random: Random, maximum: u64) -> Day {
    let mut day = Day::new(random, 0);
    day.good_start(maximum);
    enable_until_full(&mut day);
    let mut rounds = day.random.between(2, 5);
    // Another round of the largest table might go past what is read.
    while rounds > 0 && day.bytes().len() < 35_000 {
        rounds -= 1;
        visit_every_index(&mut day, maximum);
        for _ in 0..day.random.between(1, 6) {
            day.disable_one();
            day.any_indication(GEO_BROADCAST);
        }
        enable_until_full(&mut day);
        day.any_records(12, &ALL_CALLS);
    }
    day
}

fn enable_until_full(day: &mut Day) {
    // Prefixes may overlap by chance, so try more often than there are indices.
    for _ in 0..3 * LARGEST_MAXIMUM {
        let area = areas::fresh(&mut day.random);
        let count = day.random.pick(&[0, 0, 1, 1, 1, 1, 1, 2, 3, 4]);
        let prefixes = lists::fresh(&mut day.random, count);
        if day.enable_with(area, &prefixes).reply == Refusal::NoIndexFree.number() {
            return;
        }
    }
}

/// A request on each index up to one past the maximum, and indications to each
/// stop's own area and into its prefix.
fn visit_every_index(day: &mut Day, maximum: u64) {
    for index in 0..=maximum + 1 {
        let packet = day.packet();
        let given = values::mid(&mut day.random, 0);
        day.request_on(index, Some(given), &packet);
    }
    for area in day.known_areas() {
        let packet = day.packet();
        let transport = day.random.pick(&[GEO_ANYCAST, GEO_BROADCAST]);
        day.indicate(transport, Destination::Area(area), &packet);
    }
    for prefix in day.known_prefixes() {
        let to = packets::near_prefix(&mut day.random, &prefix, true);
        let source = packets::address(&mut day.random, &[prefix], 5);
        let packet = packets::packet(&mut day.random, &source, &to, 40);
        day.indicate(GEO_UNICAST, Destination::Mid(1), &packet);
    }
}

/// Areas that differ from a stop's in one number by one, and bad ones.
pub fn near_areas(random: Random) -> Day {
    let mut day = Day::new(random, 0);
    day.good_start(LARGEST_MAXIMUM);
    for _ in 0..6 {
        let base = areas::good(&mut day.random);
        day.enable_with(base, &[]);
        for place in 0..6 {
            for up in [false, true] {
                let near = areas::one_apart(&base, place, up);
                use_area(&mut day, near);
            }
            let spoiled = areas::spoiled(&mut day.random, &base);
            use_area(&mut day, spoiled);
            use_area(&mut day, base);
        }
        day.disable_one();
    }
    day
}

/// Gives the area to one of the three calls that take one.
fn use_area(day: &mut Day, area: Area) {
    let packet = day.packet();
    match day.random.below(6) {
        0 => {
            day.enable_with(area, &[]);
        }
        1 => {
            day.add(&Call::DgvlArea(Some(area)));
        }
        _ => {
            let transport = day.random.pick(&[GEO_ANYCAST, GEO_BROADCAST]);
            day.indicate(transport, Destination::Area(area), &packet);
        }
    }
}

/// Prefixes of every length, their relatives, and packets around them.
pub fn prefix_lengths(random: Random) -> Day {
    let mut day = Day::new(random, 0);
    day.good_start(LARGEST_MAXIMUM);
    let first = day.random.between(1, 4);
    for length in (first..=128).step_by(4) {
        let address = prefixes::fresh(&mut day.random).bytes;
        let base = prefixes::first_bits(&address, length);
        enable_prefix(&mut day, base);
        let relative = prefixes::related(&mut day.random, &base);
        enable_prefix(&mut day, relative);
        for _ in 0..3 {
            day.any_indication(GEO_UNICAST);
        }
        let other = match day.random.percent(50) {
            true => prefixes::around_the_forbidden(&mut day.random),
            false => prefixes::with_bit_past_length(&mut day.random, &base),
        };
        enable_prefix(&mut day, other);
        day.disable_one();
    }
    day
}

fn enable_prefix(day: &mut Day, prefix: Prefix) {
    let area = areas::fresh(&mut day.random);
    day.enable_with(area, &[prefix]);
}

/// Packets of every length at the bounds, right and wrong ones, in and out.
pub fn packet_bounds(random: Random) -> Day {
    let mut day = Day::new(random, 0);
    let maximum = day.random.between(3, 9);
    day.good_start(maximum);
    enable_until_full(&mut day);
    day.bad = 12;
    for length in [0, 1, 39, 40, 41, 295, 296, 297, 1_279, 1_280, 1_281, 1_282, 1_295, 1_500] {
        send_and_receive(&mut day, length);
    }
    day.long = 10;
    day.any_records(90, &[0, 1, 1, 1, 1, 50, 20, 30, 1]);
    day
}

fn send_and_receive(day: &mut Day, length: usize) {
    let known = day.known_prefixes();
    let source = packets::address(&mut day.random, &known, 5);
    let to = packets::address(&mut day.random, &known, 5);
    let packet = packets::packet(&mut day.random, &source, &to, length);
    day.indicate(GEO_UNICAST, Destination::Mid(5), &packet);
    let mut wrong = packet.clone();
    packets::spoil(&mut day.random, &mut wrong);
    let index = day.index();
    day.request_on(index, Some(5), &packet);
    day.request_on(index, None, &wrong);
}

/// Requests on stops of each kind that links can have and each flag, to every sort of
/// destination.
pub fn requests(random: Random) -> Day {
    let mut day = Day::new(random, 0);
    day.good_start(7);
    day.enable_each_interface();
    for _ in 0..2 {
        day.any_records(3, &[0, 0, 1, 5, 1, 0, 0, 0, 0]);
        for index in 0..=7 {
            request_each_destination(&mut day, index);
        }
        day.bad = 5;
        day.any_records(20, &[0, 1, 2, 6, 1, 3, 10, 20, 1]);
    }
    day
}

fn request_each_destination(day: &mut Day, index: u64) {
    let random = &mut day.random;
    let destinations = [
        packets::multicast(random),
        packets::with_identifier(random),
        packets::without_identifier(random),
        packets::special(random),
    ];
    for to in destinations {
        let source = packets::address(&mut day.random, &[], 3);
        let packet = packets::packet(&mut day.random, &source, &to, 41);
        let given = values::mid(&mut day.random, 5);
        day.request_on(index, None, &packet);
        day.request_on(index, Some(given), &packet);
    }
}

/// Values out of range in every call, up to numbers that fit no type.
pub fn out_of_range(random: Random) -> Day {
    let mut day = Day::new(random, 25);
    let maximum = day.maximum(0);
    day.good_start(maximum);
    day.any_records(250, &ALL_CALLS);
    day
}

/// A bit of everything.
pub fn mixed(random: Random) -> Day {
    let mut day = Day::new(random, 3);
    let maximum = day.maximum(0);
    day.good_start(maximum);
    let count = day.random.between(40, 400);
    day.any_records(count, &ALL_CALLS);
    day
}

/// One of the days that is not too long to be damaged with profit.
pub fn any(mut random: Random) -> Day {
    match random.below(11) {
        0 => {
            let maximum = values::maximum(&mut random, LARGEST_MAXIMUM, 0);
            full_table(random, maximum)
        }
        1 => near_areas(random),
        2 => prefix_lengths(random),
        3 => requests(random),
        4 => starts(random),
        5 => out_of_range(random),
        6 => several_faults(random),
        7 => next_hops(random),
        8 => lists_of_prefixes(random),
        9 => operators(random),
        _ => mixed(random),
    }
}
