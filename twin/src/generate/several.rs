//! Days of stops with several prefixes: lists that are refused at each of their places,
//! and what arrives for each place of enabled ones.

use super::day::Day;
use super::lists::{self, apart};
use super::packets::{self, near_prefix};
use super::prefixes::{beside, first_bits, with_bit_past_length};
use super::random::Random;
use super::themes::ALL_CALLS;
use super::{areas, values};
use crate::call::{Call, Destination, GEO_UNICAST};
use crate::packet::Address;
use crate::prefix::{Prefix, NO_PREFIX};
use crate::prefix_list::MOST_PREFIXES;
use crate::table::{Stop, LARGEST_MAXIMUM};

/// How many stops there are room for in the table of [`show_lists`] and
/// [`show_arrivals`].
pub const ROOM: u64 = 10;

/// Enables with lists that are good, and with lists that are refused.
pub fn lists_of_prefixes(random: Random) -> Day {
    let mut day = started(random);
    show_lists(&mut day);
    day.any_records(15, &ALL_CALLS);
    day
}

/// What arrives for stops with several prefixes, before and after they are disabled.
pub fn operators(random: Random) -> Day {
    let mut day = started(random);
    show_arrivals(&mut day);
    day.any_records(15, &ALL_CALLS);
    day
}

fn started(random: Random) -> Day {
    let mut day = Day::new(random, 0);
    let maximum = day.random.between(ROOM + 1, LARGEST_MAXIMUM);
    day.good_start(maximum);
    day
}

/// So many prefixes that overlap none of the enabled stops'.
fn new(day: &mut Day, count: usize) -> Vec<Prefix> {
    let known = day.known_prefixes();
    apart(&mut day.random, &known, count)
}

fn enable(day: &mut Day, prefixes: &[Prefix]) -> Option<u64> {
    let area = areas::fresh(&mut day.random);
    day.enable_list(area, prefixes).link
}

fn old_enable(day: &mut Day, prefixes: &[Prefix]) -> Option<u64> {
    let area = areas::fresh(&mut day.random);
    day.old_enable_with(area, prefixes).link
}

/// Enables a stop with so many new prefixes.
fn mast(day: &mut Day, count: usize) -> Stop {
    let prefixes = new(day, count);
    let index = enable(day, &prefixes).expect("there is room for it");
    day.table().expect("the day has started").stops[&index]
}

/// On a table in which there is room, and of whose prefixes none is short.
pub fn show_lists(day: &mut Day) {
    let stop = mast(day, MOST_PREFIXES);
    for count in 0..MOST_PREFIXES {
        mast(day, count);
    }
    enable(day, &[]);
    enable_by_kind_2(day, &stop);
    bad_lists(day);
    overlapping_lists(day);
    lists_over_a_stops(day, &stop);
    lists_beside(day, &stop);
}

/// One prefix, none, and one that overlaps each of the stop's.
fn enable_by_kind_2(day: &mut Day, stop: &Stop) {
    let one = new(day, 1);
    old_enable(day, &one);
    old_enable(day, &[]);
    let over_old = like(&mut day.random, &one[0]);
    let mut list = new(day, 2);
    list.push(over_old);
    enable(day, &list);
    for prefix in stop.prefixes.listed() {
        let over = like(&mut day.random, prefix);
        old_enable(day, &[over]);
    }
}

/// Equal, inside, or around by one bit.
fn like(random: &mut Random, prefix: &Prefix) -> Prefix {
    match random.below(3) {
        0 => *prefix,
        1 => inside(random, prefix),
        _ => first_bits(&prefix.bytes, prefix.length - 1),
    }
}

/// Longer where there is room for it.
fn inside(random: &mut Random, prefix: &Prefix) -> Prefix {
    let address = near_prefix(random, prefix, true);
    let longer = (prefix.length + 1).min(128);
    first_bits(&address, random.between(longer, 128))
}

/// 3: one is bad, at each place of four; and lengths 0 in shorter lists.
fn bad_lists(day: &mut Day) {
    for place in 0..MOST_PREFIXES {
        let base = lists::narrow(&mut day.random);
        let past = with_bit_past_length(&mut day.random, &base);
        for bad in [NO_PREFIX, past, lists::reserved(&mut day.random)] {
            let mut list = new(day, MOST_PREFIXES);
            list[place] = bad;
            enable(day, &list);
        }
    }
    let good = new(day, 2);
    let (one, other) = (good[0], inside(&mut day.random, &good[0]));
    for list in [
        &[NO_PREFIX][..],
        &[one, NO_PREFIX],
        &[NO_PREFIX, one],
        &[NO_PREFIX, NO_PREFIX],
        &[one, NO_PREFIX, other],
        &[NO_PREFIX, one, other],
        &[one, good[1], other, NO_PREFIX],
    ] {
        enable(day, list);
    }
}

/// 5: two of the list overlap, at each two places, in each way.
fn overlapping_lists(day: &mut Day) {
    for later in 1..MOST_PREFIXES {
        for earlier in 0..later {
            for (inner, outer) in [(earlier, later), (later, earlier)] {
                let count = day.random.between(later as u64 + 1, MOST_PREFIXES as u64);
                let mut list = with_room_inside(day, count as usize);
                list[inner] = inside(&mut day.random, &list[outer]);
                enable(day, &list);
                list[inner] = list[outer];
                enable(day, &list);
            }
        }
    }
}

/// As [`new`], but none is so long that nothing longer is inside.
fn with_room_inside(day: &mut Day, count: usize) -> Vec<Prefix> {
    loop {
        let list = new(day, count);
        if list.iter().all(|prefix| prefix.length < 128) {
            return list;
        }
    }
}

/// 5: one of the list is like one of the stop's, each place with each place.
fn lists_over_a_stops(day: &mut Day, stop: &Stop) {
    for place in 0..MOST_PREFIXES {
        for of_stop in stop.prefixes.listed() {
            let count = day.random.between(place as u64 + 1, MOST_PREFIXES as u64);
            let mut list = new(day, count as usize);
            list[place] = like(&mut day.random, of_stop);
            enable(day, &list);
        }
    }
}

/// Two that lie side by side do not overlap, in one list or in two.
fn lists_beside(day: &mut Day, stop: &Stop) {
    let one = new(day, 1)[0];
    let beside_stops: Vec<Prefix> = stop.prefixes.listed()[1..].iter().map(beside).collect();
    for list in [vec![one, beside(&one)], beside_stops] {
        // Where what is beside happens to overlap, it is refused.
        if let Some(index) = enable(day, &list) {
            day.add(&Call::Disable(index));
        }
    }
}

/// As [`show_lists`].
pub fn show_arrivals(day: &mut Day) {
    let stops = [mast(day, MOST_PREFIXES), mast(day, 2), mast(day, MOST_PREFIXES)];
    mast(day, 0);
    for stop in &stops {
        arrive_at_each(day, stop);
    }
    let [first, _, last] = &stops;
    for to in 0..MOST_PREFIXES {
        for from in 0..MOST_PREFIXES {
            arrive_between(day, &first.prefixes.places[to], &last.prefixes.places[from]);
            arrive_between(day, &last.prefixes.places[to], &first.prefixes.places[from]);
        }
    }
    let [to, from, ..] = first.prefixes.places;
    arrive_between(day, &to, &from);
    for stop in &stops {
        move_prefixes(day, stop);
    }
}

/// To each prefix, from each prefix, and just beside each.
fn arrive_at_each(day: &mut Day, stop: &Stop) {
    for prefix in stop.prefixes.listed() {
        let nobody = new(day, 1)[0];
        arrive_between(day, prefix, &nobody);
        arrive_between(day, &nobody, prefix);
        let beside = near_prefix(&mut day.random, prefix, false);
        let from = near_prefix(&mut day.random, &nobody, true);
        arrive(day, &beside, &from);
    }
}

fn arrive_between(day: &mut Day, to: &Prefix, from: &Prefix) {
    let to = near_prefix(&mut day.random, to, true);
    let from = near_prefix(&mut day.random, from, true);
    arrive(day, &to, &from);
}

fn arrive(day: &mut Day, to: &Address, from: &Address) {
    let packet = packets::packet(&mut day.random, from, to, 40);
    let mid = values::mid(&mut day.random, 0);
    day.indicate(GEO_UNICAST, Destination::Mid(mid), &packet);
}

/// Disables the stop and gives its prefixes, in another order, to another; half of the
/// times another index is the lowest by then.
fn move_prefixes(day: &mut Day, stop: &Stop) {
    let table = day.table().expect("the day has started");
    let index = table.stops.iter().find(|(_, other)| *other == stop).map(|(&index, _)| index);
    day.add(&Call::Disable(index.expect("it is enabled")));
    arrive_at_each(day, stop);
    if day.random.percent(50) {
        mast(day, 1);
    }
    let mut prefixes = stop.prefixes.listed().to_vec();
    prefixes.rotate_left(1);
    enable(day, &prefixes);
    arrive_at_each(day, stop);
}

#[cfg(test)]
mod tests {
    use super::*;

    /// None of the lists happens to be refused for another cause.
    #[test]
    fn what_is_refused_is_refused_as_it_is_meant() {
        let mut replies = [0; 8];
        for seed in 0..20 {
            let mut day = started(Random::new(seed));
            let stop = mast(&mut day, MOST_PREFIXES);
            for (show, reply) in [(bad_lists as fn(&mut Day), 3), (overlapping_lists, 5)] {
                let before = day.offsets().len();
                show(&mut day);
                assert_eq!(day.table().unwrap().stops.len(), 1, "each is {reply}");
                replies[reply] += day.offsets().len() - before;
            }
            lists_over_a_stops(&mut day, &stop);
            assert_eq!(day.table().unwrap().stops.len(), 1);
        }
        assert_eq!((replies[3], replies[5]), (20 * (12 + 7), 20 * 24));
    }
}
