//! Days of enables, indications and requests with several faults at once: which
//! reply is listed then depends on the order of the refusals.

use super::day::Day;
use super::packets;
use super::random::Random;
use super::{areas, hops, lists, prefixes, values};
use crate::area::Area;
use crate::arriving::Indication;
use crate::call::{Call, Destination, GEO_ANYCAST, GEO_BROADCAST, GEO_UNICAST};
use crate::link::{InterfaceNumbers, RETIRED_KIND};
use crate::packet::{Address, LOOPBACK};
use crate::prefix::{Prefix, NO_PREFIX};
use crate::prefix_list::{PrefixList, MOST_PREFIXES};
use crate::reply::Refusal::{self, *};
use crate::table::{StopSettings, DGVL, FIRST_STOP, LARGEST_MAXIMUM};

/// `enable-refusals`, but for 6, which each enable has besides in a full table, and 29,
/// which no record has.
const OF_ENABLE: [Refusal; 6] = [
    ValueOutsideItsList,
    RetiredKind,
    AreaNotGood,
    PrefixNotGood,
    AreaEqualToAStops,
    PrefixOverlapsAnother,
];

/// `indication-refusals`, but for 13, which each long packet has besides.
const OF_INDICATION: [Refusal; 7] = [
    ValueOutsideItsList,
    AreaNotGood,
    PacketAbove1280,
    PacketShort,
    VersionNot6,
    LengthFieldWrong,
    AddressNotAllowed,
];

/// `request-refusals`.
const OF_REQUEST: [Refusal; 9] = [
    ValueOutsideItsList,
    NoEnabledLink,
    PacketAbove1280,
    PacketShort,
    VersionNot6,
    LengthFieldWrong,
    AddressNotAllowed,
    MulticastWithoutArea,
    NeighbourNotResolvable,
];

/// Some of the refusals whose conditions shall hold of one record. Where two
/// exclude each other, one of them is left out.
struct Faults(Vec<Refusal>);

impl Faults {
    fn any(random: &mut Random, possible: &[Refusal]) -> Faults {
        let count = random.between(2, 3);
        Faults((0..count).map(|_| random.pick(possible)).collect())
    }

    fn has(&self, refusal: Refusal) -> bool {
        self.0.contains(&refusal)
    }

    /// How many percent of these values are to be bad: all or none.
    fn percent(&self, refusal: Refusal) -> u64 {
        if self.has(refusal) {
            100
        } else {
            0
        }
    }
}

/// The DGVL of this day never has an area, so that 11 needs multicast alone. Behind
/// the first four each enable is refused; in half of these days they fill the table.
pub fn several_faults(random: Random) -> Day {
    let mut day = Day::new(random, 0);
    let maximum = day.random.pick(&[5, 9]);
    day.good_start(maximum);
    day.enable_each_interface();
    for _ in 0..50 {
        add_one_of_each(&mut day);
    }
    day
}

/// An enable of each kind, an indication and a request of each kind. There must be a
/// stop with a prefix.
pub fn add_one_of_each(day: &mut Day) {
    add_old_enable(day);
    add_enable(day);
    add_indication(day);
    add_old_request(day);
    add_request(day);
}

/// Of kind 2.
fn add_old_enable(day: &mut Day) {
    let settings = faulty_settings(day, |random, faults, known| {
        PrefixList::of_one_or_none(faulty_prefix(random, faults, known))
    });
    day.add_old_enable(&settings);
}

/// Of kind 9.
fn add_enable(day: &mut Day) {
    let settings = faulty_settings(day, faulty_list);
    day.add(&Call::Enable(settings));
}

fn faulty_settings(
    day: &mut Day,
    faulty_list: fn(&mut Random, &Faults, &[Prefix]) -> PrefixList,
) -> StopSettings {
    let (known_areas, known_prefixes) = (day.known_areas(), day.known_prefixes());
    let random = &mut day.random;
    let faults = Faults::any(random, &OF_ENABLE);
    let area = faulty_area(random, &faults, &known_areas);
    let prefixes = faulty_list(random, &faults, &known_prefixes);
    StopSettings { area, prefixes, interface: faulty_interface(random, &faults) }
}

/// Where it is to be equal to a stop's and not good, it is a stop's area spoiled.
fn faulty_area(random: &mut Random, faults: &Faults, known: &[Area]) -> Area {
    let mut area = areas::fresh(random);
    if faults.has(AreaEqualToAStops) {
        let of_stop = random.pick(known);
        area = areas::described_otherwise(random, &of_stop);
    }
    match faults.has(AreaNotGood) {
        true => areas::spoiled(random, &area),
        false => area,
    }
}

/// One, or none where it is to have no fault.
fn faulty_prefix(random: &mut Random, faults: &Faults, known: &[Prefix]) -> Prefix {
    let of_stop = random.pick(known);
    match (faults.has(PrefixNotGood), faults.has(PrefixOverlapsAnother)) {
        (true, true) => prefixes::with_bit_past_length(random, &of_stop),
        (true, false) => {
            let fresh = prefixes::fresh(random);
            prefixes::with_bit_past_length(random, &fresh)
        }
        (false, true) => prefixes::nested(random, &of_stop),
        (false, false) => NO_PREFIX,
    }
}

/// Up to four that lie apart, and among them one with the faults; or one with length 0,
/// or one that overlaps another of the list.
fn faulty_list(random: &mut Random, faults: &Faults, known: &[Prefix]) -> PrefixList {
    let (bad, overlapping) = (faults.has(PrefixNotGood), faults.has(PrefixOverlapsAnother));
    let count = random.between(1, MOST_PREFIXES as u64 - 1) as usize;
    let mut list = lists::fresh(random, count);
    let place = random.below(list.len() as u64 + 1) as usize;
    let within = random.percent(50);
    let of_list = random.pick(&list);
    match (bad, overlapping) {
        (true, false) if random.percent(50) => list.insert(place, NO_PREFIX),
        (true, true) if within && list.len() + 2 <= MOST_PREFIXES => {
            list.insert(place, prefixes::nested(random, &of_list));
            list.insert(random.below(place as u64 + 1) as usize, NO_PREFIX);
        }
        (false, true) if within => list.insert(place, prefixes::nested(random, &of_list)),
        (false, false) => {}
        _ => list.insert(place, faulty_prefix(random, faults, known)),
    }
    PrefixList::of(&list)
}

fn faulty_interface(random: &mut Random, faults: &Faults) -> InterfaceNumbers {
    let mut interface = values::interface(random, 0);
    let (outside, retired) = (faults.has(ValueOutsideItsList), faults.has(RetiredKind));
    if retired {
        interface.kind = RETIRED_KIND;
    }
    // Beside the retired kind only the flag can be outside its list.
    if outside && (retired || random.percent(50)) {
        interface.flag = values::flag(random, 100);
    } else if outside {
        interface.kind = values::kind_outside(random);
    }
    interface
}

fn add_indication(day: &mut Day) {
    let random = &mut day.random;
    let faults = Faults::any(random, &OF_INDICATION);
    let source = values::mid(random, faults.percent(ValueOutsideItsList));
    let (transport, destination) = if faults.has(AreaNotGood) {
        let good = areas::fresh(random);
        let area = areas::spoiled(random, &good);
        (random.pick(&[GEO_ANYCAST, GEO_BROADCAST]), Destination::Area(area))
    } else {
        (GEO_UNICAST, Destination::Mid(values::mid(random, 0)))
    };
    let to = packets::address(random, &[], 0);
    let packet = faulty_packet(random, &faults, &to);
    let class = random.byte();
    let packet = &packet;
    day.add(&Call::Indication(Indication { transport, source, class, destination, packet }));
}

/// Of kind 7: the next hop is the packet's destination.
fn add_old_request(day: &mut Day) {
    let unused = unused_indices(day);
    let random = &mut day.random;
    let faults = Faults::any(random, &OF_REQUEST);
    let index = faulty_index(random, &faults, &unused);
    let to = match faults.has(MulticastWithoutArea) {
        true => packets::multicast(random),
        false => faulty_identifier(random, &faults),
    };
    let neighbour = faulty_neighbour(random, &faults);
    let packet = faulty_packet(random, &faults, &to);
    day.old_request_on(index, neighbour, &packet);
}

/// Of kind 8: the next hop alone says whether it is 12.
fn add_request(day: &mut Day) {
    let unused = unused_indices(day);
    let random = &mut day.random;
    let faults = Faults::any(random, &OF_REQUEST);
    let index = faulty_index(random, &faults, &unused);
    let to = match faults.has(MulticastWithoutArea) {
        true => packets::multicast(random),
        false => packets::address(random, &[], 0),
    };
    let next_hop = match faults.has(NeighbourNotResolvable) && random.percent(50) {
        true => random.pick(&hops::BAD_MAKERS)(random),
        false => faulty_identifier(random, &faults),
    };
    let neighbour = faulty_neighbour(random, &faults);
    let packet = faulty_packet(random, &faults, &to);
    day.request_by(index, neighbour, &next_hop, &packet);
}

/// Indices that no enabled link has.
fn unused_indices(day: &Day) -> [u64; 5] {
    match day.table() {
        Some(table) if table.maximum > LARGEST_MAXIMUM => {
            let above = table.maximum + 1;
            [above, above + 1, 4_094, 4_096 + FIRST_STOP, u64::MAX]
        }
        // Of a day with a small table the first four alone are enabled.
        _ => [8, 9, 10, 258, u64::MAX],
    }
}

fn faulty_index(random: &mut Random, faults: &Faults, unused: &[u64]) -> u64 {
    if faults.has(NoEnabledLink) {
        random.pick(unused)
    } else if faults.has(MulticastWithoutArea) {
        DGVL
    } else {
        random.below(6)
    }
}

/// A good next hop that gives a MID, or none.
fn faulty_identifier(random: &mut Random, faults: &Faults) -> Address {
    match faults.has(NeighbourNotResolvable) {
        true => packets::without_identifier(random),
        false => packets::with_identifier(random),
    }
}

/// 1 needs a MID that is given; 12 holds besides where the link ignores it.
fn faulty_neighbour(random: &mut Random, faults: &Faults) -> Option<u64> {
    let given = faults.has(ValueOutsideItsList) || !faults.has(NeighbourNotResolvable);
    given.then(|| values::mid(random, faults.percent(ValueOutsideItsList)))
}

/// A packet with those of the faults that a packet can have.
fn faulty_packet(random: &mut Random, faults: &Faults, to: &Address) -> Vec<u8> {
    let source = match faults.has(AddressNotAllowed) {
        true if random.percent(50) => LOOPBACK,
        true => packets::multicast(random),
        false => packets::with_identifier(random),
    };
    // Not each of them, so that the day stays short.
    let long = faults.has(PacketAbove1280) && random.percent(40);
    let length = if long { 1_281 } else { packets::length(random, 0) };
    let mut packet = packets::packet(random, &source, to, length);
    if faults.has(VersionNot6) {
        packets::spoil_version(random, &mut packet);
    }
    if faults.has(LengthFieldWrong) {
        packets::spoil_length_field(random, &mut packet);
    }
    if faults.has(PacketShort) {
        packets::cut(random, &mut packet);
    }
    packet
}
