//! The rows of `edge-several`, as whole calls; and the orders with 29, which no day file
//! can show.

use twin::area::{Area, CIRCLE};
use twin::arriving::{Delivery, Indication};
use twin::call::{Destination, GEO_UNICAST};
use twin::link::InterfaceNumbers;
use twin::packet::Address;
use twin::prefix::{Prefix, NO_PREFIX};
use twin::prefix_list::{PrefixList, NO_PREFIXES};
use twin::reply::Refusal::{self, *};
use twin::table::{StartSettings, StopSettings, Table, DGVL, FIRST_STOP};

const LAN: InterfaceNumbers = InterfaceNumbers { kind: 1, flag: 1 };

const A: Prefix = prefix(0xA, 48);
const B: Prefix = prefix(0xB, 48);
const C: Prefix = prefix(0xC, 48);
const D: Prefix = prefix(0xD, 48);
const E: Prefix = prefix(0xE, 48);
const INSIDE_A: Prefix = prefix(0xA, 64);
const INSIDE_B: Prefix = prefix(0xB, 64);
const INSIDE_D: Prefix = prefix(0xD, 64);
/// ff00::/8.
const BAD: Prefix =
    Prefix { length: 8, bytes: [0xFF, 0, 0, 0, 0, 0, 0, 0, 0, 0, 0, 0, 0, 0, 0, 0] };

/// 2001:db8:, this group, and zeros.
const fn prefix(group: u8, length: u64) -> Prefix {
    Prefix { length, bytes: address(group, 0) }
}

const fn address(group: u8, last: u8) -> Address {
    [0x20, 0x01, 0x0D, 0xB8, 0, group, 0, 0, 0, 0, 0, 0, 0, 0, 0, last]
}

fn area(latitude: i128) -> Area {
    Area { shape: CIRCLE, latitude, longitude: 0, a: 5, b: 0, angle: 0 }
}

fn stop(latitude: i128, prefixes: PrefixList) -> StopSettings {
    StopSettings { area: area(latitude), prefixes, interface: LAN }
}

/// A table with a stop at each latitude from 0 on, with these prefixes.
fn table(lists: &[&[Prefix]]) -> Table {
    let (_, mut table) =
        Table::start(&StartSettings { own_mid: 1, maximum: 5, tvl: LAN, dgvl: LAN });
    for (place, list) in lists.iter().enumerate() {
        let outcome = table.enable(&stop(place as i128, PrefixList::of(list)));
        assert_eq!(outcome, Ok(FIRST_STOP + place as u64));
    }
    table
}

/// What an enable elsewhere answers beside these stops.
fn enabled(lists: &[&[Prefix]], prefixes: PrefixList) -> Result<u64, Refusal> {
    table(lists).enable(&stop(100, prefixes))
}

fn listed(prefixes: &[Prefix]) -> Result<u64, Refusal> {
    enabled(&[], PrefixList::of(prefixes))
}

#[test]
fn counts() {
    for good in [&[][..], &[A], &[A, B], &[A, B, C], &[A, B, C, D]] {
        assert_eq!(listed(good), Ok(FIRST_STOP));
    }
    for count in [5, 6, 255] {
        for place in [A, E, BAD, NO_PREFIX] {
            let many = PrefixList { count, places: [A, B, place, C] };
            assert_eq!(enabled(&[], many), Err(TooManyPrefixes));
            let bad_area = StopSettings { area: Area { a: 0, ..area(0) }, ..stop(0, many) };
            assert_eq!(table(&[]).enable(&bad_area), Err(AreaNotGood));
        }
    }
}

#[test]
fn within_the_call() {
    for overlapping in
        [&[A, A][..], &[A, INSIDE_A], &[INSIDE_A, A], &[A, B, C, C], &[A, B, D, INSIDE_D]]
    {
        assert_eq!(listed(overlapping), Err(PrefixOverlapsAnother), "{overlapping:?}");
        let of_stop = stop(0, PrefixList::of(overlapping));
        assert_eq!(table(&[&[]]).enable(&of_stop), Err(AreaEqualToAStops));
    }
}

#[test]
fn a_listed_length_0() {
    for list in [
        &[NO_PREFIX][..],
        &[A, NO_PREFIX],
        &[NO_PREFIX, A],
        &[A, A, NO_PREFIX],
        &[A, NO_PREFIX, INSIDE_A],
        &[NO_PREFIX, NO_PREFIX],
    ] {
        assert_eq!(listed(list), Err(PrefixNotGood), "{list:?}");
    }
}

#[test]
fn with_another_link() {
    let both = |list: &[Prefix]| enabled(&[&[A, B]], PrefixList::of(list));
    assert_eq!(both(&[C, INSIDE_B]), Err(PrefixOverlapsAnother));
    assert_eq!(both(&[C, B]), Err(PrefixOverlapsAnother));
    assert_eq!(both(&[C, prefix(0, 40)]), Err(PrefixOverlapsAnother));
    for list in [&[C, D][..], &[], &[C, D, E]] {
        assert_eq!(both(list), Ok(FIRST_STOP + 1));
    }
}

#[test]
fn a_bad_prefix_past_the_count() {
    let long = Prefix { length: 200, bytes: [0xFF; 16] };
    for past in [BAD, long, A] {
        let mut table = table(&[]);
        let prefixes = PrefixList { count: 1, places: [A, past, past, past] };
        assert_eq!(table.enable(&stop(0, prefixes)), Ok(FIRST_STOP));
        let kept = table.stops[&FIRST_STOP].prefixes;
        assert_eq!(kept, PrefixList { count: 1, places: [A, NO_PREFIX, NO_PREFIX, NO_PREFIX] });
        let none = PrefixList { count: 0, places: [past; 4] };
        assert_eq!(table.enable(&stop(1, none)), Ok(FIRST_STOP + 1));
        assert_eq!(table.stops[&(FIRST_STOP + 1)].prefixes, NO_PREFIXES);
    }
}

/// From the first address to the second one.
fn delivery(table: &Table, from: Address, to: Address) -> Delivery {
    let mut packet = vec![0x60, 0, 0, 0, 0, 0, 0x3B, 0x40];
    packet.extend(from);
    packet.extend(to);
    let (destination, packet) = (Destination::Mid(1), &packet);
    let indication =
        Indication { transport: GEO_UNICAST, source: 2, class: 0, destination, packet };
    table.indication(&indication, &mut [0; 1_294]).unwrap()
}

fn link(table: &Table, from: u8, to: u8) -> u64 {
    delivery(table, address(from, 1), address(to, 1)).link
}

#[test]
fn two_stops_with_two_prefixes_each() {
    let table = table(&[&[A, B], &[C, D]]);
    let nobody = 0xF;
    for (from, to, expected) in [
        (nobody, 0xD, 3),
        (0xA, nobody, 2),
        (0xA, 0xD, 3),
        (0xD, 0xA, 2),
        (0xB, 0xC, 3),
        (0xC, 0xB, 2),
        (0xA, 0xB, 2),
        (nobody, nobody, DGVL),
    ] {
        assert_eq!(link(&table, from, to), expected, "{from:x} {to:x}");
    }
}

/// `settings-equal`: {A, B} and {B, A} are equal settings, {A, B} and {A} are not.
#[test]
fn the_order_of_a_list_decides_nothing() {
    let (one, other, less) = (table(&[&[A, B]]), table(&[&[B, A]]), table(&[&[A]]));
    for from in 0xA..=0xF {
        for to in 0xA..=0xF {
            assert_eq!(link(&one, from, to), link(&other, from, to));
        }
    }
    for given in [A, B, C, INSIDE_A, INSIDE_B] {
        let second = stop(1, PrefixList::of(&[E, given]));
        assert_eq!(one.clone().enable(&second), other.clone().enable(&second));
    }
    assert_eq!((link(&one, 0xF, 0xB), link(&less, 0xF, 0xB)), (FIRST_STOP, DGVL));
}

/// `enable-refusals`: 1, 30 and 2 come before 29, and 3, 4, 5 and 6 behind it.
#[test]
fn orders_with_29() {
    let mut full = table(&[&[A, B], &[], &[], &[]]);
    let many = |places| PrefixList { count: 5, places };
    let bad_area = Area { angle: 360, ..area(9) };
    let of_29 = stop(9, many([C, D, E, C]));
    for (settings, refusal) in [
        (
            StopSettings { interface: InterfaceNumbers { kind: 4, flag: 1 }, ..of_29 },
            ValueOutsideItsList,
        ),
        (
            StopSettings { interface: InterfaceNumbers { kind: 1, flag: 2 }, ..of_29 },
            ValueOutsideItsList,
        ),
        (StopSettings { interface: InterfaceNumbers { kind: 2, flag: 1 }, ..of_29 }, RetiredKind),
        (StopSettings { area: bad_area, ..of_29 }, AreaNotGood),
        // Over 6 alone, over 3, over 4, over 5, and over all of them.
        (of_29, TooManyPrefixes),
        (stop(9, many([C, BAD, D, E])), TooManyPrefixes),
        (stop(0, many([C, D, E, C])), TooManyPrefixes),
        (stop(9, many([C, INSIDE_B, D, E])), TooManyPrefixes),
        (stop(0, many([C, INSIDE_B, BAD, C])), TooManyPrefixes),
        (stop(9, PrefixList::of(&[C, D, E])), NoIndexFree),
    ] {
        let before = full.clone();
        assert_eq!(full.enable(&settings), Err(refusal), "{settings:?}");
        assert_eq!(full, before);
    }
}
