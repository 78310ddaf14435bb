use super::*;
use crate::area::{CIRCLE, EAST_END, ELLIPSE, RECTANGLE, WEST_END};
use crate::ground::range::{areas, ANGLES, CENTRES};
use crate::limits::DAYLIST;
use crate::link::InterfaceNumbers;
use crate::listing::lines;
use crate::prefix::{Prefix, NO_PREFIX};
use crate::prefix_list::{PrefixList, NO_PREFIXES};
use crate::table::{StartSettings, StopSettings};
use crate::write::record_bytes;

const LAN: InterfaceNumbers = InterfaceNumbers { kind: 1, flag: 1 };
const NORTH: i128 = 900_000_000;

fn area(shape: u64, a: u64, b: u64, angle: u64) -> Area {
    Area { shape, latitude: 0, longitude: 0, a, b, angle }
}

fn at(latitude: i128, longitude: i128, area: Area) -> Area {
    Area { latitude, longitude, ..area }
}

fn enable(area: Area, prefix: Prefix) -> Call<'static> {
    let prefixes = PrefixList::of_one_or_none(prefix);
    Call::Enable(StopSettings { area, prefixes, interface: LAN })
}

fn indication(transport: u64, area: Area, packet: &[u8]) -> Call<'_> {
    let destination = Destination::Area(area);
    Call::Indication(Indication { transport, source: 2, class: 0, destination, packet })
}

/// From 2020:... to 2020:...
fn packet() -> Vec<u8> {
    let mut packet = vec![0x20; 40];
    (packet[0], packet[4], packet[5]) = (0x60, 0, 0);
    packet
}

/// Caller and name of each row that these calls, after a start, are counted in.
fn seen_of(maximum: u64, calls: &[Call]) -> Vec<(Caller, String)> {
    let start = Call::Start(StartSettings { own_mid: 1, maximum, tvl: LAN, dgvl: LAN });
    let records = [&[start], calls].concat();
    let day: Vec<u8> = records.iter().flat_map(|call| record_bytes(call).unwrap()).collect();
    let mut counts = Counts::default();
    counts.add(DAYLIST, &day, &lines(DAYLIST, &day));
    let seen = counts.rows().iter().filter(|row| row.count > 0);
    seen.map(|row| (row.caller, row.way.name())).collect()
}

/// The names of the rows of a stop's area and one that is given, which are the
/// same for each caller.
fn names_of(of_stop: Area, given: Area) -> Vec<String> {
    let (packet, stop) = (packet(), enable(of_stop, NO_PREFIX));
    let names = [
        enable(given, NO_PREFIX),
        indication(GEO_ANYCAST, given, &packet),
        indication(GEO_BROADCAST, given, &packet),
    ]
    .map(|call| seen_of(65, &[stop, call]).into_iter().map(|(_, name)| name).collect());
    let [by_enable, by_anycast, by_broadcast]: [Vec<String>; 3] = names;
    assert!(by_enable == by_anycast && by_enable == by_broadcast);
    by_enable
}

#[test]
fn areas_are_equal_exactly_where_they_are_joined_in_a_way() {
    let joining: Vec<Way> = ways().into_iter().filter(|way| way.equal).collect();
    let some = areas(&CENTRES, 2, &ANGLES[..8]);
    for stop in &some {
        for given in &some {
            let count = joining.iter().filter(|way| way.is_that_of(stop, given)).count();
            let at_a_pole = stop.latitude == NORTH && Some(*given) == stop.at_the_other_end();
            let expected = usize::from(stop.equals(given)) + usize::from(at_a_pole);
            assert_eq!(count, expected, "{stop:?} {given:?}");
        }
    }
}

#[test]
fn equal_ones() {
    let (circle, disc) = (area(CIRCLE, 5, 3, 20), area(ELLIPSE, 5, 5, 77));
    for (of_stop, given, name) in [
        (circle, circle, "the same six numbers"),
        (circle, Area { b: 0, ..circle }, "circle, another b"),
        (circle, circle.turned(1), "circle, another angle"),
        (circle, area(CIRCLE, 5, 0, 0), "circle, another b and angle"),
        (area(RECTANGLE, 3, 5, 10), area(RECTANGLE, 3, 5, 190), "rectangle, 180 added"),
        (area(ELLIPSE, 3, 5, 190), area(ELLIPSE, 3, 5, 10), "ellipse, 180 taken off"),
        (area(ELLIPSE, 3, 5, 10), area(ELLIPSE, 5, 3, 100), "ellipse exchanged, 90 added"),
        (
            area(RECTANGLE, 3, 5, 300),
            area(RECTANGLE, 5, 3, 30),
            "rectangle exchanged, 90 added past 359",
        ),
        (
            area(RECTANGLE, 5, 3, 30),
            area(RECTANGLE, 3, 5, 300),
            "rectangle exchanged, 90 taken off below 0",
        ),
        (area(RECTANGLE, 5, 5, 80), area(RECTANGLE, 5, 5, 350), "square turned by 270"),
        (disc, circle, "ellipse to circle"),
        (circle, disc, "circle to ellipse"),
        (disc, disc.turned(270), "ellipse of equal axes, quarter turns"),
        (disc, disc.turned(271), "ellipse of equal axes, another angle"),
    ] {
        assert_eq!(names_of(of_stop, given), [format!("equal: {name}")]);
        if of_stop != given {
            let ends = (at(0, WEST_END, of_stop), at(0, EAST_END, given));
            assert_eq!(names_of(ends.0, ends.1), [format!("equal: {name}, other end")]);
        }
    }
    let ends = (at(0, EAST_END, circle), at(0, WEST_END, circle));
    assert_eq!(names_of(ends.0, ends.1), ["equal: circle, east end to west end"]);
    let names = names_of(at(-NORTH, WEST_END, disc), at(-NORTH, EAST_END, disc));
    assert_eq!(names, ["equal: ellipse, west end to east end", "equal: both ends, at a pole"]);
}

fn assert_near_misses(rows: &[(Area, Area, &str)]) {
    for (of_stop, given, name) in rows {
        assert_eq!(names_of(*of_stop, *given), [format!("near miss: {name}")]);
    }
}

#[test]
fn near_misses_of_one_shape() {
    let (circle, square) = (area(CIRCLE, 5, 3, 20), area(RECTANGLE, 5, 5, 20));
    let (rectangle, ellipse) = (area(RECTANGLE, 3, 5, 10), area(ELLIPSE, 3, 5, 10));
    assert_near_misses(&[
        (rectangle, area(RECTANGLE, 3, 5, 11), "rectangle, angle 1 more"),
        (ellipse, area(ELLIPSE, 3, 6, 10), "ellipse, b 1 more"),
        (rectangle, area(RECTANGLE, 4, 5, 10), "rectangle, a 1 more"),
        (ellipse, area(ELLIPSE, 5, 3, 10), "ellipse exchanged without the 90"),
        (rectangle, area(RECTANGLE, 3, 5, 100), "rectangle, 90 added without the exchange"),
        (ellipse.turned(270), ellipse, "ellipse, 90 added without the exchange"),
        (circle, area(CIRCLE, 3, 5, 110), "circle exchanged, 90 added"),
        (circle, area(CIRCLE, 3, 3, 20), "circles of different a"),
        (square, square.turned(45), "square turned by 45"),
    ]);
    let names = ["near miss: circle, a 1 more", "near miss: circles of different a"];
    assert_eq!(names_of(circle, Area { a: 6, ..circle }), names);
}

#[test]
fn near_misses_of_two_shapes() {
    let (circle, square) = (area(CIRCLE, 5, 3, 20), area(RECTANGLE, 5, 5, 20));
    let (rectangle, ellipse) = (area(RECTANGLE, 3, 5, 10), area(ELLIPSE, 3, 5, 10));
    assert_near_misses(&[
        (square, circle, "square to circle"),
        (circle, square, "circle to square"),
        (square, area(ELLIPSE, 5, 5, 20), "square to ellipse of equal axes"),
        (area(ELLIPSE, 5, 5, 20), square, "ellipse of equal axes to square"),
        (rectangle, ellipse, "rectangle to ellipse"),
        (ellipse, rectangle, "ellipse to rectangle"),
        (area(ELLIPSE, 5, 6, 1), circle, "ellipse, b one above a, and circle of a"),
        (circle, area(ELLIPSE, 4, 5, 1), "ellipse, b one above a, and circle of b"),
        (circle, area(ELLIPSE, 5, 4, 0), "ellipse, b one below a, and circle of a"),
        (area(ELLIPSE, 6, 5, 0), circle, "ellipse, b one below a, and circle of b"),
    ]);
}

#[test]
fn near_misses_of_two_centres() {
    let (circle, ellipse) = (area(CIRCLE, 5, 3, 20), area(ELLIPSE, 3, 5, 10));
    let (west, east) = (at(0, WEST_END, circle), at(0, EAST_END, circle));
    assert_near_misses(&[
        (ellipse, at(1, 0, ellipse), "latitude 1 more"),
        (ellipse, at(0, 1, ellipse), "longitude 1 more"),
        (at(0, WEST_END + 1, circle), east, "one off the west end, and the east end"),
        (west, at(0, EAST_END - 1, circle), "one off the east end, and the west end"),
        (at(NORTH, 5, circle), at(NORTH, 7, circle), "two longitudes at the north pole"),
        (at(-NORTH, 5, ellipse), at(-NORTH, 3, ellipse), "two longitudes at the south pole"),
    ]);
}

#[test]
fn an_enable_is_counted_where_4_is_its_first_refusal_or_would_be() {
    let prefix = Prefix { length: 8, bytes: [0x20, 0, 0, 0, 0, 0, 0, 0, 0, 0, 0, 0, 0, 0, 0, 0] };
    let bad_prefix = Prefix { length: 2, ..prefix };
    let square = area(RECTANGLE, 5, 5, 20);
    let interface = InterfaceNumbers { kind: 2, flag: 1 };
    let retired = StopSettings { area: square, prefixes: NO_PREFIXES, interface };
    let near = (Caller::Enable, "near miss: square turned by 45".to_string());
    for (maximum, given, expected) in [
        // 0, 5, 6, 30, 2 and 3
        (3, enable(square.turned(45), NO_PREFIX), vec![near.clone()]),
        (3, enable(square.turned(45), prefix), vec![near.clone()]),
        (2, enable(square.turned(45), NO_PREFIX), vec![near]),
        (3, Call::Enable(retired), vec![]),
        (3, enable(Area { angle: 360, ..square }, NO_PREFIX), vec![]),
        (3, enable(square, bad_prefix), vec![]),
    ] {
        assert_eq!(seen_of(maximum, &[enable(square, prefix), given]), expected);
    }
}

#[test]
fn what_is_refused_or_compares_no_area_is_not_counted() {
    let square = area(RECTANGLE, 5, 5, 20);
    let (good, short) = (packet(), &packet()[..39]);
    let stop = enable(square, NO_PREFIX);
    for call in [
        indication(GEO_BROADCAST, square, short),
        indication(GEO_ANYCAST, Area { angle: 360, ..square }, &good),
        Call::DgvlArea(Some(square)),
    ] {
        assert_eq!(seen_of(3, &[stop, call]), []);
    }
}
