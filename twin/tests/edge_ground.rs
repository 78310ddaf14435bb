//! The rows of `edge-ground` and `edge-given`, as whole calls.

use twin::area::{Area, CIRCLE, ELLIPSE, RECTANGLE};
use twin::arriving::Indication;
use twin::call::{Call, Destination, GEO_ANYCAST, GEO_BROADCAST};
use twin::leaving::Request;
use twin::limits::DAYLIST;
use twin::link::InterfaceNumbers;
use twin::packet::UNSPECIFIED;
use twin::prefix_list::NO_PREFIXES;
use twin::reply::Refusal;
use twin::requests;
use twin::table::{StartSettings, StopSettings, Table, DGVL, FIRST_STOP};
use twin::write::record_bytes;

const LAN: InterfaceNumbers = InterfaceNumbers { kind: 1, flag: 1 };
const START: StartSettings = StartSettings { own_mid: 1, maximum: 65, tvl: LAN, dgvl: LAN };

const WEST: i128 = -1_800_000_000;
const EAST: i128 = 1_800_000_000;
const POLES: [i128; 2] = [-900_000_000, 900_000_000];

fn area(shape: u64, a: u64, b: u64, angle: u64) -> Area {
    Area { shape, latitude: 481_374_000, longitude: 115_755_000, a, b, angle }
}

fn at_longitude(longitude: i128, area: Area) -> Area {
    Area { longitude, ..area }
}

/// `edge-ground`, "Equal".
fn equal_pairs() -> Vec<(Area, Area)> {
    let disc = |angle| area(ELLIPSE, 5, 5, angle);
    let mut pairs = vec![
        (area(CIRCLE, 5, 0, 0), area(CIRCLE, 5, 7, 200)),
        (disc(77), area(CIRCLE, 5, 0, 0)),
        (disc(77), area(CIRCLE, 5, 9, 300)),
        (at_longitude(WEST, disc(77)), at_longitude(EAST, disc(12))),
        (at_longitude(EAST, disc(77)), at_longitude(WEST, disc(12))),
    ];
    for shape in [RECTANGLE, ELLIPSE] {
        pairs.push((area(shape, 3, 5, 10), area(shape, 3, 5, 190)));
        pairs.push((area(shape, 3, 5, 10), area(shape, 5, 3, 100)));
        pairs.push((area(shape, 3, 5, 300), area(shape, 5, 3, 30)));
    }
    for angle in [90, 180, 270] {
        pairs.push((area(RECTANGLE, 5, 5, 0), area(RECTANGLE, 5, 5, angle)));
    }
    for shape in [CIRCLE, RECTANGLE, ELLIPSE] {
        let area = area(shape, 3, 5, 10);
        pairs.push((at_longitude(WEST, area), at_longitude(EAST, area)));
    }
    pairs
}

/// `edge-ground`, "Not equal".
fn unequal_pairs() -> Vec<(Area, Area)> {
    let square = area(RECTANGLE, 5, 5, 0);
    let oblong = area(RECTANGLE, 3, 5, 10);
    let mut pairs = vec![
        (square, area(CIRCLE, 5, 5, 0)),
        (square, area(CIRCLE, 5, 0, 0)),
        (square, area(ELLIPSE, 5, 5, 0)),
        (oblong, area(RECTANGLE, 3, 5, 11)),
        (oblong, area(RECTANGLE, 3, 6, 10)),
        (oblong, Area { latitude: oblong.latitude + 1, ..oblong }),
    ];
    for shape in [RECTANGLE, ELLIPSE] {
        pairs.push((area(shape, 3, 5, 10), area(shape, 5, 3, 10)));
        pairs.push((area(shape, 3, 5, 10), area(shape, 3, 5, 100)));
    }
    for latitude in POLES {
        for area in [square, oblong, area(CIRCLE, 5, 0, 0), area(ELLIPSE, 3, 5, 10)] {
            let at_a_pole = Area { latitude, ..area };
            pairs.push((at_longitude(0, at_a_pole), at_longitude(1, at_a_pole)));
            pairs.push((at_longitude(WEST, at_a_pole), at_longitude(0, at_a_pole)));
        }
    }
    pairs
}

fn stop(area: Area) -> StopSettings {
    StopSettings { area, prefixes: NO_PREFIXES, interface: LAN }
}

fn table_with_stop(area: Area) -> Table {
    let (_, mut table) = Table::start(&START);
    assert_eq!(table.enable(&stop(area)), Ok(FIRST_STOP));
    table
}

/// From 2020:... to ff20:...
fn multicast_packet() -> Vec<u8> {
    let mut packet = vec![0x20; 40];
    (packet[0], packet[4], packet[5], packet[24]) = (0x60, 0, 0, 0xFF);
    packet
}

/// What a second enable answers, and the links of an anycast and a broadcast to
/// the area, beside the only stop link.
fn outcome(of_stop: Area, given: Area) -> (Result<u64, Refusal>, [u64; 2]) {
    let mut table = table_with_stop(of_stop);
    let links = [GEO_ANYCAST, GEO_BROADCAST].map(|transport| {
        let (destination, packet) = (Destination::Area(given), multicast_packet());
        let indication =
            Indication { transport, source: 2, class: 0, destination, packet: &packet };
        table.indication(&indication, &mut [0; 1_294]).unwrap().link
    });
    (table.enable(&stop(given)), links)
}

#[test]
fn edge_ground_equal() {
    for (one, other) in equal_pairs() {
        for (of_stop, given) in [(one, other), (other, one)] {
            let expected = (Err(Refusal::AreaEqualToAStops), [FIRST_STOP; 2]);
            assert_eq!(outcome(of_stop, given), expected, "{of_stop:?} {given:?}");
        }
    }
}

#[test]
fn edge_ground_not_equal() {
    for (one, other) in unequal_pairs() {
        for (of_stop, given) in [(one, other), (other, one)] {
            let expected = (Ok(FIRST_STOP + 1), [DGVL; 2]);
            assert_eq!(outcome(of_stop, given), expected, "{of_stop:?} {given:?}");
        }
    }
}

/// The ellipse of `edge-given`.
fn given_ellipse() -> Area {
    at_longitude(EAST, area(ELLIPSE, 5, 5, 77))
}

#[test]
fn edge_given() {
    let mut table = table_with_stop(given_ellipse());
    table.set_dgvl_area(Some(given_ellipse())).unwrap();
    for index in [DGVL, FIRST_STOP] {
        let (next_hop, packet) = (&UNSPECIFIED, &multicast_packet());
        let request = Request { index, class: 0, neighbour: None, next_hop, packet };
        let sending = table.request(&request).unwrap();
        assert_eq!(sending.transport, GEO_BROADCAST);
        assert_eq!(sending.destination, Destination::Area(given_ellipse()));
    }
}

#[test]
fn edge_given_as_it_is_printed() {
    let (next_hop, packet) = (&UNSPECIFIED, &multicast_packet());
    let request = Request { index: FIRST_STOP, class: 0, neighbour: None, next_hop, packet };
    let calls = [Call::Start(START), Call::Enable(stop(given_ellipse())), Call::Request(request)];
    let day: Vec<u8> = calls.iter().flat_map(|call| record_bytes(call).unwrap()).collect();
    let printed = requests::print(&requests::requests(DAYLIST, &day));
    assert!(printed.ends_with("3 0 3 2,481374000,1800000000,5,5,77 0 40\n"), "{printed}");
}
