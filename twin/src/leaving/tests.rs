use super::*;
use crate::area::CIRCLE;
use crate::link::InterfaceNumbers;
use crate::mid::{link_local_address, LARGEST_MID};
use crate::packet::{fault_place, Address, LOOPBACK, UNSPECIFIED};
use crate::prefix_list::NO_PREFIXES;
use crate::reply::Refusal::*;
use crate::table::{StartSettings, StopSettings};

const NEIGHBOUR: u64 = 0x0200_0000_0007;
const GIVEN: u64 = 0x0000_1111_2222;
const SOURCE: Address = [0x20; 16];
const MULTICAST: Address = [0xFF, 2, 0, 0, 0, 0, 0, 0, 0, 0, 0, 0, 0, 0, 0, 1];
/// No FF FE within the identifier.
const PLAIN: Address = [0x21; 16];
/// What can be no neighbour's address (`next-hop`).
const BAD_HOPS: [Address; 4] = [UNSPECIFIED, LOOPBACK, MULTICAST, [0xFF; 16]];
/// Kind and flag of the links that derive the MID.
const DERIVING: [(u64, u64); 4] = [(1, 1), (2, 1), (3, 0), (3, 1)];

fn area(latitude: i128) -> Area {
    Area { shape: CIRCLE, latitude, longitude: 0, a: 1, b: 0, angle: 0 }
}

fn packet(source: Address, destination: Address) -> Vec<u8> {
    let mut packet = vec![0x60, 0, 0, 0, 0, 2, 0x3B, 0x40];
    packet.extend_from_slice(&source);
    packet.extend_from_slice(&destination);
    packet.extend_from_slice(&[1, 2]);
    packet
}

/// All links have this kind and flag; stop 2 has area 2, stop 3 area 3. Kind and flag
/// come into the table by hand: `neighbour-mid` speaks of kind 2 too, though no call
/// makes a link of it.
fn table(kind: u64, flag: u64) -> Table {
    let lan = InterfaceNumbers { kind: 1, flag: 1 };
    let settings = StartSettings { own_mid: 1, maximum: 5, tvl: lan, dgvl: lan };
    let mut table = Table::start(&settings).1;
    for latitude in [2, 3] {
        let settings = StopSettings { area: area(latitude), prefixes: NO_PREFIXES, interface: lan };
        table.enable(&settings).unwrap();
    }
    let interface = InterfaceNumbers { kind, flag }.check().unwrap();
    (table.tvl, table.dgvl) = (interface, interface);
    table.stops.values_mut().for_each(|stop| stop.interface = interface);
    table
}

/// Its next hop is good, and gives no MID.
fn request(index: u64, neighbour: Option<u64>, packet: &[u8]) -> Request<'_> {
    Request { index, class: 200, neighbour, next_hop: &PLAIN, packet }
}

/// As above, with this next hop.
fn request_by<'a>(
    next_hop: &'a [u8],
    index: u64,
    neighbour: Option<u64>,
    packet: &'a [u8],
) -> Request<'a> {
    Request { next_hop, ..request(index, neighbour, packet) }
}

fn sending(transport: u64, destination: Destination) -> Sending {
    Sending { transport, destination, class: 200, length: 42 }
}

#[test]
fn multicast_on_each_link_whatever_kind_and_flag() {
    let to_all = packet(SOURCE, MULTICAST);
    for kind in 1..=3 {
        for flag in 0..=1 {
            let mut table = table(kind, flag);
            table.set_dgvl_area(Some(area(1))).unwrap();
            let tsb = sending(TSB, Destination::Nothing);
            assert_eq!(table.request(&request(0, None, &to_all)), Ok(tsb));
            for index in 1..=3u64 {
                let destination = Destination::Area(area(index.into()));
                let expected = sending(GEO_BROADCAST, destination);
                assert_eq!(table.request(&request(index, None, &to_all)), Ok(expected));
            }
        }
    }
}

#[test]
fn multicast_on_the_dgvl_without_an_area() {
    let to_all = packet(SOURCE, MULTICAST);
    let mut table = table(1, 1);
    let asked = request(1, Some(GIVEN), &to_all);
    assert_eq!(table.request(&asked), Err(MulticastWithoutArea));
    table.set_dgvl_area(Some(area(1))).unwrap();
    assert!(table.request(&asked).is_ok());
    table.set_dgvl_area(None).unwrap();
    assert_eq!(table.request(&asked), Err(MulticastWithoutArea));
}

/// Every link, with a MID given and without, to destinations with FF FE and without.
fn for_each_unicast(mut look: impl FnMut(u64, Option<u64>, &[u8])) {
    for destination in [PLAIN, link_local_address(NEIGHBOUR), link_local_address(9)] {
        let unicast = packet(SOURCE, destination);
        for index in 0..=3 {
            look(index, None, &unicast);
            look(index, Some(GIVEN), &unicast);
        }
    }
}

#[test]
fn multicast_does_not_ask_the_next_hop() {
    let to_all = packet(SOURCE, MULTICAST);
    for (kind, flag) in [(1, 0), (1, 1), (3, 0)] {
        for hop in BAD_HOPS {
            for run in [&hop[..], &hop[..15], &[]] {
                let answer = table(kind, flag).request(&request_by(run, 2, Some(GIVEN), &to_all));
                let expected = sending(GEO_BROADCAST, Destination::Area(area(2)));
                assert_eq!(answer, Ok(expected));
            }
        }
    }
}

#[test]
fn a_derived_mid_is_that_of_the_next_hop_and_ignores_destination_and_given_one() {
    let mast = link_local_address(NEIGHBOUR);
    let expected = sending(GEO_UNICAST, Destination::Mid(NEIGHBOUR));
    for (kind, flag) in DERIVING {
        let table = table(kind, flag);
        for_each_unicast(|index, given, unicast| {
            assert_eq!(table.request(&request_by(&mast, index, given, unicast)), Ok(expected));
        });
    }
}

#[test]
fn a_next_hop_without_ff_fe_is_not_resolvable_where_the_mid_is_derived() {
    for (kind, flag) in DERIVING {
        let table = table(kind, flag);
        for_each_unicast(|index, given, unicast| {
            let answer = table.request(&request_by(&PLAIN, index, given, unicast));
            assert_eq!(answer, Err(NeighbourNotResolvable));
        });
    }
}

#[test]
fn the_given_mid_with_a_good_next_hop_of_any_sort() {
    for hop in [PLAIN, link_local_address(NEIGHBOUR)] {
        for kind in [1, 2] {
            let table = table(kind, 0);
            for_each_unicast(|index, given, unicast| {
                let mid = given.ok_or(NeighbourNotResolvable);
                let expected = mid.map(|mid| sending(GEO_UNICAST, Destination::Mid(mid)));
                assert_eq!(table.request(&request_by(&hop, index, given, unicast)), expected);
            });
        }
    }
}

#[test]
fn a_bad_next_hop_is_not_resolvable_on_any_link_though_a_mid_is_given() {
    let mut with_ff_fe = link_local_address(NEIGHBOUR);
    with_ff_fe[0] = 0xFF;
    let long = [link_local_address(NEIGHBOUR).as_slice(), &[0]].concat();
    let mut runs: Vec<&[u8]> = BAD_HOPS.iter().map(|hop| &hop[..]).collect();
    runs.extend([&with_ff_fe[..], &long[..], &long[..15], &[]]);
    for (kind, flag) in [(1, 0), (2, 0), (1, 1), (2, 1), (3, 0), (3, 1)] {
        let table = table(kind, flag);
        for run in &runs {
            for_each_unicast(|index, given, unicast| {
                let answer = table.request(&request_by(run, index, given, unicast));
                assert_eq!(answer, Err(NeighbourNotResolvable), "{run:02x?}");
            });
        }
    }
}

#[test]
fn a_derived_mid_is_not_judged() {
    let mut group = link_local_address(LARGEST_MID);
    group[0] = 0x20;
    let unicast = packet(SOURCE, PLAIN);
    let answer = table(3, 0).request(&request_by(&group, 0, None, &unicast));
    assert_eq!(answer.unwrap().destination, Destination::Mid(LARGEST_MID));
}

#[test]
fn refusals_come_in_order() {
    let table = table(1, 1);
    let long = [0; 1_281];
    let loopback = packet(LOOPBACK, MULTICAST);
    let mut wrong_field = loopback.clone();
    wrong_field[5] ^= 1;
    let mut wrong_version = wrong_field.clone();
    wrong_version[0] = 0x40;
    let short = &wrong_version[..39];
    for (index, neighbour, packet, refusal) in [
        (9, Some(LARGEST_MID + 1), &long[..], ValueOutsideItsList),
        (0, Some(u64::MAX), &packet(SOURCE, MULTICAST), ValueOutsideItsList),
        (9, None, &long[..], NoEnabledLink),
        (9, None, short, NoEnabledLink),
        (1, None, &long[..], PacketAbove1280),
        (1, None, short, PacketShort),
        (1, None, &wrong_version[..], VersionNot6),
        (1, None, &wrong_field[..], LengthFieldWrong),
        (1, None, &loopback[..], AddressNotAllowed),
        (1, None, &packet(SOURCE, MULTICAST), MulticastWithoutArea),
        (1, None, &packet(SOURCE, PLAIN), NeighbourNotResolvable),
    ] {
        for hop in [PLAIN, UNSPECIFIED, MULTICAST] {
            let answer = table.request(&request_by(&hop, index, neighbour, packet));
            assert_eq!(answer, Err(refusal));
        }
    }
}

#[test]
fn the_place_of_each_short_packet_and_each_version_on_each_link() {
    let good = packet(SOURCE, MULTICAST);
    let table = table(1, 1);
    let refused = |index: u64, packet: &[u8]| {
        let refusal = table.request(&request(index, None, packet)).unwrap_err();
        (refusal.number(), fault_place(refusal, packet))
    };
    for index in 0..=3 {
        for length in 0..40 {
            assert_eq!(refused(index, &good[..length]), (20, length));
        }
        for version in (0..16).filter(|&version| version != 6) {
            let mut wrong = good.clone();
            wrong[0] = version << 4;
            assert_eq!(refused(index, &wrong), (21, 0));
        }
        let mut wrong = good.clone();
        wrong[5] += 1;
        assert_eq!(refused(index, &wrong), (22, 4));
    }
}

#[test]
fn an_index_may_be_any_number() {
    let to_all = packet(SOURCE, MULTICAST);
    for index in [4, 5, 6, 65, 66, 256, 258, 1 << 32, u64::MAX] {
        let answer = table(1, 1).request(&request(index, None, &to_all));
        assert_eq!(answer, Err(NoEnabledLink));
    }
    let mut table = table(1, 1);
    table.disable(2).unwrap();
    assert_eq!(table.request(&request(2, None, &to_all)), Err(NoEnabledLink));
}
