//! The rows of `edge-next-hop`, as whole calls on a stop link of kind 1.

use twin::area::{Area, CIRCLE};
use twin::call::{Destination, GEO_BROADCAST, GEO_UNICAST};
use twin::leaving::{Request, Sending};
use twin::limits::DAYLIST;
use twin::link::InterfaceNumbers;
use twin::listing::listing;
use twin::mid::link_local_address;
use twin::packet::{Address, LOOPBACK, UNSPECIFIED};
use twin::prefix_list::NO_PREFIXES;
use twin::reply::Refusal::{self, NeighbourNotResolvable};
use twin::table::{StartSettings, StopSettings, Table, FIRST_STOP};

const LAN: InterfaceNumbers = InterfaceNumbers { kind: 1, flag: 1 };
const START: StartSettings = StartSettings { own_mid: 1, maximum: 2, tvl: LAN, dgvl: LAN };
const AREA: Area = Area { shape: CIRCLE, latitude: 0, longitude: 0, a: 500, b: 0, angle: 0 };

/// 02:00:00:00:00:01.
const MAST: u64 = 0x0200_0000_0001;
const GIVEN: u64 = 0x0200_0000_0002;
/// ff02::1 and ff02::ff:fe00:1.
const TO_ALL: Address = [0xFF, 0x02, 0, 0, 0, 0, 0, 0, 0, 0, 0, 0, 0, 0, 0, 1];
const TO_ALL_WITH_FF_FE: Address = [0xFF, 0x02, 0, 0, 0, 0, 0, 0, 0, 0, 0, 0xFF, 0xFE, 0, 0, 1];
/// 2001:db8::1, good and without FF FE.
const PLAIN: Address = [0x20, 0x01, 0x0D, 0xB8, 0, 0, 0, 0, 0, 0, 0, 0, 0, 0, 0, 1];
/// 2001:db8::5.
const FILM_SERVER: Address = [0x20, 0x01, 0x0D, 0xB8, 0, 0, 0, 0, 0, 0, 0, 0, 0, 0, 0, 5];

fn packet(to: Address) -> Vec<u8> {
    let mut packet = vec![0; 40];
    packet[0] = 0x60;
    (packet[8], packet[9], packet[23]) = (0xFE, 0x80, 1);
    packet[24..].copy_from_slice(&to);
    packet
}

fn sent(
    flag: u64,
    neighbour: Option<u64>,
    next_hop: &[u8],
    to: Address,
) -> Result<Sending, Refusal> {
    let mut table = Table::start(&START).1;
    let interface = InterfaceNumbers { flag, ..LAN };
    table.enable(&StopSettings { area: AREA, prefixes: NO_PREFIXES, interface }).unwrap();
    let packet = &packet(to);
    table.request(&Request { index: FIRST_STOP, class: 3, neighbour, next_hop, packet })
}

fn unicast_to(mid: u64) -> Result<Sending, Refusal> {
    let destination = Destination::Mid(mid);
    Ok(Sending { transport: GEO_UNICAST, destination, class: 3, length: 40 })
}

#[test]
fn where_the_mid_is_derived() {
    let mast = link_local_address(MAST);
    for to in [FILM_SERVER, PLAIN, mast, link_local_address(77)] {
        for neighbour in [None, Some(GIVEN)] {
            let runs: [&[u8]; 6] =
                [&UNSPECIFIED, &LOOPBACK, &TO_ALL, &TO_ALL_WITH_FF_FE, &mast[..15], &PLAIN];
            for run in runs {
                assert_eq!(sent(1, neighbour, run, to), Err(NeighbourNotResolvable));
            }
            assert_eq!(sent(1, neighbour, &mast, to), unicast_to(MAST));
        }
    }
}

#[test]
fn where_the_mid_is_the_one_given() {
    for to in [FILM_SERVER, link_local_address(77)] {
        assert_eq!(sent(0, Some(GIVEN), &PLAIN, to), unicast_to(GIVEN));
        for run in [UNSPECIFIED, LOOPBACK, TO_ALL] {
            assert_eq!(sent(0, Some(GIVEN), &run, to), Err(NeighbourNotResolvable));
        }
        for good in [PLAIN, link_local_address(MAST)] {
            assert_eq!(sent(0, None, &good, to), Err(NeighbourNotResolvable));
        }
    }
}

#[test]
fn a_multicast_packet() {
    let destination = Destination::Area(AREA);
    let expected = Sending { transport: GEO_BROADCAST, destination, class: 3, length: 40 };
    for flag in 0..=1 {
        assert_eq!(sent(flag, None, &UNSPECIFIED, TO_ALL), Ok(expected));
    }
}

/// A start, and a request of kind 7 on the TVL.
#[test]
fn a_record_of_kind_7_with_a_packet_of_39_bytes() {
    let start = [1, 1, 2, 1, 1, 1, 1];
    let packet = &packet(link_local_address(MAST));
    let short = [&start[..], &[7, 0, 0, 0, 39], &packet[..39]].concat();
    assert_eq!(listing(DAYLIST, &short), "rec ans link n\n1 0 - 0\n2 20 - 0\n");
    let whole = [&start[..], &[7, 0, 0, 0, 40], packet].concat();
    assert_eq!(listing(DAYLIST, &whole), "rec ans link n\n1 0 - 0\n2 0 0 40\n");
}
