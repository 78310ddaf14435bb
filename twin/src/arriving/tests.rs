use super::*;
use crate::area::{CIRCLE, RECTANGLE};
use crate::link::InterfaceNumbers;
use crate::mid::LARGEST_MID;
use crate::packet::{fault_place, LOOPBACK, UNSPECIFIED};
use crate::prefix::{Prefix, NO_PREFIX};
use crate::prefix_list::PrefixList;
use crate::reply::Refusal::*;
use crate::table::{StartSettings, StopSettings};

const SOURCE_MID: u64 = 0x0200_0000_0002;
const DESTINATION_MID: u64 = 0x0A0B_0C0D_0E0F;
const AREA: Area = Area { shape: RECTANGLE, latitude: 5, longitude: -5, a: 10, b: 20, angle: 30 };

fn numbers(kind: u64) -> InterfaceNumbers {
    InterfaceNumbers { kind, flag: 0 }
}

fn address(first: u8) -> Address {
    let mut address = [0; 16];
    address[0] = first;
    address[15] = 9;
    address
}

fn packet(source: Address, destination: Address) -> Vec<u8> {
    let mut packet = vec![0x60, 0, 0, 0, 0, 0, 0x3B, 0x40];
    packet.extend_from_slice(&source);
    packet.extend_from_slice(&destination);
    packet
}

fn unicast(packet: &[u8]) -> Indication<'_> {
    let destination = Destination::Mid(DESTINATION_MID);
    Indication { transport: GEO_UNICAST, source: SOURCE_MID, class: 7, destination, packet }
}

fn to_area(area: Area, packet: &[u8]) -> Indication<'_> {
    let destination = Destination::Area(area);
    Indication { transport: GEO_BROADCAST, destination, ..unicast(packet) }
}

fn tsb(packet: &[u8]) -> Indication<'_> {
    Indication { transport: TSB, destination: Destination::Nothing, ..unicast(packet) }
}

/// Fixed links of kinds 1 and 3; stop 2 has AREA and 2000::/8 on kind 3, stop 3
/// has 3000::/8 on kind 1, stop 4 no prefix on kind 3.
fn table() -> Table {
    let settings = StartSettings { own_mid: 1, maximum: 65, tvl: numbers(1), dgvl: numbers(3) };
    let mut table = Table::start(&settings).1;
    for (angle, first, length, kind) in [(30, 0x20, 8, 3), (31, 0x30, 8, 1), (32, 0, 0, 3)] {
        let mut bytes = [0; 16];
        bytes[0] = first;
        let area = Area { angle, ..AREA };
        let prefixes = PrefixList::of_one_or_none(Prefix { length, bytes });
        table.enable(&StopSettings { area, prefixes, interface: numbers(kind) }).unwrap();
    }
    table
}

fn link_of(indication: &Indication) -> u64 {
    table().indication(indication, &mut [0; 1_294]).unwrap().link
}

#[test]
fn line_1_tsb_goes_to_the_tvl() {
    assert_eq!(link_of(&tsb(&packet(address(0x20), address(0x30)))), table::TVL);
}

#[test]
fn line_2_an_equal_area_decides_and_no_prefix() {
    let inside = packet(address(0x20), address(0x30));
    for transport in [GEO_ANYCAST, GEO_BROADCAST] {
        for (angle, link) in [(30, 2), (31, 3), (32, 4), (29, DGVL), (33, DGVL)] {
            let area = Area { angle, ..AREA };
            let indication = Indication { transport, ..to_area(area, &inside) };
            assert_eq!(link_of(&indication), link);
        }
    }
}

#[test]
fn line_2_one_number_apart_is_another_area() {
    let inside = packet(address(0x20), address(0x30));
    for area in [
        Area { shape: CIRCLE, ..AREA },
        Area { latitude: 4, ..AREA },
        Area { longitude: -4, ..AREA },
        Area { a: 11, ..AREA },
        Area { b: 19, ..AREA },
        Area { angle: 29, ..AREA },
    ] {
        assert_eq!(link_of(&to_area(area, &inside)), DGVL);
    }
}

#[test]
fn line_3_destination_first_then_source() {
    let (none, two, three) = (address(0x40), address(0x20), address(0x30));
    for (source, destination, link) in [
        (none, two, 2),
        (two, none, 2),
        (three, two, 2),
        (two, three, 3),
        (none, none, DGVL),
        (two, address(0xFF), 2),
        (address(0xFE), address(0xFF), DGVL),
        (UNSPECIFIED, none, DGVL),
    ] {
        assert_eq!(link_of(&unicast(&packet(source, destination))), link);
    }
}

#[test]
fn line_3_takes_a_source_of_zeros_within_a_prefix() {
    let mut table = table();
    let prefixes = PrefixList::of(&[Prefix { length: 8, bytes: [0; 16] }]);
    let area = Area { angle: 40, ..AREA };
    table.enable(&StopSettings { area, prefixes, interface: numbers(1) }).unwrap();
    let from_zeros = packet(UNSPECIFIED, address(0xFF));
    let delivery = table.indication(&unicast(&from_zeros), &mut [0; 1_294]);
    assert_eq!(delivery.unwrap().link, 5);
}

#[test]
fn a_disabled_stop_takes_nothing() {
    let mut table = table();
    table.disable(2).unwrap();
    let inside = packet(address(0x40), address(0x20));
    for indication in [unicast(&inside), to_area(AREA, &inside)] {
        let delivery = table.indication(&indication, &mut [0; 1_294]).unwrap();
        assert_eq!(delivery.link, DGVL);
    }
}

#[test]
fn the_dgvl_needs_no_area_and_its_area_chooses_nothing() {
    let mut table = table();
    let elsewhere = Area { angle: 99, ..AREA };
    let packet = packet(address(0x40), address(0x41));
    for area in [None, Some(elsewhere), Some(AREA)] {
        table.set_dgvl_area(area).unwrap();
        for (wanted, link) in [(elsewhere, DGVL), (AREA, 2)] {
            let indication = to_area(wanted, &packet);
            assert_eq!(table.indication(&indication, &mut [0; 1_294]).unwrap().link, link);
        }
    }
}

fn assert_frame(indication: &Indication, link: u64, header: &[u8]) {
    assert_frame_of(&table(), indication, link, header);
}

fn assert_frame_of(table: &Table, indication: &Indication, link: u64, header: &[u8]) {
    let mut buffer = [0xAA; 1_294];
    let delivery = table.indication(indication, &mut buffer).unwrap();
    let length = header.len() + indication.packet.len();
    let expected = Delivery { link, length, source: SOURCE_MID, class: 7 };
    assert_eq!(delivery, expected);
    assert_eq!(buffer[..header.len()], *header);
    assert_eq!(buffer[header.len()..length], *indication.packet);
    assert!(buffer[length..].iter().all(|&byte| byte == 0xAA), "bytes past the length stay");
}

#[test]
fn frames_for_each_kind_of_link() {
    let to_own = [0x0A, 0x0B, 0x0C, 0x0D, 0x0E, 0x0F, 2, 0, 0, 0, 0, 2, 0x86, 0xDD];
    let to_all = [255, 255, 255, 255, 255, 255, 2, 0, 0, 0, 0, 2, 0x86, 0xDD];
    let inside = packet(address(0x40), address(0x30));
    let outside = packet(address(0x40), address(0x41));
    assert_frame(&tsb(&inside), 0, &to_all);
    assert_frame(&unicast(&inside), 3, &to_own);
    let area = Area { angle: 31, ..AREA };
    for transport in [GEO_ANYCAST, GEO_BROADCAST] {
        assert_frame(&Indication { transport, ..to_area(area, &inside) }, 3, &to_all);
    }
    assert_frame(&unicast(&outside), DGVL, &[]);
    assert_frame(&to_area(AREA, &inside), 2, &[]);
}

/// `frame-kind` speaks of kind 2 too, though no call makes a link of it.
#[test]
fn the_packet_alone_on_kind_2_in_a_table_that_no_call_has_reached() {
    let inside = packet(address(0x40), address(0x30));
    let mut table = table();
    table.tvl.kind = Kind::Nbma;
    table.stops.get_mut(&3).unwrap().interface.kind = Kind::Nbma;
    assert_frame_of(&table, &tsb(&inside), 0, &[]);
    assert_frame_of(&table, &unicast(&inside), 3, &[]);
}

fn assert_refused(indication: &Indication, room: usize, refusal: Refusal) {
    let mut buffer = vec![0xAA; room];
    assert_eq!(table().indication(indication, &mut buffer), Err(refusal));
    assert_eq!(buffer, vec![0xAA; room], "a refusal leaves the buffer");
}

#[test]
fn reply_1() {
    let packet = packet(address(0x40), address(0x41));
    let (unicast, broadcast, tsb) = (unicast(&packet), to_area(AREA, &packet), tsb(&packet));
    let bad_area = Destination::Area(Area { a: 0, ..AREA });
    for indication in [
        Indication { transport: 0, ..unicast },
        Indication { transport: 5, ..tsb },
        Indication { transport: 257, ..unicast },
        Indication { source: LARGEST_MID + 1, ..unicast },
        Indication { source: LARGEST_MID + 1, ..tsb },
        Indication { destination: Destination::Mid(LARGEST_MID + 1), ..unicast },
        Indication { destination: Destination::Nothing, ..unicast },
        Indication { destination: bad_area, ..unicast },
        Indication { destination: Destination::Mid(1), ..broadcast },
        Indication { destination: Destination::Nothing, ..broadcast },
        Indication { destination: bad_area, ..tsb },
        Indication { destination: Destination::Mid(1), ..tsb },
    ] {
        assert_refused(&indication, 0, ValueOutsideItsList);
    }
}

#[test]
fn refusals_come_in_order() {
    let long = [0; 1_281];
    let loopback = packet(LOOPBACK, LOOPBACK);
    let mut wrong_field = loopback.clone();
    wrong_field[5] = 1;
    let mut wrong_version = wrong_field.clone();
    wrong_version[0] = 0x50;
    let short = &wrong_version[..39];
    let bad_area = Area { angle: 360, ..AREA };
    for transport in [GEO_ANYCAST, GEO_BROADCAST] {
        let bad = Indication { transport, ..to_area(bad_area, &long) };
        assert_refused(&Indication { source: u64::MAX, ..bad }, 0, ValueOutsideItsList);
        assert_refused(&bad, 0, AreaNotGood);
    }
    assert_refused(&to_area(AREA, &long), 0, PacketAbove1280);
    assert_refused(&to_area(AREA, short), 0, PacketShort);
    assert_refused(&to_area(AREA, &wrong_version), 0, VersionNot6);
    assert_refused(&to_area(AREA, &wrong_field), 0, LengthFieldWrong);
    assert_refused(&to_area(AREA, &loopback), 0, AddressNotAllowed);
    assert_refused(&to_area(AREA, &packet(address(2), address(2))), 0, NoRoom);
}

#[test]
fn values_and_area_are_judged_before_each_bad_packet() {
    for (bad, _) in bad_packets() {
        let bad_area = Area { angle: 360, ..AREA };
        assert_refused(&Indication { source: u64::MAX, ..tsb(&bad) }, 1_294, ValueOutsideItsList);
        assert_refused(&to_area(bad_area, &bad), 1_294, AreaNotGood);
    }
}

#[test]
fn a_bad_packet_is_refused_on_each_transport_and_leaves_the_buffer() {
    for (bad, refusal) in bad_packets() {
        let anycast = Indication { transport: GEO_ANYCAST, ..to_area(AREA, &bad) };
        for indication in [unicast(&bad), anycast, to_area(AREA, &bad), tsb(&bad)] {
            for room in [0, bad.len() + 13, bad.len() + 14, 1_294] {
                assert_refused(&indication, room, refusal);
            }
        }
    }
}

#[test]
fn the_place_of_each_short_packet_and_each_version() {
    let good = packet(address(0x40), address(0x30));
    let refused = |packet: &[u8]| {
        let refusal = table().indication(&tsb(packet), &mut [0; 1_294]).unwrap_err();
        (refusal.number(), fault_place(refusal, packet))
    };
    for length in 0..40 {
        assert_eq!(refused(&good[..length]), (20, length));
    }
    for version in (0..16).filter(|&version| version != 6) {
        let mut wrong = good.clone();
        wrong[0] = version << 4;
        assert_eq!(refused(&wrong), (21, 0));
        assert_eq!(refused(&wrong[..39]), (20, 39));
    }
}

/// A packet for each reply of `packet-refusals`.
fn bad_packets() -> Vec<(Vec<u8>, Refusal)> {
    let good = packet(address(0x40), address(0x30));
    let (mut long, mut version, mut field) = (good.clone(), good.clone(), good.clone());
    long.resize(1_281, 0);
    version[0] = 0x50;
    field[5] = 1;
    vec![
        (long, PacketAbove1280),
        (good[..39].to_vec(), PacketShort),
        (Vec::new(), PacketShort),
        (version, VersionNot6),
        (field, LengthFieldWrong),
        (packet(LOOPBACK, address(0x30)), AddressNotAllowed),
    ]
}

#[test]
fn reply_13_does_not_depend_on_the_kind_of_the_link() {
    let inside = packet(address(0x40), address(0x30));
    for angle in 29..=32 {
        let indication = to_area(Area { angle, ..AREA }, &inside);
        assert_refused(&indication, inside.len() + 13, NoRoom);
        let mut buffer = vec![0; inside.len() + 14];
        assert!(table().indication(&indication, &mut buffer).is_ok());
    }
}

#[test]
fn packets_up_to_1280_bytes_fit_what_the_program_lends() {
    let mut longest = packet(address(0x40), address(0x41));
    longest.resize(1_280, 1);
    longest[4..6].copy_from_slice(&1_240u16.to_be_bytes());
    let delivery = table().indication(&tsb(&longest), &mut [0; 1_294]).unwrap();
    assert_eq!(delivery.length, 1_294);
}

#[test]
fn no_prefix_holds_nothing() {
    assert!(!NO_PREFIX.holds_address(&address(0)));
}
