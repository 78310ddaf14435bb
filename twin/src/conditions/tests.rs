use super::*;
use crate::area::{Area, CIRCLE};
use crate::call::{kind, TSB};
use crate::generate::day_file;
use crate::limits::{DAYLIST, DISPATCHLIST};
use crate::listing::{lines, Line, RecordKind};
use crate::mid::LARGEST_MID;
use crate::packet::check_packet;
use crate::prefix::{Prefix, NO_PREFIX};
use crate::prefix_list::PrefixList;
use crate::replay::for_each_call;
use crate::reply::Refusal;

const MULTICAST: Address = [0xFF; 16];
const PLAIN: Address = [0x21; 16];

const LAN: InterfaceNumbers = InterfaceNumbers { kind: 1, flag: 1 };
const START: StartSettings = StartSettings { own_mid: 1, maximum: 2, tvl: LAN, dgvl: LAN };

fn table(flag: u64) -> Table {
    let interface = InterfaceNumbers { kind: 1, flag };
    Table::start(&StartSettings { tvl: interface, dgvl: interface, ..START }).1
}

/// A circle and 2000::/9.
fn stop() -> StopSettings {
    let area = Area { shape: CIRCLE, latitude: 0, longitude: 0, a: 5, b: 0, angle: 0 };
    let mut bytes = [0; 16];
    bytes[0] = 0x20;
    let prefixes = PrefixList::of(&[Prefix { length: 9, bytes }]);
    StopSettings { area, prefixes, interface: LAN }
}

/// From ::1, of version 4 and with a wrong length field.
fn packet(to: Address) -> Vec<u8> {
    [&[0x40, 0, 0, 0, 0, 1, 0x3B, 0x40][..], &LOOPBACK, &to].concat()
}

/// By a good next hop without FF FE.
fn of_sent(table: &Table, packet: &[u8]) -> Vec<u8> {
    let next_hop = &PLAIN;
    let request = Request { index: DGVL, class: 0, neighbour: None, next_hop, packet };
    holding(DAYLIST, Some(table), &Call::Request(request))
}

/// The lengths at which the condition of the reply holds of a request on the DGVL.
fn lengths_with(reply: u8, to: Address, flag: u64) -> Vec<usize> {
    let packet = packet(to);
    let held = |&length: &usize| of_sent(&table(flag), &packet[..length]).contains(&reply);
    (0..=40).filter(held).collect()
}

#[test]
fn of_a_short_packet_a_condition_needs_the_bytes_that_it_names() {
    for (reply, to, flag, first) in [
        (21, PLAIN, 1, 1),
        (22, PLAIN, 1, 6),
        (10, PLAIN, 1, 24),
        (11, MULTICAST, 1, 25),
        (12, PLAIN, 0, 25),
        (12, PLAIN, 1, 25),
    ] {
        let expected: Vec<usize> = (first..=40).collect();
        assert_eq!(lengths_with(reply, to, flag), expected, "{reply}");
    }
    assert_eq!(lengths_with(20, PLAIN, 1), (0..40).collect::<Vec<_>>());
}

#[test]
fn conditions_of_a_start() {
    let link = |kind, flag| InterfaceNumbers { kind, flag };
    for (settings, expected) in [
        (START, &[][..]),
        (StartSettings { tvl: link(3, 0), dgvl: link(3, 1), ..START }, &[]),
        (StartSettings { own_mid: LARGEST_MID + 1, ..START }, &[1]),
        (StartSettings { dgvl: link(4, 1), ..START }, &[1]),
        (StartSettings { tvl: link(2, 0), ..START }, &[30]),
        (StartSettings { dgvl: link(2, 1), ..START }, &[30]),
        (StartSettings { tvl: link(2, 2), ..START }, &[1, 30]),
        (StartSettings { tvl: link(4, 1), dgvl: link(2, 1), ..START }, &[1, 30]),
        (StartSettings { maximum: 66, dgvl: link(2, 1), ..START }, &[1, 30]),
    ] {
        assert_eq!(holding(DAYLIST, None, &Call::Start(settings)), expected, "{settings:?}");
        assert_eq!(
            holding(DAYLIST, Some(&table(1)), &Call::Start(settings)),
            [],
            "a second one is 16"
        );
    }
    for (maximum, by_daylist, by_dispatchlist) in [
        (1, &[1][..], &[1][..]),
        (65, &[], &[]),
        (66, &[1], &[]),
        (4_093, &[1], &[]),
        (4_094, &[1], &[1]),
    ] {
        let start = Call::Start(StartSettings { maximum, ..START });
        assert_eq!(holding(DAYLIST, None, &start), by_daylist);
        assert_eq!(holding(DISPATCHLIST, None, &start), by_dispatchlist);
    }
}

#[test]
fn conditions_of_an_enable() {
    let mut full = table(1);
    assert_eq!(holding(DAYLIST, Some(&full), &Call::Enable(stop())), []);
    full.enable(&stop()).unwrap();
    let retired = InterfaceNumbers { kind: 2, flag: 0 };
    let also_bad_flag = InterfaceNumbers { flag: 2, ..retired };
    // The area, as it is not good, is equal to none; the prefix, with a bit past its
    // length, still overlaps by its first nine.
    let bad_area = Area { angle: 360, ..stop().area };
    let mut bad_prefix = stop().prefixes;
    bad_prefix.places[0].bytes[1] = 1;
    let elsewhere = Area { latitude: 1, ..stop().area };
    for (settings, expected) in [
        (stop(), &[4, 5, 6][..]),
        (StopSettings { area: elsewhere, ..stop() }, &[5, 6]),
        (StopSettings { prefixes: bad_prefix, ..stop() }, &[3, 4, 5, 6]),
        (StopSettings { area: bad_area, ..stop() }, &[2, 5, 6]),
        (StopSettings { interface: retired, ..stop() }, &[30, 4, 5, 6]),
        (StopSettings { interface: also_bad_flag, ..stop() }, &[1, 30, 4, 5, 6]),
        (
            StopSettings { area: bad_area, prefixes: bad_prefix, interface: also_bad_flag },
            &[1, 30, 2, 3, 5, 6],
        ),
    ] {
        assert_eq!(
            holding(DAYLIST, Some(&full), &Call::Enable(settings)),
            expected,
            "{settings:?}"
        );
        assert_eq!(
            holding(DAYLIST, None, &Call::Enable(settings)),
            [],
            "before the start it is 16"
        );
    }
}

/// No record has a count above four, so that 29 is asked of the call alone.
#[test]
fn conditions_of_a_list() {
    let mut full = table(1);
    full.enable(&stop()).unwrap();
    let [of_stop, mut other] = [stop().prefixes.places[0]; 2];
    other.bytes[0] = 0x30;
    let bad_area = Area { angle: 360, ..stop().area };
    let elsewhere = Area { latitude: 1, ..stop().area };
    let too_many = |prefix| PrefixList { count: 5, places: [prefix; 4] };
    for (area, prefixes, expected) in [
        (stop().area, too_many(of_stop), &[29, 4, 5, 6][..]),
        (bad_area, too_many(NO_PREFIX), &[2, 29, 3, 6]),
        (stop().area, PrefixList::of(&[other, NO_PREFIX, of_stop]), &[3, 4, 5, 6]),
        (elsewhere, PrefixList::of(&[other, NO_PREFIX]), &[3, 6]),
        (elsewhere, PrefixList::of(&[other, other]), &[5, 6]),
        (elsewhere, PrefixList::of(&[other, of_stop]), &[5, 6]),
        (elsewhere, PrefixList { count: 1, places: [other; 4] }, &[6]),
    ] {
        let call = Call::Enable(StopSettings { area, prefixes, ..stop() });
        assert_eq!(holding(DAYLIST, Some(&full), &call), expected, "{prefixes:?}");
    }
}

#[test]
fn conditions_of_traffic_do_not_hide_each_other() {
    let table = table(1);
    assert_eq!(of_sent(&table, &packet(PLAIN)), [21, 22, 10, 12]);
    assert_eq!(of_sent(&table, &packet(MULTICAST)), [21, 22, 10, 11]);
    let long = [&packet(PLAIN)[..], &[0; 1_300]].concat();
    let destination = Destination::Nothing;
    let indication =
        Indication { transport: TSB, source: u64::MAX, class: 0, destination, packet: &long };
    assert_eq!(
        holding(DAYLIST, Some(&table), &Call::Indication(indication)),
        [1, 9, 21, 22, 10, 13]
    );
    assert_eq!(holding(DAYLIST, Some(&table), &Call::Disable(0)), []);
}

#[test]
fn a_bad_next_hop_is_12_beside_each_other_reply() {
    let mut good = packet(PLAIN);
    (good[0], good[5], good[8]) = (0x60, 0, 0x20);
    let mast = [&PLAIN[..11], &[0xFF, 0xFE], &PLAIN[13..]].concat();
    for (index, flag, neighbour, next_hop, expected) in [
        (DGVL, 1, None, &mast[..], &[][..]),
        (DGVL, 1, Some(5), &PLAIN, &[12]),
        (DGVL, 0, Some(5), &PLAIN, &[]),
        (DGVL, 0, None, &mast, &[12]),
        (DGVL, 0, Some(5), &UNSPECIFIED, &[12]),
        (DGVL, 0, Some(5), &LOOPBACK, &[12]),
        (DGVL, 0, Some(5), &MULTICAST, &[12]),
        (DGVL, 0, Some(5), &mast[..15], &[12]),
        (9, 1, None, &mast, &[7]),
        (9, 1, None, &PLAIN, &[7]),
        (9, 1, Some(u64::MAX), &UNSPECIFIED, &[1, 7, 12]),
    ] {
        let request = Request { index, class: 0, neighbour, next_hop, packet: &good };
        let held = holding(DAYLIST, Some(&table(flag)), &Call::Request(request));
        assert_eq!(held, expected, "{next_hop:02x?}");
    }
}

#[test]
fn the_packets_part_is_that_of_the_calls() {
    for length in 0..=41 {
        for (to, version, field) in [(PLAIN, 6, 0), (PLAIN, 6, 1), (PLAIN, 5, 0), (LOOPBACK, 6, 0)]
        {
            let mut packet = [&packet(to)[..], &[0]].concat();
            (packet[0], packet[5], packet[8]) = (version << 4, field, 0x20);
            packet.truncate(length);
            let first = of_packet(&packet).into_iter().find(|&(_, holds)| holds);
            let reply = check_packet(&packet).err().map(|refusal| refusal.number());
            assert_eq!(first.map(|(reply, _)| reply), reply);
        }
    }
}

/// `reply-first`: the first that holds is listed, and 0 where none does.
#[test]
fn the_first_that_holds_is_listed() {
    let kinds = [
        kind::START,
        kind::OLD_ENABLE,
        kind::INDICATION,
        kind::OLD_REQUEST,
        kind::REQUEST,
        kind::ENABLE,
    ];
    for number in 0..100 {
        let day = day_file(21, number);
        let mut listed = lines(DAYLIST, &day).into_iter();
        for_each_call(DAYLIST, &day, |replay, _, call| {
            let Line { kind, answer } = listed.next().unwrap();
            let asked = kinds.map(RecordKind::Known).contains(&kind);
            if !asked || answer.reply == Refusal::StartOutOfPlace.number() {
                return;
            }
            let first = holding(DAYLIST, replay.table(), call).first().copied();
            assert_eq!(answer.reply, first.unwrap_or(0), "file {number}");
        });
    }
}
