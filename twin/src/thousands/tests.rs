mod several;

use super::*;
use crate::arriving::Indication;
use crate::call::GEO_BROADCAST;
use crate::leaving::Request;
use crate::link::InterfaceNumbers;
use crate::listing::lines;
use crate::packet::UNSPECIFIED;
use crate::prefix::NO_PREFIX;
use crate::replay::Replay;
use crate::table::StopSettings;
use crate::write::record_bytes;

const LAN: InterfaceNumbers = InterfaceNumbers { kind: 1, flag: 1 };

fn start(maximum: u64) -> Call<'static> {
    Call::Start(StartSettings { own_mid: 1, maximum, tvl: LAN, dgvl: LAN })
}

/// The area of the stop that takes this index.
fn area(index: u64) -> Area {
    Area { shape: 0, latitude: index.into(), longitude: 0, a: 1, b: 0, angle: 0 }
}

/// Its prefix: 2000::/16 and those behind.
fn prefix(index: u64) -> Prefix {
    let mut bytes = [0; 16];
    bytes[..2].copy_from_slice(&(0x2000 + index as u16).to_be_bytes());
    Prefix { length: 16, bytes }
}

fn enable(area: Area, prefix: Prefix) -> Call<'static> {
    enable_list(area, PrefixList::of_one_or_none(prefix).listed())
}

fn enable_list(area: Area, prefixes: &[Prefix]) -> Call<'static> {
    Call::Enable(StopSettings { area, prefixes: PrefixList::of(prefixes), interface: LAN })
}

/// A table of this maximum in which each index is enabled but these.
fn table(maximum: u64, unused: &[u64]) -> Replay {
    let mut replay = Replay::new(DISPATCHLIST);
    replay.call(&start(maximum));
    for index in FIRST_STOP..=maximum {
        replay.call(&enable(area(index), prefix(index)));
    }
    for &index in unused {
        replay.call(&Call::Disable(index));
    }
    replay
}

/// The names of what this call shows, where these stops were disabled before.
fn seen_behind(gone: &[u64], replay: &Replay, call: &Call) -> Vec<String> {
    let answer = replay.clone().call(call);
    let stop = |&index: &u64| Stop {
        area: area(index),
        prefixes: PrefixList::of(&[prefix(index)]),
        interface: replay.table().unwrap().tvl,
    };
    let mut counts = Counts { gone: gone.iter().map(stop).collect(), ..Counts::default() };
    counts.add_call(replay, call.kind(), call, &answer);
    counts.rows().into_iter().filter(|(_, _, count)| *count > 0).map(|(_, name, _)| name).collect()
}

fn seen(replay: &Replay, call: &Call) -> Vec<String> {
    seen_behind(&[], replay, call)
}

#[test]
fn maxima_of_starts() {
    let replay = Replay::new(DISPATCHLIST);
    for (maximum, names) in [
        (1, &["1 maximum 1"][..]),
        (2, &["0 maximum 2"]),
        (3, &[]),
        (65, &["0 maximum 65"]),
        (66, &["0 maximum 66"]),
        (67, &["0 maximum 67 to 4,091"]),
        (4_091, &["0 maximum 67 to 4,091"]),
        (4_092, &["0 maximum 4,092"]),
        (4_093, &["0 maximum 4,093"]),
        (4_094, &["1 maximum 4,094"]),
        (65_536, &["1 maximum above 4,094"]),
        (65_538, &["1 maximum above 4,094", "1 maximum with the low 16 bits of a good one"]),
    ] {
        assert_eq!(seen(&replay, &start(maximum)), names, "{maximum}");
    }
    // The own MID refuses it too.
    let tvl = LAN;
    let settings = StartSettings { own_mid: u64::MAX, maximum: 4_094, tvl, dgvl: LAN };
    assert!(seen(&replay, &Call::Start(settings)).is_empty());
}

#[test]
fn enables_up_to_the_maximum() {
    let new = enable(area(9_999), NO_PREFIX);
    for (maximum, unused, names) in [
        (65, &[][..], &[][..]),
        (66, &[], &["6 maximum 66"]),
        (66, &[66], &["0 at 66", "0 at the maximum, 66"]),
        (67, &[66], &["0 at 66"]),
        (67, &[], &["6 maximum 67 to 4,091"]),
        (300, &[256], &["0 at 256 or above"]),
        (300, &[300], &["0 at 256 or above", "0 at the maximum, 67 to 4,091"]),
        (4_092, &[], &["6 maximum 4,092"]),
        (4_093, &[], &["6 maximum 4,093"]),
        (4_092, &[4_092], &["0 at 256 or above", "0 at the maximum, 4,092"]),
        (4_093, &[4_093], &["0 at 256 or above", "0 at the maximum, 4,093"]),
        (4_093, &[2], &["0 at the first index of thousands"]),
        (4_093, &[3_000], &["0 at 256 or above"]),
        (
            4_093,
            &[3_000, 4_000],
            &["0 at 256 or above", "0 at the lowest of several unused, above 1,000"],
        ),
    ] {
        assert_eq!(seen(&table(maximum, unused), &new), names, "{maximum} {unused:?}");
    }
}

#[test]
fn enables_refused_by_one_of_thousands() {
    let (full, gap) = (table(4_093, &[]), table(4_093, &[9]));
    let new = |prefix| enable(area(9_999), prefix);
    let bare = |index| enable(area(index), NO_PREFIX);
    let last = "4 by the last of thousands";
    let last_prefix = "5 by the last of thousands";
    for (replay, call, names) in [
        (&full, bare(2), &["4 by the first of thousands"][..]),
        (&full, bare(9), &["4 by one between thousands"]),
        (&full, bare(4_093), &[last]),
        (&gap, bare(4_093), &[last, "4 by the last, an index unused before it"]),
        (
            &full,
            enable(area(4_093), prefix(2)),
            &[last, "4 by the last, the prefix overlaps the first's"],
        ),
        (
            &full,
            enable(area(2), prefix(4_093)),
            &["4 by the first of thousands", "4 by the first, the prefix overlaps the last's"],
        ),
        (&full, new(prefix(2)), &["5 by the first of thousands"]),
        (&full, new(prefix(9)), &["5 by one between thousands"]),
        (&full, new(prefix(4_093)), &[last_prefix]),
        (&gap, new(prefix(4_093)), &[last_prefix, "5 by the last, an index unused before it"]),
        // Each of them alone would refuse it.
        (&full, new(Prefix { length: 4, ..prefix(2) }), &[]),
    ] {
        assert_eq!(seen(replay, &call), names, "{call:?}");
    }
    assert!(seen(&table(1_000, &[]), &bare(2)).is_empty(), "no thousands");
}

#[test]
fn what_a_disabled_stop_had() {
    let gap = table(4_093, &[900]);
    let of_area = enable(area(900), NO_PREFIX);
    let of_prefix = enable(area(9_999), prefix(900));
    for (call, name) in [
        (of_area, "0 area of a disabled one of thousands"),
        (of_prefix, "0 prefix of a disabled one of thousands"),
    ] {
        assert_eq!(seen_behind(&[900], &gap, &call), ["0 at 256 or above", name]);
        assert_eq!(seen(&gap, &call), ["0 at 256 or above"]);
    }
}

/// From one to the other of these indices' prefixes.
fn packet(source: u64, to: u64) -> Vec<u8> {
    let mut packet = vec![0x60, 0, 0, 0, 0, 0, 0x3B, 0x40];
    packet.extend(prefix(source).bytes);
    packet.extend(prefix(to).bytes);
    packet
}

fn indication(transport: u64, destination: Destination, packet: &[u8]) -> Call<'_> {
    Call::Indication(Indication { transport, source: 2, class: 0, destination, packet })
}

#[test]
fn what_arrives_for_an_area() {
    let (full, gap) = (table(4_093, &[]), table(4_093, &[9]));
    let packet = packet(5, 6);
    for (replay, index, names) in [
        (&full, 2, &["0 area of the first of thousands"][..]),
        (&full, 9, &["0 area of one between thousands"]),
        (&full, 4_093, &["0 area of the last of thousands"]),
        (&full, 9_999, &["0 area of none of thousands"]),
        (
            &gap,
            4_093,
            &["0 area of the last of thousands", "0 area of the last, an index unused before it"],
        ),
        (&gap, 9, &["0 area of none of thousands", "0 area of a disabled one of thousands"]),
    ] {
        let call = indication(GEO_BROADCAST, Destination::Area(area(index)), &packet);
        assert_eq!(seen_behind(&[9], replay, &call), names, "{index}");
    }
}

/// What arrives from one to the other, where the stop of index 9 was disabled before.
fn seen_by_addresses(replay: &Replay, source: u64, to: u64) -> Vec<String> {
    let packet = packet(source, to);
    seen_behind(&[9], replay, &indication(GEO_UNICAST, Destination::Mid(1), &packet))
}

/// No stop has 9,999.
#[test]
fn what_arrives_by_its_addresses() {
    let full = table(4_093, &[]);
    for (source, to, names) in [
        (9_999, 2, &["0 destination of the first of thousands"][..]),
        (9_999, 9, &["0 destination of one between thousands"]),
        (9_999, 4_093, &["0 destination of the last of thousands"]),
        (2, 9_999, &["0 source of the first of thousands"]),
        (9, 9_999, &["0 source of one between thousands"]),
        (4_093, 9_999, &["0 source of the last of thousands"]),
        (9_999, 9_998, &["0 addresses of none of thousands"]),
        (2, 4_093, &["0 destination of the last, source of the first"]),
        (4_093, 2, &["0 destination of the first, source of the last"]),
        (2, 2, &[]),
    ] {
        assert_eq!(seen_by_addresses(&full, source, to), names, "{source} {to}");
    }
}

#[test]
fn what_arrives_by_its_addresses_where_a_stop_is_disabled() {
    let gap = table(4_093, &[9]);
    let none = "0 addresses of none of thousands";
    let (by_to, by_source) =
        ("0 destination of the last of thousands", "0 source of the last of thousands");
    for (source, to, names) in [
        (9_999, 9, ["0 destination of a disabled one of thousands", none]),
        (9, 9_999, ["0 source of a disabled one of thousands", none]),
        (9_999, 4_093, [by_to, "0 destination of the last, an index unused before it"]),
        (4_093, 9_999, [by_source, "0 source of the last, an index unused before it"]),
    ] {
        assert_eq!(seen_by_addresses(&gap, source, to), names, "{source} {to}");
    }
}

/// What disables and requests show is the same.
#[test]
fn calls_at_an_index() {
    let (full, wide) = (table(4_093, &[9]), table(66, &[]));
    let mut packet = packet(1, 1);
    packet[24] = 0xFF;
    for (replay, index, names) in [
        (&full, 2, &["0 the first of thousands"][..]),
        (&full, 10, &["0 one between thousands"]),
        (&full, 4_093, &["0 the last of thousands"]),
        (&full, 9, &["7 a disabled one of thousands"]),
        (&full, 4_094, &["7 one above the maximum of thousands", "7 4,094, of thousands"]),
        (&full, 4_096 + 2, &["7 the low 12 bits of an enabled one"]),
        (
            &full,
            65_536 + 2,
            &["7 the low 12 bits of an enabled one", "7 the low 16 bits of an enabled one"],
        ),
        (&wide, 2, &[]),
        (&wide, 67, &["7 above the maximum, up to 4,093"]),
        (&wide, 4_094, &[]),
    ] {
        let next_hop = &UNSPECIFIED;
        let packet = &packet;
        let request = Request { index, class: 0, neighbour: None, next_hop, packet };
        for call in [Call::Disable(index), Call::Request(request)] {
            assert_eq!(seen(replay, &call), names, "{index}");
        }
    }
}

#[test]
fn packets_of_more_than_16_bits() {
    let replay = table(66, &[]);
    for (length, names) in [(65_535, &[][..]), (65_536, &["9 packet of 65,536 bytes or more"])] {
        let packet = &vec![0x60; length];
        let next_hop = &UNSPECIFIED;
        let request = Request { index: 2, class: 0, neighbour: None, next_hop, packet };
        let arriving = indication(GEO_UNICAST, Destination::Mid(1), packet);
        for call in [Call::Request(request), arriving] {
            assert_eq!(seen(&replay, &call), names);
        }
    }
}

fn seen_of_day(input: &[u8]) -> Vec<&'static str> {
    let mut counts = Counts::default();
    counts.add(input, &lines(DISPATCHLIST, input));
    let rows = counts.rows_of_days().into_iter();
    rows.filter(|(_, count)| *count > 0).map(|(name, _)| name).collect()
}

#[test]
fn days_of_many_bytes() {
    // Disables of eight bytes each, before the start.
    let disable = [3, 0x80, 0x80, 0x80, 0x80, 0x80, 0x80, 1];
    let most = disable.repeat(262_144 / 8);
    assert_eq!(seen_of_day(&most), ["262,144 bytes, whole"]);
    let one_less = [&most[..262_136], &[3, 0x80, 0x80, 0x80, 0x80, 0x80, 1]].concat();
    assert_eq!(seen_of_day(&one_less), ["262,143 bytes, whole"]);
    let ends = "more than 262,144 bytes, a record ends there";
    assert_eq!(seen_of_day(&[&most[..], &[0]].concat()), [ends]);
    let cut = [&[3, 1], &most[..]].concat();
    let expected =
        ["more than 262,144 bytes, a record is cut there", "14 at an offset of 65,536 or more"];
    assert_eq!(seen_of_day(&cut), expected);
    // It would be broken without the limit too.
    let broken = [&most[..262_136], &[9; 9]].concat();
    assert_eq!(seen_of_day(&broken), expected[1..]);
}

#[test]
fn days_of_many_records() {
    let most = [3, 1].repeat(65_536);
    assert_eq!(seen_of_day(&most), ["65,536 records, whole"]);
    let more = "65,536 records, and whole ones behind";
    assert_eq!(seen_of_day(&[&most[..], &[3, 1]].concat()), [more]);
    let broken_behind = "65,536 records, and a broken one behind";
    assert_eq!(seen_of_day(&[&most[..], &[9]].concat()), [broken_behind]);
    let broken = [&most[2..], &[9]].concat();
    let expected = ["14 at an offset of 65,536 or more", "65,536 records, the last is broken"];
    assert_eq!(seen_of_day(&broken), expected);
    let both = [3, 0x80, 0x80, 1].repeat(65_537);
    let expected = "65,536 records in 262,144 bytes, and more behind";
    assert_eq!(seen_of_day(&both), [expected]);
}

/// `run-alike`.
#[test]
fn days_that_both_programs_take() {
    let day = |maxima: &[u64]| -> Vec<u8> {
        maxima.iter().flat_map(|&maximum| record_bytes(&start(maximum)).unwrap()).collect()
    };
    for (maxima, taken) in [
        (&[][..], true),
        (&[65], true),
        (&[66], false),
        (&[4_093, 65], false),
        (&[4_094, 65], true),
        (&[65, 66], false),
    ] {
        assert_eq!(both_take(&day(maxima)), taken, "{maxima:?}");
    }
    // Nothing behind a broken record is listed.
    assert!(both_take(&[&[9], &day(&[66])[..]].concat()));
    assert!(both_take(&[3, 1].repeat(32_768)));
    assert!(!both_take(&[3, 1].repeat(32_769)));
    let name = "taken by daylist too, and listed alike";
    assert_eq!(seen_of_day(&day(&[65])), [name]);
}
