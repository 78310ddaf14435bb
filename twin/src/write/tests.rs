use super::*;
use crate::call::{GEO_ANYCAST, GEO_BROADCAST, GEO_UNICAST, TSB};
use crate::packet::UNSPECIFIED;
use crate::prefix::NO_PREFIX;
use crate::prefix_list::{MOST_PREFIXES, NO_PREFIXES};
use crate::read::read_record;
use crate::table::{StartSettings, StopSettings};

const AREA: Area = Area { shape: 1, latitude: -7, longitude: 8, a: 9, b: 10, angle: 11 };
const WIDE: InterfaceNumbers = InterfaceNumbers { kind: u64::MAX, flag: 2 };
const LAN: InterfaceNumbers = InterfaceNumbers { kind: 1, flag: 1 };
const RETIRED: InterfaceNumbers = InterfaceNumbers { kind: 2, flag: 0 };
const STOP: StopSettings = StopSettings { area: AREA, prefixes: NO_PREFIXES, interface: LAN };

const UNICAST: Indication<'static> = Indication {
    transport: GEO_UNICAST,
    source: 1,
    class: 2,
    destination: Destination::Mid(3),
    packet: &[4, 5],
};

const REQUEST: Request<'static> =
    Request { index: 2, class: 0, neighbour: None, next_hop: &[0x85; 16], packet: &[1, 2] };

fn to_area(transport: u64, area: Area) -> Indication<'static> {
    Indication { transport, destination: Destination::Area(area), ..UNICAST }
}

fn tsb() -> Indication<'static> {
    Indication { transport: TSB, destination: Destination::Nothing, ..UNICAST }
}

fn assert_reads_back(call: Call) {
    let mut buffer = [0xEE; 200];
    let length = write_record(&call, &mut buffer).unwrap();
    assert_eq!(read_record(&buffer, 0), Ok((call, length)));
    assert!(buffer[length..].iter().all(|&byte| byte == 0xEE));
}

#[test]
fn the_start_record_of_the_worked_example() {
    let start = StartSettings { own_mid: 0x0200_0000_0001, maximum: 65, tvl: LAN, dgvl: LAN };
    let expected = [0x01, 0x81, 0x80, 0x80, 0x80, 0x80, 0x40, 0x41, 1, 1, 1, 1];
    assert_eq!(record_bytes(&Call::Start(start)).unwrap(), expected);
}

#[test]
fn calls_read_back_also_with_values_out_of_range_and_the_retired_kind() {
    let start = StartSettings { own_mid: u64::MAX, maximum: u64::MAX, tvl: WIDE, dgvl: LAN };
    let outside = Area {
        shape: u64::MAX,
        latitude: i128::from(u64::MAX) - LATITUDE_BOUND,
        longitude: i128::from(u64::MAX) - LONGITUDE_BOUND,
        a: u64::MAX,
        b: u64::MAX,
        angle: u64::MAX,
    };
    let lowest = Area { latitude: -LATITUDE_BOUND, longitude: -LONGITUDE_BOUND, ..AREA };
    for call in [
        Call::Start(start),
        Call::Start(StartSettings { own_mid: 1, maximum: 2, tvl: RETIRED, dgvl: RETIRED }),
        Call::Enable(STOP),
        Call::Enable(StopSettings { interface: RETIRED, ..STOP }),
        Call::Enable(StopSettings { area: outside, interface: WIDE, ..STOP }),
        Call::Disable(0),
        Call::Disable(u64::MAX),
        Call::DgvlArea(None),
        Call::DgvlArea(Some(lowest)),
        Call::OwnMid(u64::MAX),
        Call::Indication(UNICAST),
        Call::Indication(Indication { destination: Destination::Mid(u64::MAX), ..UNICAST }),
        Call::Indication(to_area(GEO_ANYCAST, AREA)),
        Call::Indication(to_area(GEO_BROADCAST, outside)),
        Call::Indication(Indication { source: u64::MAX, packet: &[], ..tsb() }),
        Call::Request(REQUEST),
        Call::Request(Request { index: u64::MAX, class: 255, packet: &[], ..REQUEST }),
        Call::Request(Request { neighbour: Some(u64::MAX), next_hop: &UNSPECIFIED, ..REQUEST }),
    ] {
        assert_reads_back(call);
    }
}

#[test]
fn prefixes_of_every_length_read_back() {
    for length in 0..=128 {
        let mut bytes = [0; 16];
        bytes[..bytes_needed(length)].fill(0xFF);
        assert_reads_back(stop_with(&[Prefix { length, bytes }]));
        assert_reads_back(stop_with(&[PREFIX, Prefix { length, bytes }, NO_PREFIX, PREFIX]));
    }
}

/// 2010::/12.
const PREFIX: Prefix =
    Prefix { length: 12, bytes: [0x20, 0x10, 0, 0, 0, 0, 0, 0, 0, 0, 0, 0, 0, 0, 0, 0] };

fn stop_with(prefixes: &[Prefix]) -> Call<'static> {
    Call::Enable(StopSettings { prefixes: PrefixList::of(prefixes), ..STOP })
}

/// `record-enable`, as kind 9 alone (`record-list`).
#[test]
fn the_records_of_an_enable() {
    let area = [1, 0xF9, 0xD1, 0x93, 0xAD, 0x03, 0x88, 0xA4, 0xA7, 0xDA, 0x06, 9, 10, 11];
    for (prefixes, list) in [
        (&[][..], &[0][..]),
        (&[PREFIX], &[1, 12, 0x20, 0x10]),
        (&[NO_PREFIX, PREFIX], &[2, 0, 12, 0x20, 0x10]),
        (&[PREFIX, PREFIX, NO_PREFIX], &[3, 12, 0x20, 0x10, 12, 0x20, 0x10, 0]),
    ] {
        let expected = [&[9], &area[..], list, &[1, 1]].concat();
        assert_eq!(record_bytes(&stop_with(prefixes)).unwrap(), expected);
    }
}

#[test]
fn an_enable_that_was_read_as_kind_2_is_written_as_kind_9() {
    for (old, list) in [(&[0][..], &[0][..]), (&[12, 0x20, 0x10], &[1, 12, 0x20, 0x10])] {
        let record =
            |kind: u8, list: &[u8]| [&[kind, 0, 0, 0, 1, 0, 0], list, &[1, 1][..]].concat();
        let old = record(2, old);
        let (call, _) = read_record(&old, 0).unwrap();
        assert_eq!(record_bytes(&call).unwrap(), record(9, list));
        assert_reads_back(call);
    }
}

/// `writer-back`.
#[test]
fn what_stands_past_the_count_is_not_written_and_reads_back_blank() {
    let bad = Prefix { length: 255, bytes: [0xFF; 16] };
    for count in 0..MOST_PREFIXES {
        let mut places = [bad; MOST_PREFIXES];
        places[..count].fill(PREFIX);
        let prefixes = PrefixList { count: count as u8, places };
        let record = record_bytes(&Call::Enable(StopSettings { prefixes, ..STOP })).unwrap();
        let blank = stop_with(&vec![PREFIX; count]);
        assert_eq!(read_record(&record, 0), Ok((blank, record.len())));
    }
}

#[test]
fn no_form_for_a_count_above_four() {
    for count in [5, 6, 255] {
        let prefixes = PrefixList { count, places: [PREFIX; MOST_PREFIXES] };
        assert_no_form(Call::Enable(StopSettings { prefixes, ..STOP }));
    }
}

/// The prefix at each place of a list of four, the others good.
fn at_each_place(prefix: Prefix) -> impl Iterator<Item = Call<'static>> {
    (0..MOST_PREFIXES).map(move |place| {
        let mut prefixes = [PREFIX; MOST_PREFIXES];
        prefixes[place] = prefix;
        stop_with(&prefixes)
    })
}

fn assert_no_form(call: Call) {
    let mut buffer = [0xEE; 200];
    assert_eq!(write_record(&call, &mut buffer), Err(Refusal::RecordBroken));
    assert_eq!(buffer, [0xEE; 200]);
    assert_eq!(write_record(&call, &mut []), Err(Refusal::RecordBroken), "14 before 13");
}

#[test]
fn no_form_for_a_latitude_or_longitude_below_its_bound() {
    for area in [
        Area { latitude: -900_000_001, ..AREA },
        Area { longitude: -1_800_000_001, ..AREA },
        Area { latitude: i128::MIN, longitude: i128::MAX, ..AREA },
    ] {
        assert_no_form(Call::Enable(StopSettings { area, ..STOP }));
        assert_no_form(Call::DgvlArea(Some(area)));
        assert_no_form(Call::Indication(to_area(GEO_ANYCAST, area)));
        assert_no_form(Call::Indication(to_area(GEO_BROADCAST, area)));
    }
}

#[test]
fn no_form_for_a_prefix_length_above_128() {
    for length in [129, 136, u64::MAX] {
        at_each_place(Prefix { length, bytes: [0; 16] }).for_each(assert_no_form);
    }
}

#[test]
fn no_form_for_a_prefix_byte_past_those_needed() {
    for length in 0..=120 {
        for place in [bytes_needed(length), 15] {
            let mut bytes = [0; 16];
            bytes[place] = 1;
            at_each_place(Prefix { length, bytes }).for_each(assert_no_form);
        }
    }
}

#[test]
fn no_form_for_a_transport_outside_1_to_4() {
    for transport in [0, 5, 257, u64::MAX] {
        for indication in [UNICAST, tsb(), to_area(GEO_BROADCAST, AREA)] {
            assert_no_form(Call::Indication(Indication { transport, ..indication }));
        }
    }
}

#[test]
fn no_form_for_a_destination_of_the_wrong_sort() {
    let sorts = [Destination::Mid(1), Destination::Area(AREA), Destination::Nothing];
    for transport in 1..=4 {
        for destination in sorts {
            let indication = Indication { transport, destination, ..UNICAST };
            if destination.is_of_the_sort_of(transport) {
                assert_reads_back(Call::Indication(indication));
            } else {
                assert_no_form(Call::Indication(indication));
            }
        }
    }
}

/// `record-request`, as kind 8 alone (`record-hop`).
#[test]
fn the_records_of_a_request() {
    let without = [&[8, 2, 0, 0], &[0x85; 16][..], &[2, 1, 2]].concat();
    assert_eq!(record_bytes(&Call::Request(REQUEST)).unwrap(), without);
    let request = Request { neighbour: Some(9), ..REQUEST };
    let with = [&[8, 2, 0, 1, 9], &[0x85; 16][..], &[2, 1, 2]].concat();
    assert_eq!(record_bytes(&Call::Request(request)).unwrap(), with);
}

#[test]
fn a_request_that_was_read_as_kind_7_is_written_as_kind_8() {
    let packet: Vec<u8> = (0..40).collect();
    let old = [&[7, 2, 0, 0, 40], &packet[..]].concat();
    let (call, _) = read_record(&old, 0).unwrap();
    let expected = [&[8, 2, 0, 0], &packet[24..40], &[40], &packet[..]].concat();
    assert_eq!(record_bytes(&call).unwrap(), expected);
    assert_reads_back(call);
}

#[test]
fn no_form_for_a_next_hop_that_is_not_16_bytes_long() {
    let run = [0x20; 40];
    for length in (0..=40).filter(|&length| length != 16) {
        assert_no_form(Call::Request(Request { next_hop: &run[..length], ..REQUEST }));
    }
}

#[test]
fn without_room_nothing_is_written() {
    let broadcast = Call::Indication(to_area(GEO_BROADCAST, AREA));
    for call in [broadcast, Call::Enable(STOP), Call::Request(REQUEST)] {
        let record = record_bytes(&call).unwrap();
        for room in 0..record.len() {
            let mut buffer = vec![0xEE; room];
            assert_eq!(write_record(&call, &mut buffer), Err(Refusal::NoRoom));
            assert_eq!(buffer, vec![0xEE; room]);
        }
        let mut buffer = vec![0xEE; record.len()];
        assert_eq!(write_record(&call, &mut buffer), Ok(record.len()));
        assert_eq!(buffer, record);
    }
}
