use super::*;
use crate::numbers::number_bytes;
use crate::prefix::NO_PREFIX;

/// The area of the worked example, `listing-example`.
const AREA_BYTES: [u8; 14] =
    [0, 0x80, 0xD2, 0x93, 0xAD, 0x03, 0x80, 0xA4, 0xA7, 0xDA, 0x06, 0xF4, 0x03, 0];

fn area_bytes() -> Vec<u8> {
    let mut bytes = AREA_BYTES.to_vec();
    bytes.push(0);
    bytes
}

fn area() -> Area {
    Area { shape: 0, latitude: 0, longitude: 0, a: 500, b: 0, angle: 0 }
}

fn read(bytes: &[u8]) -> Call<'_> {
    let (call, behind) = read_record(bytes, 0).expect("a whole record");
    assert_eq!(behind, bytes.len());
    call
}

/// Broken at its own offset, with or without whole records before it.
fn assert_broken(bytes: &[u8]) {
    assert_eq!(read_record(bytes, 0), Err(Broken), "{bytes:02x?}");
    let text = crate::listing::listing(crate::limits::DAYLIST, &[&[5, 1, 3, 1], bytes].concat());
    assert!(text.ends_with("\n3 14 - 4\n"), "{text}");
}

/// Each beginning of a whole record, but the empty one, is broken.
fn assert_broken_when_cut(whole: &[u8]) {
    read(whole);
    for length in 1..whole.len() {
        assert_broken(&whole[..length]);
    }
}

/// Of kind 2.
fn old_enable(prefix: &[u8]) -> Vec<u8> {
    [&[2], &area_bytes()[..], prefix, &[1, 0]].concat()
}

/// Of kind 9.
fn enable(list: &[u8]) -> Vec<u8> {
    [&[9], &area_bytes()[..], list, &[1, 0]].concat()
}

fn stop(prefixes: &[Prefix]) -> Call<'static> {
    let interface = InterfaceNumbers { kind: 1, flag: 0 };
    Call::Enable(StopSettings { area: area(), prefixes: PrefixList::of(prefixes), interface })
}

/// 2010::/12.
fn prefix() -> Prefix {
    let mut bytes = [0; 16];
    bytes[..2].copy_from_slice(&[0x20, 0x10]);
    Prefix { length: 12, bytes }
}

fn wide(number: u64) -> Vec<u8> {
    number_bytes(number)
}

/// Kind 2 is read as before it was retired (`kind-retired`).
#[test]
fn start_records() {
    let bytes = [1, 0x81, 0x80, 0x80, 0x80, 0x80, 0x40, 65, 3, 0, 2, 1];
    let expected = StartSettings {
        own_mid: 0x0200_0000_0001,
        maximum: 65,
        tvl: InterfaceNumbers { kind: 3, flag: 0 },
        dgvl: InterfaceNumbers { kind: 2, flag: 1 },
    };
    assert_eq!(read(&bytes), Call::Start(expected));
    assert_broken_when_cut(&bytes);
}

/// `record-list`: one prefix, or none where the length is 0.
#[test]
fn enable_records_of_kind_2() {
    let bytes = old_enable(&[12, 0x20, 0x10]);
    assert_eq!(read(&bytes), stop(&[prefix()]));
    assert_broken_when_cut(&bytes);
    assert_eq!(read(&old_enable(&[0])), stop(&[]));
    assert_broken_when_cut(&old_enable(&[0]));
    let longest = [&[0x80, 0x01][..], &[7; 16]].concat();
    assert_broken_when_cut(&old_enable(&longest));
}

#[test]
fn enable_records_of_kind_9() {
    let longest = Prefix { length: 128, bytes: [7; 16] };
    let bytes_of_longest = [&[0x80, 0x01][..], &[7; 16]].concat();
    for (list, prefixes) in [
        (vec![0], &[][..]),
        (vec![1, 12, 0x20, 0x10], &[prefix()]),
        ([&[2, 12, 0x20, 0x10], &bytes_of_longest[..]].concat(), &[prefix(), longest]),
        // A listed length 0 is read as one (`record-not-broken`).
        (vec![1, 0], &[NO_PREFIX]),
        (vec![3, 0, 12, 0x20, 0x10, 0], &[NO_PREFIX, prefix(), NO_PREFIX]),
        ([&[4][..], &bytes_of_longest.repeat(4)].concat(), &[longest; 4]),
    ] {
        assert_eq!(read(&enable(&list)), stop(prefixes));
        assert_broken_when_cut(&enable(&list));
    }
}

#[test]
fn a_count_of_prefixes_above_four() {
    for count in [5, 6, 127, 128, 255, 256, 257, 260, u64::MAX] {
        let list = [wide(count), [12, 0x20, 0x10].repeat(5)].concat();
        assert_broken(&enable(&list));
        assert_broken(&enable(&[wide(count), vec![0; 300]].concat()));
    }
}

#[test]
fn a_prefix_length_above_128() {
    for length in [129, 130, 136, 255, 256, 320, u64::MAX] {
        let bad = [wide(length), vec![0; 40]].concat();
        assert_broken(&old_enable(&bad));
        for place in 0..4 {
            let before = [12, 0x20, 0x10].repeat(place);
            let list = [&[4], &before[..], &bad, &[12, 0x20, 0x10]].concat();
            assert_broken(&enable(&list));
        }
    }
}

#[test]
fn a_bit_past_the_length_is_not_broken() {
    let prefix = [9, 0x20, 0x01];
    for bytes in [old_enable(&prefix), enable(&[&[1], &prefix[..]].concat())] {
        assert!(matches!(read(&bytes), Call::Enable(settings) if !settings.prefixes.is_good()));
    }
}

#[test]
fn disable_and_own_mid_records() {
    assert_eq!(read(&[3, 9]), Call::Disable(9));
    assert_eq!(read(&[5, 0x80, 0x01]), Call::OwnMid(128));
    for kind in [3, 5] {
        for number in [0, u64::MAX] {
            assert_broken_when_cut(&[vec![kind], wide(number)].concat());
        }
    }
}

#[test]
fn dgvl_area_records() {
    let bytes = [&[4, 1], &area_bytes()[..]].concat();
    assert_eq!(read(&bytes), Call::DgvlArea(Some(area())));
    assert_eq!(read(&[4, 0]), Call::DgvlArea(None));
    assert_broken_when_cut(&bytes);
    for choice in [2, 127, 256, 257, u64::MAX] {
        assert_broken(&[vec![4], wide(choice), area_bytes()].concat());
    }
}

#[test]
fn area_numbers_of_any_size_are_whole() {
    for place in 0..6 {
        let mut numbers = [1u64, 900_000_000, 1_800_000_000, 5, 6, 7];
        numbers[place] = u64::MAX;
        let mut bytes = vec![4, 1];
        numbers.iter().for_each(|&number| bytes.extend(wide(number)));
        assert!(matches!(read(&bytes), Call::DgvlArea(Some(area)) if !area.is_good()));
    }
    let lowest = [4, 1, 0, 0, 0, 1, 0, 0];
    let expected = Area { latitude: -900_000_000, longitude: -1_800_000_000, a: 1, ..area() };
    assert_eq!(read(&lowest), Call::DgvlArea(Some(expected)));
}

#[test]
fn indication_records_of_each_transport() {
    let packet = [9, 8, 7];
    let head = |transport: u8| vec![6, transport, 3, 0xFF, 0x01];
    let tail = [3, 9, 8, 7];
    for (transport, destination, bytes) in [
        (1, Destination::Mid(11), vec![11]),
        (2, Destination::Area(area()), area_bytes()),
        (3, Destination::Area(area()), area_bytes()),
        (4, Destination::Nothing, vec![]),
    ] {
        let record = [&head(transport), &bytes, &tail[..]].concat();
        let transport = transport.into();
        let expected =
            Indication { transport, source: 3, class: 255, destination, packet: &packet };
        assert_eq!(read(&record), Call::Indication(expected));
        assert_broken_when_cut(&record);
    }
}

#[test]
fn a_transport_outside_1_to_4() {
    for transport in [0, 5, 6, 255, 256, 257, 260, u64::MAX] {
        assert_broken(&[vec![6], wide(transport), vec![3, 0, 0, 0, 0, 0, 0, 0, 0]].concat());
    }
}

#[test]
fn a_class_above_255() {
    for class in [256, 257, 511, 65_536, u64::MAX] {
        assert_broken(&[vec![6, 4, 3], wide(class), vec![0]].concat());
        assert_broken(&[vec![7, 0], wide(class), vec![0, 0]].concat());
        assert_broken(&[vec![8, 0], wide(class), vec![0; 18]].concat());
    }
}

/// Sixteen different bytes, which are no whole number.
const HOP: [u8; 16] = [
    0x80, 0x81, 0x82, 0x83, 0x84, 0x85, 0x86, 0x87, 0x88, 0x89, 0x8A, 0x8B, 0x8C, 0x8D, 0x8E, 0x8F,
];

/// `record-request`: the next hop is plain bytes, before the packet's length.
#[test]
fn request_records() {
    let (next_hop, packet) = (&HOP, &[0xAA, 0xBB]);
    let expected = Request { index: 2, class: 128, neighbour: Some(9), next_hop, packet };
    let with = [&[8, 2, 0x80, 0x01, 1, 9], &HOP[..], &[2, 0xAA, 0xBB]].concat();
    assert_eq!(read(&with), Call::Request(expected));
    let without = [&[8, 2, 0x80, 0x01, 0], &HOP[..], &[2, 0xAA, 0xBB]].concat();
    assert_eq!(read(&without), Call::Request(Request { neighbour: None, ..expected }));
    assert_broken_when_cut(&with);
    assert_broken_when_cut(&without);
    for choice in [2, 256, 257, u64::MAX] {
        assert_broken(&[vec![8, 2, 0], wide(choice), vec![0; 30]].concat());
    }
}

#[test]
fn a_next_hop_of_any_sixteen_bytes_is_whole() {
    for byte in [0, 1, 0x80, 0xFF] {
        let record = [&[8, 0, 0, 0], &[byte; 16][..], &[0]].concat();
        assert!(matches!(read(&record), Call::Request(request) if request.next_hop == [byte; 16]));
    }
}

#[test]
fn old_request_records() {
    let (next_hop, packet) = (&UNSPECIFIED, &[0xAA, 0xBB]);
    let expected = Request { index: 2, class: 128, neighbour: Some(9), next_hop, packet };
    let with = [7, 2, 0x80, 0x01, 1, 9, 2, 0xAA, 0xBB];
    assert_eq!(read(&with), Call::Request(expected));
    let without = [7, 2, 0x80, 0x01, 0, 2, 0xAA, 0xBB];
    assert_eq!(read(&without), Call::Request(Request { neighbour: None, ..expected }));
    assert_broken_when_cut(&with);
    assert_broken_when_cut(&without);
    for choice in [2, 256, 257, u64::MAX] {
        assert_broken(&[vec![7, 2, 0], wide(choice), vec![9, 0, 0, 0]].concat());
    }
}

/// `record-hop`: the packet's destination, and :: under 40 bytes.
#[test]
fn the_next_hop_of_an_old_request() {
    let packet: Vec<u8> = (0..=200).collect();
    for length in 0..=200 {
        let record = [&[7, 0, 0, 0][..], &wide(length as u64), &packet[..length]].concat();
        let expected = if length < 40 { &UNSPECIFIED } else { &packet[24..40] };
        let call = read(&record);
        assert!(matches!(call, Call::Request(request) if request.next_hop == expected));
    }
}

#[test]
fn a_packet_length_beyond_the_end() {
    for length in [3, 128, 1_280, 1 << 32, 1 << 63, u64::MAX] {
        assert_broken(&[vec![6, 4, 3, 0], wide(length), vec![1, 2]].concat());
        assert_broken(&[vec![7, 0, 0, 0], wide(length), vec![1, 2]].concat());
        assert_broken(&[vec![8, 0, 0, 0], vec![0; 16], wide(length), vec![1, 2]].concat());
    }
}

#[test]
fn a_packet_above_1280_bytes_is_a_whole_record() {
    for head in [vec![7, 0, 0, 0], [[8, 0, 0, 0].as_slice(), &[5; 16]].concat()] {
        let bytes = [head, wide(5_000), vec![1; 5_000]].concat();
        assert!(matches!(read(&bytes), Call::Request(request) if request.packet.len() == 5_000));
    }
}

#[test]
fn record_kinds_outside_1_to_9() {
    for kind in [0, 10, 11, 127, 128, 257, 264, 265, 1 << 32 | 9, u64::MAX] {
        assert_broken(&[wide(kind), vec![1; 60]].concat());
    }
}

#[test]
fn overlong_too_large_and_cut_numbers_in_the_kind() {
    assert_broken(&[0x83, 0x00, 0x01]);
    assert_broken(&[0x83, 0x80, 0x00, 0x01]);
    assert_broken(&[0x83]);
    assert_broken(&[vec![0x83], vec![0x80; 8], vec![0x02, 0x01]].concat());
    assert_broken(&[0xFF; 30]);
}

#[test]
fn overlong_and_too_large_numbers_in_a_value() {
    assert_broken(&[3, 0x80, 0x00]);
    assert_broken(&[5, 0xFF, 0x80, 0x00]);
    let too_large = [vec![0xFF; 9], vec![0x02]].concat();
    assert_broken(&[vec![5], too_large.clone()].concat());
    assert_broken(&[vec![6, 4, 3, 0], too_large, vec![0; 9]].concat());
    assert_broken(&[6, 4, 3, 0, 0x81, 0x00, 0]);
}

#[test]
fn an_offset_at_or_behind_the_end_is_broken() {
    assert_eq!(read_record(&[3, 1], 2), Err(Broken));
    assert_eq!(read_record(&[3, 1], usize::MAX), Err(Broken));
    assert_eq!(read_record(&[], 0), Err(Broken));
}

#[test]
fn records_follow_each_other() {
    let bytes = [3, 1, 5, 0x80, 1, 4, 0];
    assert_eq!(read_record(&bytes, 0), Ok((Call::Disable(1), 2)));
    assert_eq!(read_record(&bytes, 2), Ok((Call::OwnMid(128), 5)));
    assert_eq!(read_record(&bytes, 5), Ok((Call::DgvlArea(None), 7)));
}
