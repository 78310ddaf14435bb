//! Stops by the thousands with two prefixes each.

use super::*;

/// The second prefix of the stop that takes this index: 3000::/16 and those behind.
fn second_prefix(index: u64) -> Prefix {
    let mut second = prefix(index);
    second.bytes[0] += 0x10;
    second
}

/// A full table in which each stop has two prefixes.
fn table_of_several() -> Replay {
    let mut replay = Replay::new(DISPATCHLIST);
    replay.call(&start(4_093));
    for index in FIRST_STOP..=4_093 {
        replay.call(&enable_list(area(index), &[prefix(index), second_prefix(index)]));
    }
    replay
}

#[test]
fn enables_refused_by_a_second_prefix() {
    let full = table_of_several();
    let new = Prefix { length: 8, bytes: [0x40, 0, 0, 0, 0, 0, 0, 0, 0, 0, 0, 0, 0, 0, 0, 0] };
    let by_first = "5 by the first of thousands";
    let elsewhere = area(9_999);
    for (area, prefixes, names) in [
        (
            elsewhere,
            [new, second_prefix(2)],
            &[by_first, "5 2nd prefix by the 2nd of the first of thousands"][..],
        ),
        (
            elsewhere,
            [new, second_prefix(9)],
            &["5 by one between thousands", "5 2nd prefix by the 2nd of one between thousands"],
        ),
        (
            elsewhere,
            [new, second_prefix(4_093)],
            &["5 by the last of thousands", "5 2nd prefix by the 2nd of the last of thousands"],
        ),
        (
            area(2),
            [new, second_prefix(4_093)],
            &[
                "4 by the first of thousands",
                "4 by the first, the prefix overlaps the last's",
                "4 by the first, 2nd prefix by the last's 2nd",
            ],
        ),
        // By the first place of either list.
        (elsewhere, [second_prefix(2), new], &[by_first]),
        (elsewhere, [new, prefix(2)], &[by_first]),
        (elsewhere, [prefix(2), second_prefix(2)], &[by_first]),
    ] {
        assert_eq!(seen(&full, &enable_list(area, &prefixes)), names, "{prefixes:?}");
    }
}

#[test]
fn what_arrives_for_a_second_prefix() {
    let full = table_of_several();
    let mut packet = packet(5, 6);
    packet[8..24].fill(0x40);
    let by_second = |index, place: usize| {
        let mut packet = packet.clone();
        packet[24..40].fill(0x40);
        packet[place..place + 16].copy_from_slice(&second_prefix(index).bytes);
        packet
    };
    for (index, place, names) in [
        (
            2,
            24,
            [
                "0 destination of the first of thousands",
                "0 destination in the 2nd of the first of thousands",
            ],
        ),
        (
            4_093,
            24,
            [
                "0 destination of the last of thousands",
                "0 destination in the 2nd of the last of thousands",
            ],
        ),
        (
            9,
            8,
            ["0 source of one between thousands", "0 source in the 2nd of one between thousands"],
        ),
    ] {
        let packet = by_second(index, place);
        let call = indication(GEO_UNICAST, Destination::Mid(1), &packet);
        assert_eq!(seen(&full, &call), names);
    }
}
