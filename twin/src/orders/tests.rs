use super::*;
use crate::generate::day_file;
use crate::generate::requests::old_request_pieces;
use crate::leaving::Request;
use crate::limits::DAYLIST;
use crate::packet::UNSPECIFIED;
use crate::write::{joined, record_bytes};

/// `reply-first`, "The orders"; and what the comments above say of the missing.
type Row = (Orders, &'static [u8], &'static [(u8, u8)]);
const ROWS: [Row; 4] = [
    (ORDERS_OF_START, &[1, 30], &[]),
    (ORDERS_OF_ENABLE, &[1, 30, 2, 3, 4, 5, 6], &[(2, 4)]),
    (
        ORDERS_OF_INDICATION,
        &[1, 2, 9, 20, 21, 22, 10, 13],
        &[(9, 20), (20, 13), (21, 13), (22, 13), (10, 13)],
    ),
    (ORDERS_OF_REQUEST, &[1, 7, 9, 20, 21, 22, 10, 11, 12], &[(7, 11), (9, 20), (11, 12)]),
];

#[test]
fn every_order_is_there_but_for_the_impossible() {
    for (orders, replies, impossible) in ROWS {
        let mut expected = Vec::new();
        for (place, &given) in replies.iter().enumerate() {
            expected.extend(replies[place + 1..].iter().map(|&later| (given, later)));
        }
        expected.retain(|order| !impossible.contains(order));
        let there: Vec<(u8, u8)> = orders
            .iter()
            .flat_map(|&(given, later)| later.iter().map(move |&later| (given, later)))
            .collect();
        assert_eq!(there, expected);
    }
}

#[test]
fn the_number_of_situations() {
    assert_eq!(situations().len(), 1 + 2 * 20 + 23 + 2 * 33 + 3 * CAUSES.len());
}

/// Whether one of the situations is that order of the record.
fn is_wanted(record: &Refused, later: u8) -> bool {
    let record = Refused { later: vec![later], ..*record };
    let is_order = |one: &Situation| matches!(one.besides, Besides::Holding(_));
    situations().iter().any(|one| is_order(one) && one.is_that_of(&record))
}

#[test]
fn no_other_order_is_seen() {
    for number in 0..60 {
        let day = day_file(22, number);
        for_each_call(DAYLIST, &day, |replay, kind, call| {
            let Some(record) = Refused::of_record(replay, kind, call) else { return };
            for &later in &record.later {
                assert!(is_wanted(&record, later), "{} over {later}", record.given);
            }
        });
    }
}

const START: [u8; 7] = [1, 1, 2, 1, 1, 1, 1];

/// The names of what is seen once in this day file.
fn seen_in(day: &[u8]) -> Vec<String> {
    let mut counts = Counts::default();
    counts.add(DAYLIST, day);
    let seen = counts.rows().iter().filter(|(_, count)| *count == 1);
    seen.map(|(situation, _)| situation.name()).collect()
}

/// The names of what is seen of a request, of either kind, with this packet on the TVL.
fn seen_of(packet: &[u8]) -> Vec<String> {
    let next_hop = &UNSPECIFIED;
    let request = Request { index: 0, class: 0, neighbour: None, next_hop, packet };
    let old = joined(&old_request_pieces(&request));
    let new = record_bytes(&Call::Request(request)).unwrap();
    let [old, new] = [old, new].map(|record| seen_in(&[&START[..], &record].concat()));
    assert_eq!(old, new);
    new
}

/// From 2020:... to ff20:..., where nothing but the packet can be refused.
fn packet(length: usize) -> Vec<u8> {
    let mut packet = vec![0x20; length];
    (packet[0], packet[24]) = (0x60, 0xFF);
    packet[4..6].copy_from_slice(&((length - 40) as u16).to_be_bytes());
    packet
}

#[test]
fn causes_of_20() {
    let good = packet(40);
    assert!(seen_of(&good).is_empty());
    assert_eq!(seen_of(&[]), ["20 of 0 bytes"]);
    assert_eq!(seen_of(&good[..1]), ["20 of 1 to 5 bytes"]);
    assert_eq!(seen_of(&good[..5]), ["20 of 1 to 5 bytes"]);
    assert_eq!(seen_of(&good[..6]), ["20 over 22", "20 of 6 to 38 bytes"]);
    assert_eq!(seen_of(&good[..38]), ["20 over 22", "20 of 6 to 38 bytes"]);
    assert_eq!(seen_of(&good[..39]), ["20 over 22", "20 of 39 bytes"]);
    let mut full = good[..39].to_vec();
    full[4..6].fill(0xFF);
    let expected = ["20 over 22", "20 of 39 bytes", "20 of 39 bytes, field 65,535"];
    assert_eq!(seen_of(&full), expected);
}

#[test]
fn causes_of_21() {
    let mut wrong = packet(40);
    for version in [0, 2, 4, 5, 7, 14, 15] {
        wrong[0] = version << 4;
        assert_eq!(seen_of(&wrong), [format!("21 version {version}")]);
    }
    wrong[0] = 0x46;
    assert_eq!(seen_of(&wrong), ["21 version 4", "21 6 in the low half"]);
}

#[test]
fn causes_of_22() {
    let mut wrong = packet(42);
    for (field, name) in [
        (1, "22 field one too small"),
        (3, "22 field one too large"),
        (0x0200, "22 field's bytes exchanged"),
        (0x0102, "22 field's high byte wrong"),
        (42, "22 field of the whole length"),
        (65_535, "22 field 65,535"),
    ] {
        wrong[4..6].copy_from_slice(&u16::to_be_bytes(field));
        assert_eq!(seen_of(&wrong), [name]);
    }
}

#[test]
fn where_16_is_listed_nothing_is_counted() {
    // Own MID 1, maximum 66, kind 2 for the TVL: 1 over 30.
    let start = [1, 1, 66, 2, 1, 1, 1];
    assert_eq!(seen_in(&start), ["1 over 30"]);
    assert!(seen_in(&[START, start].concat()).is_empty());
    // A request with a packet of 0 bytes on the TVL.
    let request = [7, 0, 0, 0, 0];
    assert_eq!(seen_in(&[&START[..], &request].concat()), ["20 of 0 bytes"]);
    assert!(seen_in(&request).is_empty());
}
