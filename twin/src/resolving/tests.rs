use super::*;
use crate::generate::day_file;
use crate::generate::requests::old_request_pieces;
use crate::hop::good_next_hop;
use crate::limits::DAYLIST;
use crate::mid::mid_of_address;
use crate::packet::Address;
use crate::write::{joined, record_bytes};

/// Own MID 1, maximum 2; the TVL of kind 1 and flag 1, the DGVL of flag 0.
const START: [u8; 7] = [1, 1, 2, 1, 1, 1, 0];
const DERIVED: u64 = 0;
const GIVEN: u64 = 1;

const PLAIN: Address = [0x21; 16];
const TO_ALL: Address = [0xFF, 2, 0, 0, 0, 0, 0, 0, 0, 0, 0, 0, 0, 0, 0, 1];

/// This address with FF FE in their place.
fn with_middle(mut address: Address) -> Address {
    address[11..13].copy_from_slice(&[0xFF, 0xFE]);
    address
}

fn packet(to: Address) -> Vec<u8> {
    [&[0x60, 0, 0, 0, 0, 0, 0x3B, 0x40][..], &[0x20; 16], &to].concat()
}

/// The names of what is seen in this record behind the start.
fn seen_in(record: &[u8]) -> Vec<String> {
    let mut counts = Counts::default();
    counts.add(DAYLIST, &[&START[..], record].concat());
    let seen = counts.rows().iter().filter(|(_, count)| *count == 1);
    seen.map(|(situation, _)| situation.name()).collect()
}

fn seen_of(index: u64, neighbour: Option<u64>, next_hop: Address, to: Address) -> Vec<String> {
    let (next_hop, packet) = (&next_hop, &packet(to));
    let request = Request { index, class: 0, neighbour, next_hop, packet };
    assert!(seen_in(&joined(&old_request_pieces(&request))).is_empty(), "kind 7");
    seen_in(&record_bytes(&Call::Request(request)).unwrap())
}

#[test]
fn bad_next_hops() {
    for (hop, name) in [
        (UNSPECIFIED, "::"),
        (LOOPBACK, "::1"),
        (TO_ALL, "multicast"),
        (with_middle(TO_ALL), "multicast with FF FE"),
    ] {
        let derived = format!("12 next hop {name}, MID derived");
        for neighbour in [None, Some(5)] {
            assert_eq!(seen_of(DERIVED, neighbour, hop, PLAIN), [&derived[..]]);
            let expected = format!("0 multicast packet, next hop {name}");
            assert_eq!(seen_of(DERIVED, neighbour, hop, TO_ALL), [expected]);
        }
        let given = format!("12 next hop {name}, MID given");
        assert_eq!(seen_of(GIVEN, Some(5), hop, PLAIN), [given]);
        assert!(seen_of(GIVEN, None, hop, PLAIN).is_empty(), "two causes at once");
    }
}

#[test]
fn good_next_hops_that_are_12() {
    let without = "12 next hop without FF FE";
    assert_eq!(seen_of(DERIVED, None, PLAIN, PLAIN), [without]);
    let ignored = "12 next hop without FF FE, the MID given ignored";
    assert_eq!(seen_of(DERIVED, Some(5), PLAIN, PLAIN), [ignored]);
    let far_end = "12 next hop without FF FE, destination with it";
    assert_eq!(seen_of(DERIVED, None, PLAIN, with_middle(PLAIN)), [without, far_end]);
    assert_eq!(seen_of(GIVEN, None, PLAIN, PLAIN), ["12 no MID given"]);
    let expected = ["12 no MID given", "12 no MID given, next hop with FF FE"];
    assert_eq!(seen_of(GIVEN, None, with_middle(PLAIN), PLAIN), expected);
}

#[test]
fn next_hops_that_are_not_12() {
    let mast = with_middle(PLAIN);
    assert_eq!(seen_of(DERIVED, None, mast, PLAIN), ["0 film server behind the mast"]);
    assert!(seen_of(DERIVED, None, mast, mast).is_empty());
    assert_eq!(seen_of(GIVEN, Some(5), mast, PLAIN), ["0 next hop with FF FE, MID given"]);
    let plain = "0 next hop without FF FE, MID given";
    assert_eq!(seen_of(GIVEN, Some(5), PLAIN, PLAIN), [plain]);
    let mut one_bit = UNSPECIFIED;
    one_bit[7] = 8;
    let near = "0 next hop one bit from ::, MID given";
    assert_eq!(seen_of(GIVEN, Some(5), one_bit, PLAIN), [plain, near]);
    let mut two = UNSPECIFIED;
    two[15] = 2;
    let expected = [plain, near, "0 next hop ::2, MID given"];
    assert_eq!(seen_of(GIVEN, Some(5), two, PLAIN), expected);
    let mut beside = PLAIN;
    beside[0] = 0xFE;
    let expected = [plain, "0 next hop fe.. but not fe80.., MID given"];
    assert_eq!(seen_of(GIVEN, Some(5), beside, PLAIN), expected);
    let expected = "0 multicast packet, next hop without FF FE";
    assert_eq!(seen_of(DERIVED, None, PLAIN, TO_ALL), [expected]);
    assert!(seen_of(GIVEN, None, PLAIN, TO_ALL).is_empty());
}

#[test]
fn other_replies_are_not_counted() {
    for index in [2, u64::MAX] {
        assert!(seen_of(index, None, UNSPECIFIED, PLAIN).is_empty());
    }
    assert!(seen_of(DERIVED, Some(u64::MAX), UNSPECIFIED, PLAIN).is_empty());
    assert!(seen_of(DERIVED, None, UNSPECIFIED, LOOPBACK).is_empty());
    assert!(seen_of(1, None, UNSPECIFIED, TO_ALL).is_empty(), "11");
}

/// The sorts are told apart here, and by the two rules of the call.
#[test]
fn sorts_of_generated_next_hops() {
    for number in 0..40 {
        for_each_call(DAYLIST, &day_file(23, number), |_, _, call| {
            let Call::Request(request) = call else { return };
            let sort = Sort::of(request.next_hop);
            let good = good_next_hop(request.next_hop);
            assert_eq!(good.is_some(), matches!(sort, Plain | WithMiddle));
            let gives_one = good.and_then(|hop| mid_of_address(&hop)).is_some();
            assert_eq!(gives_one, sort == WithMiddle);
        });
    }
}
