use super::*;
use crate::area::RECTANGLE;
use crate::call::kind;
use crate::generate::day_file;
use crate::limits::DAYLIST;
use crate::link::InterfaceNumbers;
use crate::listing::{lines, RecordKind};
use crate::mid::link_local_address;
use crate::packet::Address;
use crate::prefix_list::NO_PREFIXES;
use crate::table::{StartSettings, StopSettings};
use crate::write::record_bytes;

const LAN: InterfaceNumbers = InterfaceNumbers { kind: 1, flag: 1 };
const START: Call =
    Call::Start(StartSettings { own_mid: 0x0200_0000_0001, maximum: 8, tvl: LAN, dgvl: LAN });
const AREA: Area =
    Area { shape: RECTANGLE, latitude: -12, longitude: 134_348_000, a: 120, b: 40, angle: 35 };
const STOP: Call = Call::Enable(StopSettings { area: AREA, prefixes: NO_PREFIXES, interface: LAN });
const TO_ALL: Address = [0xFF, 2, 0, 0, 0, 0, 0, 0, 0, 0, 0, 0, 0, 0, 0, 1];

fn packet(destination: Address) -> Vec<u8> {
    let mut packet = vec![0x60, 0, 0, 0, 0, 2, 0x3B, 0x40];
    packet.extend([0x20; 16]);
    packet.extend(destination);
    packet.extend([1, 2]);
    packet
}

/// By the mast 02:AB:00:00:00:C7.
const MAST: Address = [0xFE, 0x80, 0, 0, 0, 0, 0, 0, 0, 0xAB, 0, 0xFF, 0xFE, 0, 0, 0xC7];

fn request(index: u64, packet: &[u8]) -> Call<'_> {
    Call::Request(Request { index, class: 200, neighbour: None, next_hop: &MAST, packet })
}

fn day(calls: &[Call]) -> Vec<u8> {
    calls.iter().flat_map(|call| record_bytes(call).unwrap()).collect()
}

/// What is printed under the header.
fn printed(day: &[u8]) -> String {
    let text = print(&requests(DAYLIST, day));
    text.strip_prefix("rec ans transport destination class n\n").unwrap().to_string()
}

#[test]
fn each_sort_of_destination() {
    let to_all = packet(TO_ALL);
    let to_one = packet([0x21; 16]);
    let calls = [START, STOP, request(0, &to_all), request(2, &to_all), request(2, &to_one)];
    let expected = "\
3 0 4 nothing 200 42
4 0 3 1,-12,134348000,120,40,35 200 42
5 0 1 02:AB:00:00:00:C7 200 42
";
    assert_eq!(printed(&day(&calls)), expected);
}

/// `record-hop`: by the packet's own destination, of 02:00:00:00:00:07.
#[test]
fn an_old_request() {
    let to_one = packet(link_local_address(0x0200_0000_0007));
    let record = [&[7, 2, 9, 0, 42], &to_one[..]].concat();
    let day = [day(&[START, STOP, request(2, &to_one)]), record].concat();
    let expected = "3 0 1 02:AB:00:00:00:C7 200 42\n4 0 1 02:00:00:00:00:07 9 42\n";
    assert_eq!(printed(&day), expected);
}

#[test]
fn a_refused_request_sends_nothing_down() {
    let to_all = packet(TO_ALL);
    let calls = [request(0, &to_all), START, request(1, &to_all), request(2, &to_all)];
    assert_eq!(printed(&day(&calls)), "1 16 - - - 0\n3 11 - - - 0\n4 7 - - - 0\n");
}

#[test]
fn a_broken_record_ends_it() {
    let to_all = packet(TO_ALL);
    let whole = day(&[START, request(0, &to_all)]);
    let then_broken = [&whole[..], &[9], &day(&[request(0, &to_all)])].concat();
    assert_eq!(printed(&then_broken), printed(&whole));
    assert_eq!(printed(&whole[..whole.len() - 1]), "");
    assert_eq!(printed(&[]), "");
}

const REQUESTS: [RecordKind; 2] =
    [RecordKind::Known(kind::OLD_REQUEST), RecordKind::Known(kind::REQUEST)];

/// Number, reply and length of the request records that a listing has.
fn listed(day: &[u8]) -> Vec<(usize, u8, usize)> {
    let numbered = lines(DAYLIST, day).into_iter().enumerate();
    numbered
        .filter(|(_, line)| REQUESTS.contains(&line.kind))
        .filter(|(_, line)| line.answer.reply != Refusal::RecordBroken.number())
        .map(|(place, line)| (place + 1, line.answer.reply, line.answer.length))
        .collect()
}

fn as_listed(sent: &Sent) -> (usize, u8, usize) {
    match sent.outcome {
        Ok(sending) => (sent.record, DONE, sending.length),
        Err(refusal) => (sent.record, refusal.number(), 0),
    }
}

#[test]
fn records_replies_and_lengths_are_those_of_the_listing() {
    let mut count = 0;
    for number in 0..200 {
        let day = day_file(1, number);
        let sent: Vec<_> = requests(DAYLIST, &day).iter().map(as_listed).collect();
        assert_eq!(sent, listed(&day), "file {number}");
        count += sent.len();
    }
    assert!(count > 1_000, "only {count} requests");
}
