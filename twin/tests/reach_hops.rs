//! What the generated day files reach of next hops: every row of `compare`, and every
//! sort of next hop on every link, with what a listing does not show.

use std::collections::BTreeSet;

use twin::call::{kind, Call, Destination};
use twin::generate::{day_file, FILES_OF_A_ROUND};
use twin::leaving::Request;
use twin::limits::DAYLIST;
use twin::link::Kind;
use twin::listing::lines;
use twin::mid::mid_of_address;
use twin::numbers::read_number;
use twin::packet::{destination_bytes, Address, HEADER_LENGTH, LOOPBACK, UNSPECIFIED};
use twin::read::read_record;
use twin::replay::for_each_call;
use twin::resolving::Counts;
use twin::table::Table;

const SORTS: [&str; 7] = ["::", "::1", "ff", "ff ff:fe", "near", "plain", "ff:fe"];

fn sort_of(hop: &[u8]) -> &'static str {
    let with_ff_fe = hop[11..13] == [0xFF, 0xFE];
    match hop[0] {
        0xFF if with_ff_fe => "ff ff:fe",
        0xFF => "ff",
        _ if hop == UNSPECIFIED => "::",
        _ if hop == LOOPBACK => "::1",
        _ if with_ff_fe => "ff:fe",
        0xFE if hop[1] != 0x80 => "near",
        _ if hop[..15] == [0; 15] => "near",
        _ => "plain",
    }
}

/// Seen in the files of a few rounds.
fn seen(look: impl Fn(&Table, u64, &Request) -> Option<String>) -> BTreeSet<String> {
    let mut seen = BTreeSet::new();
    for number in 0..3 * FILES_OF_A_ROUND {
        for_each_call(DAYLIST, &day_file(1, number), |replay, kind, call| {
            if let (Some(table), Call::Request(request)) = (replay.table(), call) {
                seen.extend(look(table, kind, request));
            }
        });
    }
    seen
}

/// Of requests that are 0 or 12.
fn on_a_link(table: &Table, kind: u64, request: &Request) -> Option<String> {
    let reply = table.request(request).map_or_else(|refusal| refusal.number(), |_| 0);
    if kind != kind::REQUEST || ![0, 12].contains(&reply) {
        return None;
    }
    let link = table.interface(request.index).unwrap();
    let kind = if link.kind == Kind::EthernetLan { 1 } else { 3 };
    let flag = u8::from(link.resolve);
    let multicast = request.packet[24] == 0xFF;
    let given = request.neighbour.is_some();
    let sort = sort_of(request.next_hop);
    Some(format!("{sort} on {kind} {flag}, multicast {multicast}, given {given}: {reply}"))
}

#[test]
fn each_sort_of_next_hop_on_each_link() {
    let seen = seen(on_a_link);
    for sort in SORTS {
        for (kind, flag) in [(1, 0), (1, 1), (3, 0), (3, 1)] {
            for given in [false, true] {
                let bad = ["::", "::1", "ff", "ff ff:fe"].contains(&sort);
                let has_mid = if (kind, flag) == (1, 0) { given } else { sort == "ff:fe" };
                let reply = if !bad && has_mid { 0 } else { 12 };
                let head = format!("{sort} on {kind} {flag}");
                let one = format!("{head}, multicast false, given {given}: {reply}");
                assert!(seen.contains(&one), "{one}");
                let all = format!("{head}, multicast true, given {given}: 0");
                assert!(seen.contains(&all), "{all}");
            }
        }
    }
}

/// The MID that is sent to and the one of the destination: `requests` alone shows it.
fn mid_beside_that_of_the_destination(table: &Table, _: u64, request: &Request) -> Option<String> {
    let Destination::Mid(mid) = table.request(request).ok()?.destination else { return None };
    let to = Address::try_from(destination_bytes(request.packet)?).ok()?;
    let sort = match mid_of_address(&to) {
        Some(of_destination) if of_destination == mid => "the same",
        Some(_) => "another",
        None => "none",
    };
    let derived = mid_of_address(request.next_hop.try_into().ok()?) == Some(mid);
    Some(format!("derived {derived}, destination's {sort}"))
}

#[test]
fn the_destination_has_the_same_mid_another_or_none() {
    let seen = seen(mid_beside_that_of_the_destination);
    for sort in ["the same", "another", "none"] {
        let wanted = format!("derived true, destination's {sort}");
        assert!(seen.contains(&wanted), "{wanted}");
    }
}

/// Of kind 7 with a packet under 40 bytes.
fn short_old_request(table: &Table, kind: u64, request: &Request) -> Option<String> {
    let short = kind == kind::OLD_REQUEST && request.packet.len() < HEADER_LENGTH;
    let reply = table.request(request).err()?.number();
    assert!(!short || [1, 7, 20].contains(&reply));
    short.then(|| format!("{reply} of {} bytes", request.packet.len()))
}

#[test]
fn old_requests_with_short_packets() {
    let seen = seen(short_old_request);
    for wanted in ["1 of 39 bytes", "7 of 39 bytes", "20 of 39 bytes", "20 of 0 bytes"] {
        assert!(seen.contains(wanted), "{wanted}");
    }
}

/// How many bytes a request record has behind its choice of a MID, where what stands
/// before them is whole.
fn bytes_behind_the_choice(record: &[u8]) -> Option<usize> {
    let mut rest = record;
    let mut number = || {
        let (number, length) = read_number(rest)?;
        rest = &rest[length..];
        Some(number)
    };
    let (_kind, _index, _class) = (number()?, number()?, number()?);
    match number()? {
        0 => {}
        1 => drop(number()?),
        _ => return None,
    }
    Some(rest.len())
}

/// What breaks the last record of a listing (`record-broken`), if it is that of a next
/// hop or of a kind beside those of requests.
fn broken_by(record: &[u8]) -> Option<String> {
    let as_request = [&[8], &record[1..]].concat();
    let behind = bytes_behind_the_choice(record);
    match record[0] {
        8 if behind == Some(0) => Some("no next hop".to_string()),
        8 if behind < Some(16) => behind.map(|_| "next hop cut".to_string()),
        8 if behind == Some(16) => Some("nothing behind the next hop".to_string()),
        kind @ (0 | 10) if read_record(&as_request, 0).is_ok() => Some(format!("kind {kind}")),
        _ => None,
    }
}

#[test]
fn records_that_are_broken_by_their_next_hop_or_kind() {
    for seed in [1, 2, u64::MAX] {
        let mut seen = BTreeSet::new();
        for number in 0..1_000 {
            let day = day_file(seed, number);
            let read = DAYLIST.up_to_the_limit(&day);
            let last = lines(DAYLIST, &day).last().map(|line| line.answer);
            let broken = last.filter(|answer| answer.reply == 14);
            seen.extend(broken.and_then(|answer| broken_by(&read[answer.length..])));
        }
        let kinds = ["kind 0", "kind 10"];
        let hops = ["next hop cut", "no next hop", "nothing behind the next hop"];
        assert_eq!(seen, kinds.iter().chain(&hops).map(|one| one.to_string()).collect());
    }
}

/// One round is enough, since one of its files goes through the sorts one by one.
#[test]
fn the_files_reach_every_reply_by_the_next_hop() {
    for seed in [1, 2, 3, 7, 42, u64::MAX] {
        let mut counts = Counts::default();
        (0..FILES_OF_A_ROUND).for_each(|number| counts.add(DAYLIST, &day_file(seed, number)));
        for (situation, count) in counts.rows() {
            assert!(*count > 0, "seed {seed}: {}", situation.name());
        }
    }
}
