//! Which refusals of its call hold of a start, an enable, an indication or a request
//! of a day file, each asked by itself, whatever the others say. The call gives the
//! first of them (`reply-first`); the rest shows whether a listing depends on the
//! order.
//!
//! An area that is not good is equal to none (`area-equal`). A prefix that is not
//! good overlaps by its first bits, as a good one does (`prefix-overlap`). No record
//! has a count above four; of a call that has one 29 holds.
//!
//! A short packet lacks bytes that other conditions name. A condition holds of it
//! only where all the bytes that its rule names are there: byte 0 for 21; bytes 4
//! and 5 for 22; the whole of an address for 10; the destination's first byte for
//! 11 and 12.
//!
//! A next hop that is not good is 12 on every link (`request-refusals`), so that it
//! needs no enabled one.

use crate::arriving::{Indication, FRAME_HEADER_LENGTH};
use crate::call::{Call, Destination};
use crate::leaving::Request;
use crate::limits::Limits;
use crate::link::{Interface, InterfaceNumbers, RETIRED_KIND};
use crate::mid::check_mid;
use crate::packet::{is_multicast, Address, HEADER_LENGTH, LONGEST_PACKET, LOOPBACK, UNSPECIFIED};
use crate::replay::LENT_TO_AN_INDICATION;
use crate::table::{StartSettings, Stop, StopSettings, Table, DGVL, FIRST_STOP, SMALLEST_MAXIMUM};

/// A reply number, and whether its condition holds.
type Condition = (u8, bool);

/// The numbers that hold of the call, in its order, where the box has this table,
/// or none yet. None are asked of a call that is 16 there (`record-order`), nor of
/// the calls of other kinds, whose refusals exclude each other.
pub fn holding(limits: Limits, table: Option<&Table>, call: &Call) -> Vec<u8> {
    let conditions = match (table, call) {
        (None, Call::Start(settings)) => of_start(limits.largest_maximum, settings),
        (Some(table), Call::Enable(settings)) => of_enable(table, settings),
        (Some(_), Call::Indication(indication)) => of_indication(indication),
        (Some(table), Call::Request(request)) => of_request(table, request),
        _ => Vec::new(),
    };
    conditions.into_iter().filter(|&(_, holds)| holds).map(|(reply, _)| reply).collect()
}

/// `start-refusals`.
fn of_start(largest_maximum: u64, settings: &StartSettings) -> Vec<Condition> {
    let links = [settings.tvl, settings.dgvl];
    let wide_mid = check_mid(settings.own_mid).is_err();
    let bad_maximum = !(SMALLEST_MAXIMUM..=largest_maximum).contains(&settings.maximum);
    vec![
        (1, wide_mid || bad_maximum || links.iter().any(is_outside_its_lists)),
        (30, links.iter().any(|link| link.kind == RETIRED_KIND)),
    ]
}

/// `enable-refusals`.
fn of_enable(table: &Table, settings: &StopSettings) -> Vec<Condition> {
    let StopSettings { area, prefixes, interface } = settings;
    let stops = &table.stops;
    let overlapping = |stop: &Stop| stop.prefixes.overlaps(prefixes);
    vec![
        (1, is_outside_its_lists(interface)),
        (30, interface.kind == RETIRED_KIND),
        (2, !area.is_good()),
        (29, prefixes.count > 4),
        (3, prefixes.listed().iter().any(|prefix| !prefix.is_good() || prefix.length == 0)),
        (4, stops.values().any(|stop| stop.area.equals(area))),
        (5, prefixes.overlaps_itself() || stops.values().any(overlapping)),
        (6, (FIRST_STOP..=table.maximum).all(|index| stops.contains_key(&index))),
    ]
}

/// `kind-list`, `flag-list`.
fn is_outside_its_lists(link: &InterfaceNumbers) -> bool {
    !(1..=3).contains(&link.kind) || !(0..=1).contains(&link.flag)
}

/// `indication-refusals`. A record's transport is in 1..4 and its destination of
/// the right sort, so that 1 is left for the MIDs.
fn of_indication(indication: &Indication) -> Vec<Condition> {
    let (wide_to, bad_area) = match indication.destination {
        Destination::Mid(mid) => (check_mid(mid).is_err(), false),
        Destination::Area(area) => (false, !area.is_good()),
        Destination::Nothing => (false, false),
    };
    let mut conditions = vec![(1, wide_to || check_mid(indication.source).is_err()), (2, bad_area)];
    conditions.extend(of_packet(indication.packet));
    conditions.push((13, LENT_TO_AN_INDICATION < indication.packet.len() + FRAME_HEADER_LENGTH));
    conditions
}

/// `request-refusals`.
fn of_request(table: &Table, request: &Request) -> Vec<Condition> {
    let link = table.interface(request.index).ok();
    let multicast = destination_is_multicast(request.packet);
    let without_area = request.index == DGVL && table.dgvl_area.is_none();
    let mut conditions = vec![
        (1, request.neighbour.is_some_and(|mid| check_mid(mid).is_err())),
        (7, link.is_none()),
    ];
    conditions.extend(of_packet(request.packet));
    conditions.extend([
        (11, multicast == Some(true) && without_area),
        (12, multicast == Some(false) && lacks_a_mid(link, request)),
    ]);
    conditions
}

/// `packet-refusals`.
fn of_packet(packet: &[u8]) -> [Condition; 5] {
    let length = packet.len();
    [
        (9, length > LONGEST_PACKET),
        (20, length < HEADER_LENGTH),
        (21, version(packet).is_some_and(|version| version != 6)),
        (22, length_field(packet).is_some_and(|field| usize::from(field) + 40 != length)),
        (10, source_is_forbidden(packet) || destination_is_forbidden(packet)),
    ]
}

/// The high half of byte 0.
fn version(packet: &[u8]) -> Option<u8> {
    packet.first().map(|first| first >> 4)
}

/// Bytes 4 and 5 as a big-endian number.
fn length_field(packet: &[u8]) -> Option<u16> {
    let bytes = packet.get(4..6)?;
    bytes.try_into().ok().map(u16::from_be_bytes)
}

/// Bytes 8 to 23.
fn source_is_forbidden(packet: &[u8]) -> bool {
    let source = packet.get(8..24).and_then(|bytes| Address::try_from(bytes).ok());
    source.is_some_and(|source| is_multicast(&source) || source == LOOPBACK)
}

/// Bytes 24 to 39.
fn destination_is_forbidden(packet: &[u8]) -> bool {
    packet.get(24..40).is_some_and(|to| to == UNSPECIFIED || to == LOOPBACK)
}

/// The destination's first byte says it.
fn destination_is_multicast(packet: &[u8]) -> Option<bool> {
    packet.get(24).map(|&first| first == 0xFF)
}

/// `neighbour-mid`: FF FE are the 4th and 5th of the next hop's last 8 bytes.
fn lacks_a_mid(link: Option<Interface>, request: &Request) -> bool {
    let hop = request.next_hop;
    let nobody = hop.len() != 16 || hop == UNSPECIFIED || hop == LOOPBACK;
    if nobody || hop[0] == 0xFF {
        return true;
    }
    match link.map(Interface::derives_the_mid) {
        Some(true) => hop[11..13] != [0xFF, 0xFE],
        Some(false) => request.neighbour.is_none(),
        None => false,
    }
}

#[cfg(test)]
mod tests;
