//! What must be seen of the refusals of starts, enables, indications and requests
//! besides their number: each order, that is, each reply given over a later one
//! whose condition holds of the same record too; and each cause of 20, 21 and 22.
//!
//! A program that has the two replies of an order exchanged lists the record with
//! the later one. So where every order is seen, no exchange goes unnoticed. The
//! other calls have no two refusals that hold at once: a disable is 15 for the
//! indices that always are enabled, and 7 for others.
//!
//! Over a run each call has 23 besides (`run-refusals`). It can't be listed, and it
//! holds of no record (`dispatch-list`), so that `dispatchlist` has these orders too.

use crate::call::{kind, Call};
use crate::conditions::holding;
use crate::limits::Limits;
use crate::replay::{for_each_call, Replay};

/// A reply, and the later ones of its call's order that it is given over.
type Orders = &'static [(u8, &'static [u8])];

/// `start-refusals`: 1, 30.
const ORDERS_OF_START: Orders = &[(1, &[30])];

/// `enable-refusals`: 1, 30, 2, 29, 3, 4, 5, 6.
///
/// 1 over 30 is the flag's: a kind outside the list is not the retired one. Missing
/// are 2 over 4, since an area that is not good is equal to none (`area-equal`), and
/// all with 29, which holds of no record: a count above four is broken
/// (`record-broken`). 3 over 5 is there: which prefixes overlap is asked of good and
/// bad ones alike, by their first bits (`prefix-overlap`), so that one with a bit
/// past its length can overlap a stop's.
const ORDERS_OF_ENABLE: Orders = &[
    (1, &[30, 2, 3, 4, 5, 6]),
    (30, &[2, 3, 4, 5, 6]),
    (2, &[3, 5, 6]),
    (3, &[4, 5, 6]),
    (4, &[5, 6]),
    (5, &[6]),
];

/// `indication-refusals`: 1, 2, 9, 20, 21, 22, 10, 13.
///
/// 13 holds of each packet above 1,280 bytes, since 1,294 are lent
/// (`listing-lent`), and of no other. So what is missing is 9 over 20 (no packet
/// is both long and short) and 20, 21, 22 and 10, of packets that are not long,
/// over 13.
const ORDERS_OF_INDICATION: Orders = &[
    (1, &[2, 9, 20, 21, 22, 10, 13]),
    (2, &[9, 20, 21, 22, 10, 13]),
    (9, &[21, 22, 10, 13]),
    (20, &[21, 22, 10]),
    (21, &[22, 10]),
    (22, &[10]),
];

/// `request-refusals`: 1, 7, 9, 20, 21, 22, 10, 11, 12.
///
/// Missing are 9 over 20, as above; 7 over 11, since index 1 always is enabled; and
/// 11 over 12, of which one is for multicast, the other for all else. 7 over 12 is
/// there: a next hop that is not good is 12 whatever the link is. In kind 7 that is
/// a destination :: or ::1, or a packet under 40 bytes (`record-hop`).
const ORDERS_OF_REQUEST: Orders = &[
    (1, &[7, 9, 20, 21, 22, 10, 11, 12]),
    (7, &[9, 20, 21, 22, 10, 12]),
    (9, &[21, 22, 10, 11, 12]),
    (20, &[21, 22, 10, 11, 12]),
    (21, &[22, 10, 11, 12]),
    (22, &[10, 11, 12]),
    (10, &[11, 12]),
];

/// A reply, what its cause is called, and whether a packet with this reply has it.
type Cause = (u8, &'static str, fn(&[u8]) -> bool);

/// The versions are the lowest and the highest, those next to 6, and those one
/// bit from it.
const CAUSES: [Cause; 19] = [
    (20, "of 0 bytes", |packet| packet.is_empty()),
    (20, "of 1 to 5 bytes", |packet| (1..=5).contains(&packet.len())),
    (20, "of 6 to 38 bytes", |packet| (6..=38).contains(&packet.len())),
    (20, "of 39 bytes", |packet| packet.len() == 39),
    // 65,535 + 40 is 39 to a type of 16 bits.
    (20, "of 39 bytes, field 65,535", |packet| packet.len() == 39 && field(packet) == 65_535),
    (21, "version 0", |packet| packet[0] >> 4 == 0),
    (21, "version 2", |packet| packet[0] >> 4 == 2),
    (21, "version 4", |packet| packet[0] >> 4 == 4),
    (21, "version 5", |packet| packet[0] >> 4 == 5),
    (21, "version 7", |packet| packet[0] >> 4 == 7),
    (21, "version 14", |packet| packet[0] >> 4 == 14),
    (21, "version 15", |packet| packet[0] >> 4 == 15),
    (21, "6 in the low half", |packet| packet[0] & 0x0F == 6),
    (22, "field one too small", |packet| field(packet) + 41 == packet.len()),
    (22, "field one too large", |packet| field(packet) + 39 == packet.len()),
    (22, "field's bytes exchanged", |packet| exchanged(packet) + 40 == packet.len()),
    (22, "field's high byte wrong", |packet| (field(packet) + 40) % 256 == packet.len() % 256),
    (22, "field of the whole length", |packet| field(packet) == packet.len()),
    (22, "field 65,535", |packet| field(packet) == 65_535),
];

/// The length field of a packet that has it.
fn field(packet: &[u8]) -> usize {
    u16::from_be_bytes([packet[4], packet[5]]).into()
}

/// The length field if its bytes stood the other way round.
fn exchanged(packet: &[u8]) -> usize {
    u16::from_le_bytes([packet[4], packet[5]]).into()
}

/// What is seen of a record besides the reply that it gets.
#[derive(Clone, Copy)]
enum Besides {
    Holding(u8),
    Cause(&'static str, fn(&[u8]) -> bool),
}

/// The reply to a record of this kind, and what is seen besides.
#[derive(Clone, Copy)]
pub struct Situation {
    pub kind: u64,
    given: u8,
    besides: Besides,
}

/// Every situation that must be seen: the orders of a kind, then its causes.
pub fn situations() -> Vec<Situation> {
    let of_kinds: [(u64, Orders, &[Cause]); 6] = [
        (kind::START, ORDERS_OF_START, &[]),
        (kind::OLD_ENABLE, ORDERS_OF_ENABLE, &[]),
        (kind::INDICATION, ORDERS_OF_INDICATION, &CAUSES),
        (kind::OLD_REQUEST, ORDERS_OF_REQUEST, &CAUSES),
        (kind::REQUEST, ORDERS_OF_REQUEST, &CAUSES),
        (kind::ENABLE, ORDERS_OF_ENABLE, &[]),
    ];
    let mut situations = Vec::new();
    for (kind, orders, causes) in of_kinds {
        for &(given, later) in orders {
            let held = later.iter().map(|&reply| Besides::Holding(reply));
            situations.extend(held.map(|besides| Situation { kind, given, besides }));
        }
        situations.extend(causes.iter().map(|&(given, name, has_it)| {
            let besides = Besides::Cause(name, has_it);
            Situation { kind, given, besides }
        }));
    }
    situations
}

impl Situation {
    pub fn name(&self) -> String {
        match self.besides {
            Besides::Holding(later) => format!("{} over {later}", self.given),
            Besides::Cause(name, _) => format!("{} {name}", self.given),
        }
    }

    fn is_that_of(&self, record: &Refused) -> bool {
        if (record.kind, record.given) != (self.kind, self.given) {
            return false;
        }
        match self.besides {
            Besides::Holding(later) => record.later.contains(&later),
            Besides::Cause(_, has_it) => record.packet.is_some_and(has_it),
        }
    }
}

/// A record that its call refuses.
struct Refused<'a> {
    kind: u64,
    given: u8,
    /// The replies behind the given one whose conditions hold too.
    later: Vec<u8>,
    /// That of an indication or a request.
    packet: Option<&'a [u8]>,
}

impl Refused<'_> {
    fn of_record<'a>(replay: &Replay, kind: u64, call: &Call<'a>) -> Option<Refused<'a>> {
        let packet = match call {
            Call::Indication(indication) => Some(indication.packet),
            Call::Request(request) => Some(request.packet),
            _ => None,
        };
        let mut holding = holding(replay.limits(), replay.table(), call).into_iter();
        let given = holding.next()?;
        Some(Refused { kind, given, later: holding.collect(), packet })
    }
}

/// How often each situation was seen.
pub struct Counts(Vec<(Situation, u64)>);

impl Default for Counts {
    fn default() -> Counts {
        Counts(situations().into_iter().map(|situation| (situation, 0)).collect())
    }
}

impl Counts {
    /// Counts what a listing of this day file shows.
    pub fn add(&mut self, limits: Limits, input: &[u8]) {
        for_each_call(limits, input, |replay, kind, call| self.add_call(replay, kind, call));
    }

    /// Counts what the listing shows of this record. Where 16 is listed nothing is
    /// counted, since it comes before the call's own refusals (`record-order`).
    pub fn add_call(&mut self, replay: &Replay, kind: u64, call: &Call) {
        if let Some(record) = Refused::of_record(replay, kind, call) {
            self.add_record(&record);
        }
    }

    fn add_record(&mut self, record: &Refused) {
        for (situation, count) in &mut self.0 {
            *count += u64::from(situation.is_that_of(record));
        }
    }

    pub fn rows(&self) -> &[(Situation, u64)] {
        &self.0
    }
}

#[cfg(test)]
mod tests;
