//! What must be seen of the next hop in requests of kind 8: each cause of 12
//! (`request-refusals`), and requests that are near to one and are not refused, so
//! that a program with a wrong rule lists 12 for them.

use crate::call::{kind, Call};
use crate::leaving::Request;
use crate::limits::Limits;
use crate::packet::{destination_bytes, LOOPBACK, UNSPECIFIED};
use crate::replay::{for_each_call, Replay};
use crate::reply::{Refusal, DONE};
use crate::table::Table;

/// What there is to tell apart in an address (`next-hop`, `mid-from-address`).
#[derive(Clone, Copy, Debug, PartialEq, Eq)]
enum Sort {
    Unspecified,
    Loopback,
    Multicast,
    MulticastWithMiddle,
    /// Good, without FF FE in their place.
    Plain,
    /// Good, with FF FE in their place.
    WithMiddle,
}
use Sort::*;

impl Sort {
    /// Of 16 bytes.
    fn of(address: &[u8]) -> Sort {
        let middle = address[11..13] == [0xFF, 0xFE];
        match (address[0] == 0xFF, middle) {
            (true, true) => MulticastWithMiddle,
            (true, false) => Multicast,
            (false, true) => WithMiddle,
            (false, false) if address == UNSPECIFIED => Unspecified,
            (false, false) if address == LOOPBACK => Loopback,
            (false, false) => Plain,
        }
    }
}

/// Where the MID of a request comes from: `neighbour-mid` by kind and flag of the
/// link, and whether one is given.
#[derive(Clone, Copy, Debug, PartialEq, Eq)]
enum Mid {
    Derived,
    DerivedOverGiven,
    Given,
    Missing,
}

impl Mid {
    fn is_derived(self) -> bool {
        matches!(self, Mid::Derived | Mid::DerivedOverGiven)
    }
}

/// A request that is sent down, or is 12.
#[derive(Clone, Copy)]
struct Asked<'a> {
    mid: Mid,
    next_hop: &'a [u8],
    hop: Sort,
    to: Sort,
}

/// What is seen, the reply that is listed then, and whether it is that of a request
/// with this reply.
#[derive(Clone, Copy)]
pub struct Situation {
    reply: u8,
    name: &'static str,
    is_that_of: fn(&Asked) -> bool,
}

const fn refused(name: &'static str, is_that_of: fn(&Asked) -> bool) -> Situation {
    Situation { reply: Refusal::NeighbourNotResolvable.number(), name, is_that_of }
}

const fn done(name: &'static str, is_that_of: fn(&Asked) -> bool) -> Situation {
    Situation { reply: DONE, name, is_that_of }
}

/// First the causes of 12, then what is not 12. "MID derived" and "MID given" say
/// which of the two it would be by `neighbour-mid`; the MID is there where it is the
/// one given, so that the next hop alone is the cause.
const SITUATIONS: [Situation; 24] = [
    refused("next hop ::, MID derived", |one| one.hop == Unspecified && one.mid.is_derived()),
    refused("next hop ::, MID given", |one| one.hop == Unspecified && one.mid == Mid::Given),
    refused("next hop ::1, MID derived", |one| one.hop == Loopback && one.mid.is_derived()),
    refused("next hop ::1, MID given", |one| one.hop == Loopback && one.mid == Mid::Given),
    refused("next hop multicast, MID derived", |one| one.hop == Multicast && one.mid.is_derived()),
    refused("next hop multicast, MID given", |one| one.hop == Multicast && one.mid == Mid::Given),
    refused("next hop multicast with FF FE, MID derived", |one| {
        one.hop == MulticastWithMiddle && one.mid.is_derived()
    }),
    refused("next hop multicast with FF FE, MID given", |one| {
        one.hop == MulticastWithMiddle && one.mid == Mid::Given
    }),
    refused("next hop without FF FE", |one| one.hop == Plain && one.mid == Mid::Derived),
    refused("next hop without FF FE, the MID given ignored", |one| {
        one.hop == Plain && one.mid == Mid::DerivedOverGiven
    }),
    // `slip-far-end`.
    refused("next hop without FF FE, destination with it", |one| {
        (one.hop, one.to) == (Plain, WithMiddle) && one.mid.is_derived()
    }),
    refused("no MID given", |one| matches!(one.hop, Plain | WithMiddle) && one.mid == Mid::Missing),
    refused("no MID given, next hop with FF FE", |one| {
        one.hop == WithMiddle && one.mid == Mid::Missing
    }),
    // `multicast-out`: the next hop is not asked.
    done("multicast packet, next hop ::", |one| one.is_multicast() && one.hop == Unspecified),
    done("multicast packet, next hop ::1", |one| one.is_multicast() && one.hop == Loopback),
    done("multicast packet, next hop multicast", |one| one.is_multicast() && one.hop == Multicast),
    done("multicast packet, next hop multicast with FF FE", |one| {
        one.is_multicast() && one.hop == MulticastWithMiddle
    }),
    done("multicast packet, next hop without FF FE", |one| {
        one.is_multicast() && one.hop == Plain && one.mid.is_derived()
    }),
    // `edge-film-server`.
    done("film server behind the mast", |one| {
        (one.hop, one.to) == (WithMiddle, Plain) && one.mid.is_derived()
    }),
    done("next hop with FF FE, MID given", |one| one.unicast_by_given() && one.hop == WithMiddle),
    done("next hop without FF FE, MID given", |one| one.unicast_by_given() && one.hop == Plain),
    // Of one bit alone, but for ::1.
    done("next hop one bit from ::, MID given", |one| {
        one.unicast_by_given()
            && one.next_hop.iter().map(|byte| byte.count_ones()).sum::<u32>() == 1
    }),
    done("next hop ::2, MID given", |one| {
        one.unicast_by_given() && one.next_hop[..15] == [0; 15] && one.next_hop[15] == 2
    }),
    // Not multicast, but next to it, and not link-local either.
    done("next hop fe.. but not fe80.., MID given", |one| {
        one.unicast_by_given() && one.next_hop[0] == 0xFE && one.next_hop[1] != 0x80
    }),
];

impl<'a> Asked<'a> {
    /// None for another call or kind, and for a request with another reply: there the
    /// next hop does not decide.
    fn of_record(table: &Table, kind: u64, call: &Call<'a>) -> Option<(u8, Asked<'a>)> {
        let Call::Request(request) = call else { return None };
        let reply = match table.request(request) {
            Ok(_) => DONE,
            Err(refusal @ Refusal::NeighbourNotResolvable) => refusal.number(),
            Err(_) => return None,
        };
        let mid = mid_of(table, request)?;
        let (hop, to) = (Sort::of(request.next_hop), Sort::of(destination_bytes(request.packet)?));
        let asked = Asked { mid, next_hop: request.next_hop, hop, to };
        (kind == kind::REQUEST).then_some((reply, asked))
    }

    fn is_multicast(&self) -> bool {
        matches!(self.to, Multicast | MulticastWithMiddle)
    }

    fn unicast_by_given(&self) -> bool {
        !self.is_multicast() && self.mid == Mid::Given
    }
}

fn mid_of(table: &Table, request: &Request) -> Option<Mid> {
    let derived = table.interface(request.index).ok()?.derives_the_mid();
    Some(match (derived, request.neighbour.is_some()) {
        (true, false) => Mid::Derived,
        (true, true) => Mid::DerivedOverGiven,
        (false, true) => Mid::Given,
        (false, false) => Mid::Missing,
    })
}

impl Situation {
    pub fn name(&self) -> String {
        format!("{} {}", self.reply, self.name)
    }
}

/// How often each situation was seen.
pub struct Counts(Vec<(Situation, u64)>);

impl Default for Counts {
    fn default() -> Counts {
        Counts(SITUATIONS.map(|situation| (situation, 0)).to_vec())
    }
}

impl Counts {
    /// Counts what a listing of this day file shows.
    pub fn add(&mut self, limits: Limits, input: &[u8]) {
        for_each_call(limits, input, |replay, kind, call| self.add_call(replay, kind, call));
    }

    /// Counts what the listing shows of this record.
    pub fn add_call(&mut self, replay: &Replay, kind: u64, call: &Call) {
        let asked = replay.table().and_then(|table| Asked::of_record(table, kind, call));
        if let Some((reply, asked)) = asked {
            self.add_asked(reply, &asked);
        }
    }

    fn add_asked(&mut self, reply: u8, asked: &Asked) {
        for (situation, count) in &mut self.0 {
            let seen = situation.reply == reply && (situation.is_that_of)(asked);
            *count += u64::from(seen);
        }
    }

    pub fn rows(&self) -> &[(Situation, u64)] {
        &self.0
    }
}

#[cfg(test)]
mod tests;
