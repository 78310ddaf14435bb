//! Which pairs of record kind and reply number a listing can hold, worked out
//! from the rules, and the count of those that were seen.

use std::collections::BTreeMap;

use crate::call::kind;
use crate::listing::{Line, RecordKind};

pub type Pair = (RecordKind, u8);

/// The replies of each record kind.
///
/// The call's own refusals are those of `reply-first`, in its table of orders.
/// Besides, `record-order` tests 14 first, then 16: each kind has a number that
/// can be cut (14), can stand before the start, or is a second start (16), and
/// can be done (0).
///
/// Not among them: 13, since 9 comes before it and 1,294 is 1,280 + 14
/// (`listing-lent`); 29, since a count above four is a broken record; and 23, since the
/// run of `dispatchlist` is long enough for every maximum (`dispatch-list`). So `daylist`
/// and `dispatchlist` have the same pairs. In an indication 1 is left for its MIDs only,
/// since a transport outside 1..4 is broken and the sort follows from the transport.
///
/// The two kinds of enables have the same replies, since one prefix can be bad, and can
/// overlap a stop's. So have the two kinds of requests. In kind 7 the next hop is the
/// packet's destination (`record-hop`), which is good where 12 is asked: :: and ::1
/// are 10 before, and multicast is never 12. So 12 is left for a destination without
/// FF FE where the MID is derived, and for no MID given.
const REPLIES_OF_KIND: [(u64, &[u8]); 9] = [
    (kind::START, &[0, 1, 14, 16, 30]),
    (kind::OLD_ENABLE, &[0, 1, 2, 3, 4, 5, 6, 14, 16, 30]),
    (kind::DISABLE, &[0, 7, 14, 15, 16]),
    (kind::DGVL_AREA, &[0, 2, 14, 16]),
    (kind::OWN_MID, &[0, 1, 14, 16]),
    (kind::INDICATION, &[0, 1, 2, 9, 10, 14, 16, 20, 21, 22]),
    (kind::OLD_REQUEST, &[0, 1, 7, 9, 10, 11, 12, 14, 16, 20, 21, 22]),
    (kind::REQUEST, &[0, 1, 7, 9, 10, 11, 12, 14, 16, 20, 21, 22]),
    (kind::ENABLE, &[0, 1, 2, 3, 4, 5, 6, 14, 16, 30]),
];

/// A first number outside 1..9, or one that is no number (overlong, above
/// 2^64 - 1 or cut), can only be broken (`record-broken`).
const ONLY_BROKEN: [RecordKind; 2] = [RecordKind::Unknown, RecordKind::Unreadable];

pub fn allowed_pairs() -> Vec<Pair> {
    let mut pairs = Vec::new();
    for (number, replies) in REPLIES_OF_KIND {
        pairs.extend(replies.iter().map(|&reply| (RecordKind::Known(number), reply)));
    }
    pairs.extend(ONLY_BROKEN.map(|kind| (kind, 14)));
    pairs
}

pub fn name_of_kind(kind: RecordKind) -> &'static str {
    match kind {
        RecordKind::Known(kind::START) => "1 start",
        RecordKind::Known(kind::OLD_ENABLE) => "2 old enable",
        RecordKind::Known(kind::DISABLE) => "3 disable",
        RecordKind::Known(kind::DGVL_AREA) => "4 DGVL area",
        RecordKind::Known(kind::OWN_MID) => "5 own MID",
        RecordKind::Known(kind::INDICATION) => "6 indication",
        RecordKind::Known(kind::OLD_REQUEST) => "7 old request",
        RecordKind::Known(kind::REQUEST) => "8 request",
        RecordKind::Known(kind::ENABLE) => "9 enable",
        RecordKind::Known(_) | RecordKind::Unknown => "unknown kind",
        RecordKind::Unreadable => "kind unreadable",
    }
}

/// How often each pair was seen.
#[derive(Default)]
pub struct Seen(BTreeMap<Pair, u64>);

impl Seen {
    pub fn add(&mut self, lines: &[Line]) {
        for line in lines {
            *self.0.entry((line.kind, line.answer.reply)).or_default() += 1;
        }
    }

    pub fn count(&self, pair: Pair) -> u64 {
        self.0.get(&pair).copied().unwrap_or(0)
    }

    pub fn records(&self) -> u64 {
        self.0.values().sum()
    }

    /// Pairs that the rules allow in no listing: the twin itself would err.
    pub fn not_allowed(&self) -> Vec<Pair> {
        let allowed = allowed_pairs();
        self.0.keys().copied().filter(|pair| !allowed.contains(pair)).collect()
    }
}

#[cfg(test)]
mod tests {
    use super::*;
    use crate::limits::DAYLIST;
    use crate::listing::lines;

    #[test]
    fn the_number_of_allowed_pairs() {
        let pairs = allowed_pairs();
        assert_eq!(pairs.len(), 5 + 2 * 10 + 5 + 4 + 4 + 10 + 2 * 12 + 2);
        assert!(pairs.iter().all(|(_, reply)| ![13, 23, 29].contains(reply)));
    }

    #[test]
    fn seen_pairs_are_counted() {
        let mut seen = Seen::default();
        seen.add(&lines(DAYLIST, &[3, 0, 3, 1, 10]));
        assert_eq!(seen.count((RecordKind::Known(3), 16)), 2);
        assert_eq!(seen.count((RecordKind::Unknown, 14)), 1);
        assert_eq!(seen.count((RecordKind::Known(3), 0)), 0);
        assert_eq!(seen.records(), 3);
        assert!(seen.not_allowed().is_empty());
    }
}
