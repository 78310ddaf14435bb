//! What must be seen of stops with several prefixes (`prefix-list`): lists of each count
//! that are enabled, each cause of 3 and of 5 at each place of a list, what arrives for
//! each place, records of kind 9 that are broken in their list, and enables of kinds 2
//! and 9 side by side.
//!
//! A program that asks one place only, compares two lists place by place, or takes a
//! length 0 for no prefix lists such records otherwise (`slip-first-prefix`).

mod arrived;
mod broken;
mod enabled;

use std::collections::BTreeMap;

use crate::call::{kind, Call};
use crate::limits::Limits;
use crate::listing::{Line, RecordKind};
use crate::packet::Address;
use crate::prefix::Prefix;
use crate::replay::{for_each_call, Answer, Replay};
use crate::reply::{Refusal, DONE};
use crate::table::{Stop, Table};

/// How a place of a list is called.
const PLACES: [&str; 4] = ["1st", "2nd", "3rd", "4th"];

/// A stop that is no longer enabled, and the index that it had.
struct Gone {
    index: u64,
    stop: Stop,
}

/// What happened to the stops on the day that is counted.
#[derive(Default)]
struct Past {
    gone: Vec<Gone>,
    /// By which kind of record each enabled stop came.
    kinds: BTreeMap<u64, u64>,
}

impl Past {
    fn add(&mut self, table: &Table, kind: u64, call: &Call, answer: &Answer) {
        match (call, answer.link) {
            (Call::Enable(_), Some(index)) => {
                self.kinds.insert(index, kind);
            }
            (Call::Disable(index), _) => {
                self.kinds.remove(index);
                let stop = table.stops.get(index).copied();
                self.gone.extend(stop.map(|stop| Gone { index: *index, stop }));
            }
            _ => {}
        }
    }
}

/// A record of a day, and what was before it.
struct Record<'a> {
    table: &'a Table,
    past: &'a Past,
    kind: u64,
    answer: Answer,
}

/// Outside by the prefix's last bit alone.
fn is_one_bit_beside(prefix: &Prefix, address: &Address) -> bool {
    let differing = u128::from_be_bytes(prefix.bytes) ^ u128::from_be_bytes(*address);
    differing.checked_shr(128 - prefix.length as u32) == Some(1)
}

/// Every situation that must be seen: the record's kind, and its name.
fn wanted() -> Vec<(u64, String)> {
    let mut wanted = Vec::new();
    let mut want = |kind, names: Vec<String>| {
        wanted.extend(names.into_iter().map(|name| (kind, name)));
    };
    want(kind::OLD_ENABLE, enabled::wanted_of_kind_2());
    want(kind::INDICATION, arrived::wanted());
    want(kind::ENABLE, enabled::wanted_of_kind_9());
    want(kind::ENABLE, broken::wanted());
    wanted
}

/// How often each situation was seen.
pub struct Counts {
    /// In the order in which they are printed.
    wanted: Vec<(u64, String)>,
    seen: BTreeMap<(u64, String), u64>,
    past: Past,
}

impl Default for Counts {
    fn default() -> Counts {
        Counts { wanted: wanted(), seen: BTreeMap::new(), past: Past::default() }
    }
}

impl Counts {
    /// Counts what these lines, which list this day file, show.
    pub fn add(&mut self, limits: Limits, input: &[u8], lines: &[Line]) {
        self.begin_day(limits, input, lines);
        let mut lines = lines.iter();
        for_each_call(limits, input, |replay, kind, call| {
            if let Some(line) = lines.next() {
                self.add_call(replay, kind, call, &line.answer);
            }
        });
    }

    /// Counts what breaks the last record of the day. Its whole records come next.
    pub fn begin_day(&mut self, limits: Limits, input: &[u8], lines: &[Line]) {
        self.past = Past::default();
        let Some(Line { kind: RecordKind::Known(kind::ENABLE), answer }) = lines.last() else {
            return;
        };
        if answer.reply == Refusal::RecordBroken.number() {
            let record = &limits.up_to_the_limit(input)[answer.length..];
            self.count(kind::ENABLE, broken::name_of(record));
        }
    }

    /// Counts what this answer to a record of the day shows.
    pub fn add_call(&mut self, replay: &Replay, kind: u64, call: &Call, answer: &Answer) {
        let Some(table) = replay.table() else { return };
        let record = Record { table, past: &self.past, kind, answer: *answer };
        let names = match call {
            Call::Enable(settings) => enabled::names_of(&record, &settings.prefixes),
            Call::Indication(indication) if answer.reply == DONE => {
                arrived::names_of(&record, indication)
            }
            _ => Vec::new(),
        };
        self.count(kind, names);
        self.past.add(table, kind, call, answer);
    }

    fn count(&mut self, kind: u64, names: impl IntoIterator<Item = String>) {
        for name in names {
            *self.seen.entry((kind, name)).or_default() += 1;
        }
    }

    /// Record kind, name and count.
    pub fn rows(&self) -> Vec<(u64, &str, u64)> {
        let count = |one: &(u64, String)| self.seen.get(one).copied().unwrap_or(0);
        self.wanted.iter().map(|one| (one.0, one.1.as_str(), count(one))).collect()
    }
}

#[cfg(test)]
mod tests;
