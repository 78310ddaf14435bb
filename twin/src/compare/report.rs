//! What `compare` saw in the files, how it tells it, and its score.

use std::fmt::Display;

use super::subject::Subject;
use crate::alike;
use crate::call::{kind, Call};
use crate::listing::{Line, RecordKind};
use crate::orders::Counts;
use crate::pairs::{allowed_pairs, name_of_kind, Seen};
use crate::replay::{for_each_call, Answer, Replay};
use crate::resolving;
use crate::several;
use crate::thousands;

/// Files, pairs, situations, next hops, likenesses and what several prefixes and
/// thousands of stops show, each passed or failed.
#[derive(Default)]
pub struct Score {
    pub passed: u64,
    pub failed: u64,
}

impl Score {
    pub fn count(&mut self, good: bool) {
        match good {
            true => self.passed += 1,
            false => self.failed += 1,
        }
    }

    /// Prints how often something was seen; never is a failure.
    fn count_seen(&mut self, what: &str, count: u64) {
        let note = if count == 0 { "  NOT SEEN" } else { "" };
        println!("{what} {count:>9}{note}");
        self.count(count > 0);
    }
}

/// What was seen in the files.
pub struct Coverage {
    subject: Subject,
    records: u64,
    pairs: Seen,
    situations: Counts,
    next_hops: resolving::Counts,
    likenesses: alike::Counts,
    several: several::Counts,
    thousands: thousands::Counts,
}

impl Coverage {
    pub fn new(subject: Subject) -> Coverage {
        Coverage {
            subject,
            records: 0,
            pairs: Seen::default(),
            situations: Counts::default(),
            next_hops: resolving::Counts::default(),
            likenesses: alike::Counts::default(),
            several: several::Counts::default(),
            thousands: thousands::Counts::default(),
        }
    }

    /// What the file of this number shows. Pairs must be seen in the days that are made
    /// for the program: those of `dispatchlist` are on a table that `daylist` does not
    /// take.
    pub fn add(&mut self, number: u64, input: &[u8], own_lines: &[Line]) {
        let limits = self.subject.limits();
        self.records += own_lines.len() as u64;
        if self.subject.is_own(number) {
            self.pairs.add(own_lines);
        }
        self.several.begin_day(limits, input, own_lines);
        self.thousands.begin_day(input, own_lines);
        let mut own_lines = own_lines.iter();
        // Once for all of them, since thousands of stops take their time.
        for_each_call(limits, input, |replay, kind, call| {
            if let Some(line) = own_lines.next() {
                self.add_call(replay, kind, call, &line.answer);
            }
        });
    }

    fn add_call(&mut self, replay: &Replay, kind: u64, call: &Call, answer: &Answer) {
        self.situations.add_call(replay, kind, call);
        self.next_hops.add_call(replay, kind, call);
        self.likenesses.add_call(replay, call, answer);
        self.several.add_call(replay, kind, call, answer);
        if self.subject == Subject::Dispatchlist {
            self.thousands.add_call(replay, kind, call, answer);
        }
    }

    pub fn records(&self) -> u64 {
        self.records
    }

    /// Prints how often each was seen, and counts it.
    pub fn report(&self, score: &mut Score) {
        report_pairs(&self.pairs, score);
        report_situations(&self.situations, score);
        report_next_hops(&self.next_hops, score);
        report_likenesses(&self.likenesses, score);
        report_several(&self.several, score);
        if self.subject == Subject::Dispatchlist {
            report_thousands(&self.thousands, score);
        }
    }
}

fn report_pairs(seen: &Seen, score: &mut Score) {
    println!("{:<16} {:>5} {:>9}", "record", "reply", "count");
    for (kind, reply) in allowed_pairs() {
        let what = format!("{:<16} {reply:>5}", name_of_kind(kind));
        score.count_seen(&what, seen.count((kind, reply)));
    }
    for (kind, reply) in seen.not_allowed() {
        println!("{:<16} {reply:>5}  NOT ALLOWED by the rules", name_of_kind(kind));
        score.count(false);
    }
}

fn report_situations(counts: &Counts, score: &mut Score) {
    println!("{:<16} {:<28} {:>9}", "record", "reply over another, or cause", "count");
    for (situation, count) in counts.rows() {
        let kind = name_of_kind(RecordKind::Known(situation.kind));
        score.count_seen(&format!("{kind:<16} {:<28}", situation.name()), *count);
    }
}

/// Prints how often each of these was seen under a title, and counts it.
fn report_rows<Name: Display>(
    title: &str,
    rows: impl IntoIterator<Item = (&'static str, Name, u64)>,
    score: &mut Score,
) {
    println!("{:<16} {title:<60} {:>9}", "record", "count");
    for (record, name, count) in rows {
        score.count_seen(&format!("{record:<16} {name:<60}"), count);
    }
}

fn report_next_hops(counts: &resolving::Counts, score: &mut Score) {
    let kind = name_of_kind(RecordKind::Known(kind::REQUEST));
    let rows = counts.rows().iter().map(|(situation, count)| (kind, situation.name(), *count));
    report_rows("reply by the next hop", rows, score);
}

fn report_likenesses(counts: &alike::Counts, score: &mut Score) {
    let rows = counts.rows().iter().map(|row| (row.caller.name(), row.way.name(), row.count));
    report_rows("areas compared", rows, score);
}

fn report_several(counts: &several::Counts, score: &mut Score) {
    let rows = counts.rows().into_iter().map(of_kind);
    report_rows("several prefixes", rows, score);
}

fn report_thousands(counts: &thousands::Counts, score: &mut Score) {
    let of_days = counts.rows_of_days().into_iter();
    let of_days = of_days.map(|(name, count)| ("day", name.to_string(), count));
    let rows = counts.rows().into_iter().map(of_kind);
    report_rows("thousands of stops", rows.chain(of_days), score);
}

fn of_kind<Name>((kind, name, count): (u64, Name, u64)) -> (&'static str, Name, u64) {
    (name_of_kind(RecordKind::Known(kind)), name, count)
}
