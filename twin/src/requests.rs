//! What each request of a day sends down (`request-reply`): transport,
//! destination and class have no column in the listing.

use std::fmt::Write;

use crate::area::Area;
use crate::call::{Call, Destination};
use crate::leaving::{Request, Sending};
use crate::limits::Limits;
use crate::mid::mac_text;
use crate::replay::{for_each_call, Replay};
use crate::reply::{Refusal, DONE};

const HEADER: &str = "rec ans transport destination class n";

/// The number of a request's record in the listing, and what the call replied.
#[derive(Clone, Copy, Debug, PartialEq, Eq)]
pub struct Sent {
    pub record: usize,
    pub outcome: Result<Sending, Refusal>,
}

/// One for each whole request record, of kind 7 or 8, up to the first broken record.
pub fn requests(limits: Limits, input: &[u8]) -> Vec<Sent> {
    let mut sent = Vec::new();
    let mut record = 0;
    for_each_call(limits, input, |replay, _, call| {
        record += 1;
        if let Call::Request(request) = call {
            sent.push(Sent { record, outcome: ask(replay, request) });
        }
    });
    sent
}

/// `record-order`: 16 before the call's own refusals.
fn ask(replay: &Replay, request: &Request) -> Result<Sending, Refusal> {
    replay.table().ok_or(Refusal::StartOutOfPlace)?.request(request)
}

/// A header, and one line for each request; `rec`, `ans` and `n` are those of
/// the listing.
pub fn print(requests: &[Sent]) -> String {
    let mut text = format!("{HEADER}\n");
    for Sent { record, outcome } in requests {
        // Writing to a string cannot fail.
        let _ = match outcome {
            Ok(sending) => writeln!(text, "{record} {DONE} {}", columns(sending)),
            Err(refusal) => writeln!(text, "{record} {} - - - 0", refusal.number()),
        };
    }
    text
}

fn columns(sending: &Sending) -> String {
    let Sending { transport, destination, class, length } = sending;
    format!("{transport} {} {class} {length}", destination_column(destination))
}

/// A MID as a MAC address, the six numbers of an area, or `nothing`.
fn destination_column(destination: &Destination) -> String {
    match destination {
        Destination::Mid(mid) => mac_text(*mid),
        Destination::Area(area) => area_column(area),
        Destination::Nothing => "nothing".to_string(),
    }
}

/// `area-numbers`, in their order.
fn area_column(area: &Area) -> String {
    let Area { shape, latitude, longitude, a, b, angle } = area;
    format!("{shape},{latitude},{longitude},{a},{b},{angle}")
}

#[cfg(test)]
mod tests;
