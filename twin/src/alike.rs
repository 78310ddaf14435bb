//! What must be seen of the areas that calls compare (`area-given`): for enables,
//! anycasts and broadcasts each way in which the area of an enabled stop and the
//! one that is given are joined, and each way in which they nearly are.
//!
//! A program that lacks a change does not list joined areas as equal: the enable is
//! not 4, or what arrives goes to the DGVL. One with a change too many lists near
//! misses as equal. So where each way is seen, a program that has it wrong fails.

mod joined;
mod near;

use crate::area::Area;
use crate::arriving::Indication;
use crate::call::{Call, Destination, GEO_ANYCAST, GEO_BROADCAST};
use crate::limits::Limits;
use crate::listing::Line;
use crate::replay::{for_each_call, Answer, Replay};
use crate::reply::{Refusal, DONE};
use crate::table::{Table, DGVL};

/// The calls that compare areas.
#[derive(Clone, Copy, Debug, PartialEq, Eq)]
pub enum Caller {
    Enable,
    Anycast,
    Broadcast,
}

const CALLERS: [Caller; 3] = [Caller::Enable, Caller::Anycast, Caller::Broadcast];

impl Caller {
    pub fn name(self) -> &'static str {
        match self {
            Caller::Enable => "2, 9 enable",
            Caller::Anycast => "6 anycast",
            Caller::Broadcast => "6 broadcast",
        }
    }
}

/// What a way is called, and whether a stop's area and the one given, in this
/// order, are alike in this way.
type Likeness = (&'static str, fn(&Area, &Area) -> bool);

/// A way in which a stop's area and the one given are alike.
pub struct Way {
    /// Whether it makes them equal.
    equal: bool,
    /// Whether they are at the two ends of the longitudes besides.
    other_end: bool,
    likeness: Likeness,
}

impl Way {
    pub fn name(&self) -> String {
        let (name, _) = self.likeness;
        let sort = if self.equal { "equal" } else { "near miss" };
        let besides = if self.other_end { ", other end" } else { "" };
        format!("{sort}: {name}{besides}")
    }

    fn is_that_of(&self, stop: &Area, given: &Area) -> bool {
        let (_, has_it) = self.likeness;
        let stop = if self.other_end { stop.at_the_other_end() } else { Some(*stop) };
        stop.is_some_and(|stop| has_it(&stop, given))
    }
}

/// Every way that must be seen. Where the end differs besides, it takes several
/// changes.
fn ways() -> Vec<Way> {
    let way = |equal, other_end| move |likeness| Way { equal, other_end, likeness };
    let mut ways: Vec<Way> = joined::UNCHANGED.map(way(true, false)).into();
    ways.extend(joined::CHANGED.map(way(true, false)));
    ways.extend(joined::CHANGED.map(way(true, true)));
    ways.extend(near::MISSED.map(way(false, false)));
    ways
}

/// A call that has compared its area with those of the enabled stops.
struct Comparison {
    caller: Caller,
    given: Area,
    equal: bool,
}

impl Comparison {
    fn of_record(call: &Call, answer: &Answer) -> Option<Comparison> {
        let (caller, given) = match *call {
            Call::Enable(settings) => (Caller::Enable, settings.area),
            Call::Indication(Indication { transport, destination, .. }) => {
                let Destination::Area(area) = destination else { return None };
                (caller_of(transport)?, area)
            }
            _ => return None,
        };
        let equal = match caller {
            Caller::Enable => equal_by_reply(answer.reply)?,
            _ if answer.reply == DONE => answer.link != Some(DGVL),
            _ => return None,
        };
        Some(Comparison { caller, given, equal })
    }
}

fn caller_of(transport: u64) -> Option<Caller> {
    match transport {
        GEO_ANYCAST => Some(Caller::Anycast),
        GEO_BROADCAST => Some(Caller::Broadcast),
        _ => None,
    }
}

/// What the reply of an enable says of the comparison; nothing where it comes
/// before 4 in `enable-refusals`.
fn equal_by_reply(reply: u8) -> Option<bool> {
    if reply == Refusal::AreaEqualToAStops.number() {
        return Some(true);
    }
    let behind = [Refusal::PrefixOverlapsAnother, Refusal::NoIndexFree];
    let unequal = reply == DONE || behind.iter().any(|refusal| refusal.number() == reply);
    unequal.then_some(false)
}

/// A way, for one of the calls, and how often it was seen.
pub struct Row {
    pub caller: Caller,
    pub way: Way,
    pub count: u64,
}

impl Row {
    fn add(&mut self, stops: &[Area], comparison: &Comparison) {
        if (self.caller, self.way.equal) != (comparison.caller, comparison.equal) {
            return;
        }
        let seen = stops.iter().any(|stop| self.way.is_that_of(stop, &comparison.given));
        self.count += u64::from(seen);
    }
}

/// The areas of the enabled stops that can be like the one given. In no way is the
/// latitude more than 1 apart, and most stops are left out so.
fn areas_beside(table: &Table, given: &Area) -> Vec<Area> {
    let areas = table.stops.values().map(|stop| stop.area);
    areas.filter(|area| (area.latitude - given.latitude).abs() <= 1).collect()
}

pub struct Counts(Vec<Row>);

impl Default for Counts {
    fn default() -> Counts {
        let rows_of = |caller| ways().into_iter().map(move |way| Row { caller, way, count: 0 });
        Counts(CALLERS.into_iter().flat_map(rows_of).collect())
    }
}

impl Counts {
    /// Counts what these lines, which list this day file, show.
    pub fn add(&mut self, limits: Limits, input: &[u8], lines: &[Line]) {
        let mut lines = lines.iter();
        for_each_call(limits, input, |replay, _, call| {
            if let Some(line) = lines.next() {
                self.add_call(replay, call, &line.answer);
            }
        });
    }

    /// Counts what this answer to a record shows.
    pub fn add_call(&mut self, replay: &Replay, call: &Call, answer: &Answer) {
        let comparison = Comparison::of_record(call, answer);
        if let (Some(table), Some(comparison)) = (replay.table(), comparison) {
            let stops = areas_beside(table, &comparison.given);
            self.0.iter_mut().for_each(|row| row.add(&stops, &comparison));
        }
    }

    pub fn rows(&self) -> &[Row] {
        &self.0
    }
}

#[cfg(test)]
mod tests;
