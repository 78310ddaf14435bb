//! What must be seen of days that `dispatchlist` alone takes (`dispatch-list`): starts
//! with a maximum around its bounds; what finds, or does not find, the first and the
//! last of thousands of stops, and indices above the maximum; and days around the most
//! bytes that are read and the most records that are listed.
//!
//! A program that keeps to a smaller bound, leaves a record of the run out, or stops at
//! an unused one lists such records otherwise.

mod days;
mod rows;

use crate::area::Area;
use crate::call::{Call, Destination, GEO_UNICAST};
use crate::limits::DISPATCHLIST;
use crate::listing::Line;
use crate::packet::Address;
use crate::prefix::Prefix;
use crate::prefix_list::PrefixList;
use crate::replay::{for_each_call, Answer, Replay};
use crate::table::{
    StartSettings, Stop, Table, DGVL, FIRST_STOP, LARGEST_MAXIMUM_OVER_A_RUN, SMALLEST_MAXIMUM,
};

pub use days::both_take;

/// From so many enabled stops on they are thousands.
const THOUSANDS: usize = 2_000;

/// Where a link stands among thousands of stops: at the first record of the run, at its
/// last one, or between.
#[derive(Clone, Copy, Debug, PartialEq, Eq)]
enum Place {
    First,
    Between,
    Last,
}
use Place::*;

/// A record of a day, and what was before it.
struct Record<'a> {
    table: Option<&'a Table>,
    call: &'a Call<'a>,
    answer: Answer,
    /// The stops that have been disabled so far.
    gone: &'a [Stop],
}

impl Record<'_> {
    /// That of a start which no other value refuses.
    fn maximum(&self) -> Option<u64> {
        let Call::Start(settings) = self.call else { return None };
        let otherwise = StartSettings { maximum: SMALLEST_MAXIMUM, ..*settings };
        Table::start(&otherwise).0.is_ok().then_some(settings.maximum)
    }

    /// The table, where it has thousands of stops.
    fn thousands(&self) -> Option<&Table> {
        self.table.filter(|table| table.stops.len() >= THOUSANDS)
    }

    /// Of the link that the listing shows, or of the one that a disable names.
    fn place(&self) -> Option<Place> {
        self.place_of(self.index().or(self.answer.link)?)
    }

    fn place_of(&self, index: u64) -> Option<Place> {
        self.thousands()?;
        match index {
            0 | DGVL => None,
            FIRST_STOP => Some(First),
            LARGEST_MAXIMUM_OVER_A_RUN => Some(Last),
            _ => Some(Between),
        }
    }

    /// That a disable or a request names.
    fn index(&self) -> Option<u64> {
        match self.call {
            Call::Disable(index) => Some(*index),
            Call::Request(request) => Some(request.index),
            _ => None,
        }
    }

    /// Whether the link that it gets, if it gets one, has the table's maximum as index.
    fn takes_the_maximum(&self) -> bool {
        self.table.is_some_and(|table| self.answer.link == Some(table.maximum))
    }

    fn maximum_is(&self, from: u64, to: u64) -> bool {
        self.table.is_some_and(|table| (from..=to).contains(&table.maximum))
    }

    fn area(&self) -> Option<Area> {
        match self.call {
            Call::Enable(settings) => Some(settings.area),
            Call::Indication(indication) => match indication.destination {
                Destination::Area(area) => Some(area),
                _ => None,
            },
            _ => None,
        }
    }

    /// Those of an enable.
    fn prefixes(&self) -> Option<PrefixList> {
        match self.call {
            Call::Enable(settings) => Some(settings.prefixes),
            _ => None,
        }
    }

    /// The place of the stop with an equal area.
    fn place_of_area(&self) -> Option<Place> {
        let area = self.area()?;
        let mut stops = self.thousands()?.stops.iter();
        let (index, _) = stops.find(|(_, stop)| stop.area.equals(&area))?;
        self.place_of(*index)
    }

    /// The only stop that a prefix given overlaps, and its index.
    fn stop_overlapped(&self) -> Option<(u64, &Stop)> {
        let prefixes = self.prefixes()?;
        let stops = self.thousands()?.stops.iter();
        let mut overlapping = stops.filter(|(_, stop)| stop.prefixes.overlaps(&prefixes));
        let (index, stop) = overlapping.next()?;
        overlapping.next().map_or(Some((*index, stop)), |_| None)
    }

    /// The place of the only stop that a prefix given overlaps.
    fn place_of_prefix(&self) -> Option<Place> {
        self.place_of(self.stop_overlapped()?.0)
    }

    /// The place of the only stop that a prefix given overlaps, where the second one
    /// overlaps its second, and the first one overlaps nothing.
    fn place_of_second(&self) -> Option<Place> {
        let (prefixes, (index, stop)) = (self.prefixes()?, self.stop_overlapped()?);
        let first = PrefixList::of(&prefixes.listed()[..1]);
        let by_second = second(&prefixes)?.overlaps(second(&stop.prefixes)?);
        let place = self.place_of(index).filter(|_| by_second);
        place.filter(|_| !stop.prefixes.overlaps(&first))
    }

    /// The places of the stops whose prefixes hold the packet's destination and source,
    /// for transport 1.
    fn places_of_addresses(&self) -> Option<[Option<Place>; 2]> {
        let table = self.thousands()?;
        let place_of = |address: &Address| {
            let mut stops = table.stops.iter();
            let (index, _) = stops.find(|(_, stop)| stop.prefixes.holds_address(address))?;
            self.place_of(*index)
        };
        let [to, source] = self.addresses()?;
        Some([place_of(&to), place_of(&source)])
    }

    /// Destination and source, for transport 1.
    fn addresses(&self) -> Option<[Address; 2]> {
        let Call::Indication(indication) = self.call else { return None };
        if indication.transport != GEO_UNICAST {
            return None;
        }
        let to = indication.packet.get(24..40)?.try_into().ok()?;
        let source = indication.packet.get(8..24)?.try_into().ok()?;
        Some([to, source])
    }

    /// By destination, by source, or by neither.
    fn goes_by(&self, destination: Option<Place>, source: Option<Place>) -> bool {
        self.places_of_addresses() == Some([destination, source])
    }

    /// Whether the stop that it goes to holds an address by its second prefix: the
    /// destination is at 0, the source at 1.
    fn is_held_by_second(&self, place: usize) -> bool {
        let stop = self.thousands().zip(self.answer.link);
        let stop = stop.and_then(|(table, link)| table.stops.get(&link));
        let second = stop.and_then(|stop| second(&stop.prefixes));
        let held = second.zip(self.addresses());
        held.is_some_and(|(second, addresses)| second.holds_address(&addresses[place]))
    }

    /// Whether what arrives for an area goes to a stop at this place, or to none.
    fn goes_to(&self, place: Option<Place>) -> bool {
        self.thousands().is_some() && self.area().is_some() && self.place() == place
    }

    /// Whether an index before the last of the run is unused, and the last one is used.
    fn has_gap_before_the_last(&self) -> bool {
        let last = LARGEST_MAXIMUM_OVER_A_RUN;
        self.thousands().is_some_and(|table| {
            let all = (last - FIRST_STOP + 1) as usize;
            table.stops.contains_key(&last) && table.stops.len() < all
        })
    }

    /// Whether the link takes an index, and a higher one is unused too, with enabled
    /// stops between the two and behind them.
    fn takes_the_lowest_of_several(&self) -> bool {
        let (Some(table), Some(link)) = (self.thousands(), self.answer.link) else {
            return false;
        };
        let last = table.stops.keys().next_back().copied().unwrap_or(FIRST_STOP);
        let mut behind = link + 1..last;
        let next = behind.find(|index| !table.stops.contains_key(index));
        next.is_some_and(|next| next > link + 1)
    }

    /// Whether one of the stops that were disabled among thousands is like this.
    fn is_of_a_disabled(&self, is_like: impl Fn(&Stop) -> bool) -> bool {
        self.thousands().is_some() && self.gone.iter().any(is_like)
    }

    fn has_area_of_a_disabled(&self) -> bool {
        let Some(area) = self.area() else { return false };
        self.is_of_a_disabled(|stop| stop.area.equals(&area))
    }

    fn has_prefix_of_a_disabled(&self) -> bool {
        let Some(prefixes) = self.prefixes() else { return false };
        self.is_of_a_disabled(|stop| stop.prefixes.overlaps(&prefixes))
    }

    /// The destination is at 0, the source at 1.
    fn has_address_of_a_disabled(&self, place: usize) -> bool {
        let Some(addresses) = self.addresses() else { return false };
        self.answer.link == Some(DGVL)
            && self.is_of_a_disabled(|stop| stop.prefixes.holds_address(&addresses[place]))
    }

    /// Whether the index without its bits from this one on is that of an enabled stop.
    fn has_low_bits_of_an_enabled(&self, bits: u32) -> bool {
        let (Some(table), Some(index)) = (self.table, self.index()) else { return false };
        index >> bits > 0 && table.stops.contains_key(&(index & ((1 << bits) - 1)))
    }

    fn packet_length(&self) -> usize {
        match self.call {
            Call::Indication(indication) => indication.packet.len(),
            Call::Request(request) => request.packet.len(),
            _ => 0,
        }
    }
}

fn second(list: &PrefixList) -> Option<&Prefix> {
    list.listed().get(1)
}

/// How often each situation was seen, in records and in days.
#[derive(Default)]
pub struct Counts {
    records: rows::Counts,
    days: days::Counts,
    /// The stops that have been disabled so far on the day that is counted.
    gone: Vec<Stop>,
}

impl Counts {
    /// Counts what these lines, which list this day file, show.
    pub fn add(&mut self, input: &[u8], lines: &[Line]) {
        self.begin_day(input, lines);
        let mut lines = lines.iter();
        for_each_call(DISPATCHLIST, input, |replay, kind, call| {
            if let Some(line) = lines.next() {
                self.add_call(replay, kind, call, &line.answer);
            }
        });
    }

    /// Counts what the day shows as a whole. Its records come next.
    pub fn begin_day(&mut self, input: &[u8], lines: &[Line]) {
        self.days.add(input, lines);
        self.gone.clear();
    }

    /// Counts what this answer to a record of the day shows.
    pub fn add_call(&mut self, replay: &Replay, kind: u64, call: &Call, answer: &Answer) {
        let table = replay.table();
        let record = Record { table, call, answer: *answer, gone: &self.gone };
        self.records.add(kind, &record);
        self.gone.extend(disabled_by(table, call));
    }

    /// Record kind, name and count.
    pub fn rows(&self) -> Vec<(u64, String, u64)> {
        self.records.rows()
    }

    /// Name and count.
    pub fn rows_of_days(&self) -> Vec<(&'static str, u64)> {
        self.days.rows()
    }
}

/// The stop that is no longer enabled behind this call.
fn disabled_by(table: Option<&Table>, call: &Call) -> Option<Stop> {
    let Call::Disable(index) = call else { return None };
    table?.stops.get(index).copied()
}

#[cfg(test)]
mod tests;
