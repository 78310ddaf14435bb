//! Enables of a day, of kind 9 and of kind 2. Those of kind 2 are from before a stop
//! could have several prefixes: the writer writes none any more (`record-list`), so the
//! generator makes them.

use super::day::Day;
use super::{areas, lists, prefixes, values};
use crate::area::Area;
use crate::call::{kind, Call};
use crate::link::InterfaceNumbers;
use crate::prefix::Prefix;
use crate::prefix_list::PrefixList;
use crate::replay::Answer;
use crate::table::StopSettings;
use crate::write::{joined, record_pieces, Piece};

/// Before the count stand the record's kind and the six numbers of the area.
pub const PLACE_OF_COUNT: usize = 7;

/// `record-old-enable`: the record of one prefix without its count; that of none is the
/// same but for its kind, with the length 0 where the count was.
pub fn old_enable_pieces(settings: &StopSettings) -> Vec<Piece> {
    let mut pieces = record_pieces(&Call::Enable(*settings)).expect("settings with a record form");
    if settings.prefixes.count > 0 {
        pieces.remove(PLACE_OF_COUNT);
    }
    pieces[0] = Piece::Number(kind::OLD_ENABLE);
    pieces
}

impl Day {
    /// Of kind 9, or, with one prefix or none, at times of kind 2.
    pub fn enable_with(&mut self, area: Area, prefixes: &[Prefix]) -> Answer {
        if prefixes.len() <= 1 && self.random.percent(40) {
            return self.old_enable_with(area, prefixes);
        }
        self.enable_list(area, prefixes)
    }

    /// Of kind 9, with these prefixes, of which there are at most four.
    pub fn enable_list(&mut self, area: Area, prefixes: &[Prefix]) -> Answer {
        let settings = self.settings(area, PrefixList::of(prefixes));
        self.add(&Call::Enable(settings))
    }

    /// Of kind 2, with one prefix or none.
    pub fn old_enable_with(&mut self, area: Area, prefixes: &[Prefix]) -> Answer {
        let settings = self.settings(area, PrefixList::of(prefixes));
        self.add_old_enable(&settings)
    }

    /// Of kind 2. There is at most one prefix.
    pub fn add_old_enable(&mut self, settings: &StopSettings) -> Answer {
        self.add_record(&joined(&old_enable_pieces(settings)))
    }

    fn settings(&mut self, area: Area, prefixes: PrefixList) -> StopSettings {
        StopSettings { area, prefixes, interface: values::interface(&mut self.random, self.bad) }
    }

    /// Any enable of this kind, 2 or 9.
    pub fn any_enable(&mut self, wanted: u64) -> Answer {
        if wanted == kind::OLD_ENABLE {
            let (area, prefixes) = self.area_and_prefix();
            return self.old_enable_with(area, prefixes.listed());
        }
        let known = self.known_prefixes();
        let prefixes = lists::any(&mut self.random, &known, self.bad);
        let area = self.area();
        self.enable_list(area, &prefixes)
    }

    /// One stop of each kind that links can have and each flag, with one prefix and with
    /// two: 2 to 5 after the start.
    pub fn enable_each_interface(&mut self) {
        for (block, kind, flag) in [(0, 1, 0), (1, 1, 1), (2, 3, 0), (3, 3, 1)] {
            let area = areas::fresh(&mut self.random);
            let blocks = if flag == 0 { vec![block] } else { vec![block, block + 4] };
            let of_block = |block| prefixes::of_block(&mut self.random, block);
            let prefixes: Vec<Prefix> = blocks.into_iter().map(of_block).collect();
            let (prefixes, interface) =
                (PrefixList::of(&prefixes), InterfaceNumbers { kind, flag });
            self.add(&Call::Enable(StopSettings { area, prefixes, interface }));
        }
    }
}

#[cfg(test)]
mod tests {
    use super::*;
    use crate::prefix::NO_PREFIX;

    #[test]
    fn the_record_has_no_count() {
        let area = Area { shape: 0, latitude: 0, longitude: 0, a: 5, b: 0, angle: 0 };
        let area_bytes = [0, 0x80, 0xD2, 0x93, 0xAD, 0x03, 0x80, 0xA4, 0xA7, 0xDA, 0x06, 5, 0, 0];
        let mut one = NO_PREFIX;
        (one.length, one.bytes[0]) = (5, 0x20);
        for (prefix, bytes) in [(one, &[5, 0x20][..]), (NO_PREFIX, &[0])] {
            let prefixes = PrefixList::of_one_or_none(prefix);
            let interface = InterfaceNumbers { kind: 3, flag: 1 };
            let pieces = old_enable_pieces(&StopSettings { area, prefixes, interface });
            assert_eq!(joined(&pieces), [&[2], &area_bytes[..], bytes, &[3, 1]].concat());
        }
    }
}
