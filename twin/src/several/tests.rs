use super::*;
use crate::area::Area;
use crate::arriving::Indication;
use crate::call::{Destination, GEO_UNICAST};
use crate::generate::enables::old_enable_pieces;
use crate::limits::DAYLIST;
use crate::link::InterfaceNumbers;
use crate::listing::lines;
use crate::prefix::{Prefix, NO_PREFIX};
use crate::prefix_list::PrefixList;
use crate::table::{StartSettings, StopSettings};
use crate::write::{joined, record_bytes};

const LAN: InterfaceNumbers = InterfaceNumbers { kind: 1, flag: 1 };

/// xx00::/8 and so on, of this first byte and length.
const fn prefix(first: u8, length: u64) -> Prefix {
    let mut bytes = [0; 16];
    bytes[0] = first;
    Prefix { length, bytes }
}

const A: Prefix = prefix(0x20, 8);
const B: Prefix = prefix(0x24, 8);
const C: Prefix = prefix(0x28, 8);
const D: Prefix = prefix(0x2C, 8);
const E: Prefix = prefix(0x30, 8);

/// A day in the making. Each stop has an area of its own.
struct Day(Vec<u8>);

impl Day {
    fn new() -> Day {
        let start = StartSettings { own_mid: 1, maximum: 65, tvl: LAN, dgvl: LAN };
        Day(record_bytes(&Call::Start(start)).unwrap())
    }

    fn settings(&self, prefixes: &[Prefix]) -> StopSettings {
        let latitude = self.0.len() as i128;
        let area = Area { shape: 0, latitude, longitude: 0, a: 1, b: 0, angle: 0 };
        StopSettings { area, prefixes: PrefixList::of(prefixes), interface: LAN }
    }

    fn enable(mut self, prefixes: &[Prefix]) -> Day {
        self.0.extend(record_bytes(&Call::Enable(self.settings(prefixes))).unwrap());
        self
    }

    fn old_enable(mut self, prefixes: &[Prefix]) -> Day {
        self.0.extend(joined(&old_enable_pieces(&self.settings(prefixes))));
        self
    }

    fn disable(mut self, index: u8) -> Day {
        self.0.extend([3, index]);
        self
    }

    /// To an address with the first byte `to`, from one with `from`.
    fn arrive(mut self, to: u8, from: u8) -> Day {
        let mut packet = vec![0; 40];
        (packet[0], packet[8], packet[24]) = (0x60, from, to);
        (packet[23], packet[39]) = (9, 9);
        let (destination, packet) = (Destination::Mid(1), &packet);
        let transport = GEO_UNICAST;
        let call =
            Call::Indication(Indication { transport, source: 2, class: 0, destination, packet });
        self.0.extend(record_bytes(&call).unwrap());
        self
    }

    /// The names of all that is seen of records of this kind.
    fn seen(&self, wanted: u64) -> Vec<String> {
        let mut counts = Counts::default();
        counts.add(DAYLIST, &self.0, &lines(DAYLIST, &self.0));
        let rows =
            counts.rows().into_iter().filter(|&(kind, _, count)| kind == wanted && count > 0);
        rows.map(|(_, name, _)| name.to_string()).collect()
    }
}

/// The names of what a second enable of kind 9 shows, beside a stop with all but E.
fn seen_of_second(prefixes: &[Prefix]) -> Vec<String> {
    let mut seen = Day::new().enable(&[A, B, C, D]).enable(prefixes).seen(kind::ENABLE);
    seen.retain(|name| name != "0 count 4");
    seen
}

#[test]
fn counts_that_are_enabled() {
    let seen = Day::new().enable(&[]).enable(&[A]).enable(&[B, C]).enable(&[]).seen(kind::ENABLE);
    assert_eq!(seen, ["0 count 0", "0 count 1", "0 count 2", "0 no prefix, as another stop"]);
    let seen = Day::new().old_enable(&[]).old_enable(&[A]).seen(kind::OLD_ENABLE);
    assert_eq!(seen, ["0 no prefix", "0 one prefix"]);
}

#[test]
fn causes_of_3() {
    let reserved = prefix(0xFF, 8);
    let past = prefix(0x31, 7);
    for (list, names) in [
        (&[NO_PREFIX][..], &["3 length 0 alone"][..]),
        (&[E, NO_PREFIX], &["3 length 0 behind a good one"]),
        (&[NO_PREFIX, E], &["3 length 0 before a good one"]),
        (&[E, NO_PREFIX, E], &["3 length 0, two others overlap"]),
        (&[A, B, NO_PREFIX, C], &["3 length 0 at the 3rd of four"]),
        (&[reserved, B, C, E], &["3 reserved block at the 1st of four"]),
        (&[A, B, C, past], &["3 bit past the length at the 4th of four"]),
        (&[reserved, past, C, E], &[]),
    ] {
        assert_eq!(seen_of_second(list), names, "{list:?}");
    }
}

#[test]
fn causes_of_5() {
    let (inside, around) = (prefix(0x30, 9), prefix(0x30, 7));
    for (list, names) in [
        (&[E, E][..], &["5 within the call: 1st and 2nd equal"][..]),
        (&[prefix(0x34, 8), E, prefix(0x38, 8), inside], &["5 within the call: 4th inside 2nd"]),
        (&[prefix(0x34, 8), E, around], &["5 within the call: 2nd inside 3rd"]),
        (&[A], &["5 1st overlaps a stop's 1st"]),
        (&[E, D], &["5 2nd overlaps a stop's 4th"]),
        (&[E, prefix(0x34, 8), prefix(0x28, 9)], &["5 3rd overlaps a stop's 3rd"]),
        // More than one pair.
        (&[A, B], &[]),
        (&[E, E, E], &[]),
        (&[E, E, A], &[]),
        (&[prefix(0x20, 4)], &[]),
    ] {
        assert_eq!(seen_of_second(list), names, "{list:?}");
    }
}

#[test]
fn prefixes_side_by_side() {
    let (left, right) = (prefix(0x30, 8), prefix(0x31, 8));
    let seen = Day::new().enable(&[left, right]).seen(kind::ENABLE);
    assert_eq!(seen, ["0 count 2", "0 two of the list differ in the last bit alone"]);
    let seen = Day::new().enable(&[left]).enable(&[right]).seen(kind::ENABLE);
    assert_eq!(seen, ["0 count 1", "0 one differs from a stop's in the last bit alone"]);
}

#[test]
fn a_disabled_stops_prefixes() {
    let day = || Day::new().enable(&[A, B]).disable(2);
    let reordered = "0 a disabled stop's several, in another order";
    assert_eq!(day().enable(&[A, B]).seen(kind::ENABLE), ["0 count 2"]);
    assert_eq!(day().enable(&[B, A]).seen(kind::ENABLE), ["0 count 2", reordered]);
    let elsewhere = "0 a disabled stop's several, in another order and at another index";
    let seen = day().enable(&[C]).enable(&[B, A]).seen(kind::ENABLE);
    assert_eq!(seen, ["0 count 1", "0 count 2", reordered, elsewhere]);
    let seen =
        day().arrive(0x24, 0x50).arrive(0x50, 0x24).arrive(0x20, 0x50).seen(kind::INDICATION);
    let to = "0 to the 2nd or a later one of a disabled stop";
    assert_eq!(seen, [to, "0 from the 2nd or a later one of a disabled stop"]);
}

#[test]
fn kinds_2_and_9_side_by_side() {
    let beside = "0 beside a stop by the other kind of enable";
    let by = "5 by a stop by the other kind of enable";
    let day = || Day::new().enable(&[A, B]).old_enable(&[C]);
    assert_eq!(day().seen(kind::OLD_ENABLE), ["0 one prefix", beside]);
    let seen = day().old_enable(&[B]).seen(kind::OLD_ENABLE);
    assert_eq!(seen, ["0 one prefix", "5 overlaps a stop's 2nd", beside, by]);
    let seen = day().enable(&[D, C]).enable(&[E]).seen(kind::ENABLE);
    assert_eq!(seen, ["0 count 1", "0 count 2", beside, "5 2nd overlaps a stop's 1st", by]);
}

#[test]
fn what_arrives() {
    let nobody = 0x50;
    for (to, from, names) in [
        (0x20, nobody, &["0 to a stop's 1st"][..]),
        (nobody, 0x28, &["0 from a stop's 3rd"]),
        (0x34, nobody, &["0 to a stop's 2nd", "0 to the 2nd of two operators"]),
        (nobody, 0x30, &["0 from a stop's 1st", "0 from the 1st of two operators"]),
        (0x34, 0x20, &["0 to a stop's 2nd, from an earlier stop's 1st"]),
        (0x28, 0x34, &["0 to a stop's 3rd, from a later stop's 2nd"]),
        (0x20, 0x24, &["0 to and from two prefixes of one stop"]),
        (0x20, 0x20, &[]),
        (0x25, nobody, &["0 one bit beside a stop's 2nd"]),
        (nobody, nobody, &[]),
    ] {
        let day = Day::new().enable(&[A, B, C]).enable(&[E, prefix(0x34, 8)]).arrive(to, from);
        assert_eq!(day.seen(kind::INDICATION), names, "{to:x} {from:x}");
    }
}

#[test]
fn what_breaks_a_list() {
    let area = [9, 0, 0, 0, 1, 0, 0];
    for (list, name) in [
        (&[][..], Some("14 cut in the count")),
        (&[0x84], Some("14 cut in the count")),
        (&[0x84, 0], Some("14 count no number")),
        (&[5], Some("14 count 5")),
        (&[0x80, 1, 1], Some("14 count 6 to 255")),
        (&[0x84, 2, 1], Some("14 count above 255")),
        (&[2], Some("14 cut in the 1st length")),
        (&[2, 8], Some("14 cut in the 1st prefix's bytes")),
        (&[2, 8, 0x20], Some("14 cut in the 2nd length")),
        (&[2, 8, 0x20, 16, 0x20], Some("14 cut in the 2nd prefix's bytes")),
        (&[2, 8, 0x20, 0x81, 1], Some("14 2nd length above 128")),
        (&[2, 8, 0x20, 0x81, 0], Some("14 a length no number")),
        (&[1, 0], Some("14 cut behind the prefixes")),
        (&[1, 0, 1], Some("14 cut behind the prefixes")),
        (&[1, 0, 0x81, 0], None),
    ] {
        let record = [&area[..], list].concat();
        assert_eq!(broken::name_of(&record).as_deref(), name, "{list:?}");
        let mut day = Day::new();
        day.0.extend(&record);
        assert_eq!(day.seen(kind::ENABLE), name.into_iter().collect::<Vec<_>>());
    }
    assert_eq!(broken::name_of(&[9, 0, 0x80]), None, "before the list");
}

#[test]
fn no_situation_is_wanted_twice() {
    let (mut names, all) = (wanted(), wanted().len());
    names.sort();
    names.dedup();
    assert_eq!(names.len(), all);
}
