//! What must be seen of records.

use super::{Between, First, Last, Record};
use crate::call::kind;
use crate::table::{DGVL, LARGEST_MAXIMUM_OVER_A_RUN};

/// The reply, what is seen besides, and whether it is that of a record with this reply.
type Row = (u8, &'static str, fn(&Record) -> bool);

/// `run-maximum`. The maximum alone decides.
const STARTS: &[Row] = &[
    (0, "maximum 2", |one| one.maximum() == Some(2)),
    (0, "maximum 65", |one| one.maximum() == Some(65)),
    (0, "maximum 66", |one| one.maximum() == Some(66)),
    (0, "maximum 67 to 4,091", |one| one.maximum().is_some_and(|one| (67..=4_091).contains(&one))),
    (0, "maximum 4,092", |one| one.maximum() == Some(4_092)),
    (0, "maximum 4,093", |one| one.maximum() == Some(4_093)),
    (1, "maximum 1", |one| one.maximum() == Some(1)),
    (1, "maximum 4,094", |one| one.maximum() == Some(4_094)),
    (1, "maximum above 4,094", |one| one.maximum() > Some(4_094)),
    (1, "maximum with the low 16 bits of a good one", |one| {
        one.maximum().is_some_and(|one| one >> 16 > 0 && (2..=4_093).contains(&(one & 0xFFFF)))
    }),
];

const ENABLES: &[Row] = &[
    (0, "at 66", |one| one.answer.link == Some(66)),
    (0, "at 256 or above", |one| one.answer.link >= Some(256)),
    (0, "at the maximum, 66", |one| one.takes_the_maximum() && one.maximum_is(66, 66)),
    (0, "at the maximum, 67 to 4,091", |one| one.takes_the_maximum() && one.maximum_is(67, 4_091)),
    (0, "at the maximum, 4,092", |one| one.takes_the_maximum() && one.maximum_is(4_092, 4_092)),
    (0, "at the maximum, 4,093", |one| one.takes_the_maximum() && one.maximum_is(4_093, 4_093)),
    (6, "maximum 66", |one| one.maximum_is(66, 66)),
    (6, "maximum 67 to 4,091", |one| one.maximum_is(67, 4_091)),
    (6, "maximum 4,092", |one| one.maximum_is(4_092, 4_092)),
    (6, "maximum 4,093", |one| one.maximum_is(4_093, 4_093)),
    // `link-lowest-index`, `slip-count`.
    (0, "at the first index of thousands", |one| one.place() == Some(First)),
    (0, "at the lowest of several unused, above 1,000", |one| {
        one.answer.link > Some(1_000) && one.takes_the_lowest_of_several()
    }),
    (0, "area of a disabled one of thousands", |one| one.has_area_of_a_disabled()),
    (0, "prefix of a disabled one of thousands", |one| one.has_prefix_of_a_disabled()),
];

const OLD_ENABLES: &[Row] = &[
    (0, "at 256 or above", |one| one.answer.link >= Some(256)),
    (6, "maximum 4,093", |one| one.maximum_is(4_093, 4_093)),
];

/// Enables of both kinds.
const REFUSED_ENABLES: &[Row] = &[
    (4, "by the first of thousands", |one| one.place_of_area() == Some(First)),
    (4, "by one between thousands", |one| one.place_of_area() == Some(Between)),
    (4, "by the last of thousands", |one| one.place_of_area() == Some(Last)),
    (4, "by the last, an index unused before it", |one| {
        one.place_of_area() == Some(Last) && one.has_gap_before_the_last()
    }),
    (4, "by the last, the prefix overlaps the first's", |one| {
        one.place_of_area() == Some(Last) && one.place_of_prefix() == Some(First)
    }),
    (4, "by the first, the prefix overlaps the last's", |one| {
        one.place_of_area() == Some(First) && one.place_of_prefix() == Some(Last)
    }),
    (5, "by the first of thousands", |one| one.place_of_prefix() == Some(First)),
    (5, "by one between thousands", |one| one.place_of_prefix() == Some(Between)),
    (5, "by the last of thousands", |one| one.place_of_prefix() == Some(Last)),
    (5, "by the last, an index unused before it", |one| {
        one.place_of_prefix() == Some(Last) && one.has_gap_before_the_last()
    }),
];

/// `slip-first-prefix`.
const ENABLES_OF_SEVERAL: &[Row] = &[
    (4, "by the last, 2nd prefix by the first's 2nd", |one| {
        one.place_of_area() == Some(Last) && one.place_of_second() == Some(First)
    }),
    (4, "by the first, 2nd prefix by the last's 2nd", |one| {
        one.place_of_area() == Some(First) && one.place_of_second() == Some(Last)
    }),
    (5, "2nd prefix by the 2nd of the first of thousands", |one| {
        one.place_of_second() == Some(First)
    }),
    (5, "2nd prefix by the 2nd of one between thousands", |one| {
        one.place_of_second() == Some(Between)
    }),
    (5, "2nd prefix by the 2nd of the last of thousands", |one| {
        one.place_of_second() == Some(Last)
    }),
];

const INDICATIONS: &[Row] = &[
    (0, "area of the first of thousands", |one| one.goes_to(Some(First))),
    (0, "area of one between thousands", |one| one.goes_to(Some(Between))),
    (0, "area of the last of thousands", |one| one.goes_to(Some(Last))),
    (0, "area of none of thousands", |one| one.goes_to(None)),
    (0, "area of the last, an index unused before it", |one| {
        one.goes_to(Some(Last)) && one.has_gap_before_the_last()
    }),
    (0, "area of a disabled one of thousands", |one| {
        one.goes_to(None) && one.has_area_of_a_disabled()
    }),
    (0, "destination of the first of thousands", |one| one.goes_by(Some(First), None)),
    (0, "destination of one between thousands", |one| one.goes_by(Some(Between), None)),
    (0, "destination of the last of thousands", |one| one.goes_by(Some(Last), None)),
    (0, "destination of the last, an index unused before it", |one| {
        one.goes_by(Some(Last), None) && one.has_gap_before_the_last()
    }),
    (0, "destination of a disabled one of thousands", |one| one.has_address_of_a_disabled(0)),
    (0, "source of the first of thousands", |one| one.goes_by(None, Some(First))),
    (0, "source of one between thousands", |one| one.goes_by(None, Some(Between))),
    (0, "source of the last of thousands", |one| one.goes_by(None, Some(Last))),
    (0, "source of the last, an index unused before it", |one| {
        one.goes_by(None, Some(Last)) && one.has_gap_before_the_last()
    }),
    (0, "source of a disabled one of thousands", |one| one.has_address_of_a_disabled(1)),
    (0, "destination of the last, source of the first", |one| one.goes_by(Some(Last), Some(First))),
    (0, "destination of the first, source of the last", |one| one.goes_by(Some(First), Some(Last))),
    (0, "addresses of none of thousands", |one| {
        one.goes_by(None, None) && one.answer.link == Some(DGVL)
    }),
    (9, "packet of 65,536 bytes or more", |one| one.packet_length() >= 65_536),
];

/// `slip-first-prefix`.
const INDICATIONS_FOR_SEVERAL: &[Row] = &[
    (0, "destination in the 2nd of the first of thousands", |one| {
        one.goes_by(Some(First), None) && one.is_held_by_second(0)
    }),
    (0, "destination in the 2nd of one between thousands", |one| {
        one.goes_by(Some(Between), None) && one.is_held_by_second(0)
    }),
    (0, "destination in the 2nd of the last of thousands", |one| {
        one.goes_by(Some(Last), None) && one.is_held_by_second(0)
    }),
    (0, "source in the 2nd of the first of thousands", |one| {
        one.goes_by(None, Some(First)) && one.is_held_by_second(1)
    }),
    (0, "source in the 2nd of one between thousands", |one| {
        one.goes_by(None, Some(Between)) && one.is_held_by_second(1)
    }),
    (0, "source in the 2nd of the last of thousands", |one| {
        one.goes_by(None, Some(Last)) && one.is_held_by_second(1)
    }),
    (0, "destination in the 2nd of the last, source of the first", |one| {
        one.goes_by(Some(Last), Some(First)) && one.is_held_by_second(0)
    }),
];

/// Disables and requests of both kinds.
const AT_AN_INDEX: &[Row] = &[
    (0, "the first of thousands", |one| one.place() == Some(First)),
    (0, "one between thousands", |one| one.place() == Some(Between)),
    (0, "the last of thousands", |one| one.place() == Some(Last)),
    (7, "a disabled one of thousands", |one| {
        one.thousands().is_some_and(|table| one.index() <= Some(table.maximum))
    }),
    (7, "one above the maximum of thousands", |one| {
        one.thousands().is_some_and(|table| one.index() == Some(table.maximum + 1))
    }),
    (7, "above the maximum, up to 4,093", |one| {
        one.table.is_some_and(|table| one.index() > Some(table.maximum))
            && one.index() <= Some(LARGEST_MAXIMUM_OVER_A_RUN)
    }),
    (7, "4,094, of thousands", |one| one.thousands().is_some() && one.index() == Some(4_094)),
    (7, "the low 12 bits of an enabled one", |one| one.has_low_bits_of_an_enabled(12)),
    (7, "the low 16 bits of an enabled one", |one| one.has_low_bits_of_an_enabled(16)),
];

const REQUESTS: &[Row] =
    &[(9, "packet of 65,536 bytes or more", |one| one.packet_length() >= 65_536)];

/// The rows of each kind of record.
const OF_KINDS: [(u64, &[Row]); 13] = [
    (kind::START, STARTS),
    (kind::OLD_ENABLE, OLD_ENABLES),
    (kind::OLD_ENABLE, REFUSED_ENABLES),
    (kind::DISABLE, AT_AN_INDEX),
    (kind::INDICATION, INDICATIONS),
    (kind::INDICATION, INDICATIONS_FOR_SEVERAL),
    (kind::OLD_REQUEST, AT_AN_INDEX),
    (kind::OLD_REQUEST, REQUESTS),
    (kind::REQUEST, AT_AN_INDEX),
    (kind::REQUEST, REQUESTS),
    (kind::ENABLE, ENABLES),
    (kind::ENABLE, REFUSED_ENABLES),
    (kind::ENABLE, ENABLES_OF_SEVERAL),
];

/// How often each row was seen.
pub struct Counts(Vec<(u64, Row, u64)>);

impl Default for Counts {
    fn default() -> Counts {
        let rows_of =
            |(kind, rows): (u64, &'static [Row])| rows.iter().map(move |&row| (kind, row, 0));
        Counts(OF_KINDS.into_iter().flat_map(rows_of).collect())
    }
}

impl Counts {
    pub fn add(&mut self, kind: u64, record: &Record) {
        for (of_kind, (reply, _, is_that_of), count) in &mut self.0 {
            let asked = (*of_kind, *reply) == (kind, record.answer.reply);
            *count += u64::from(asked && is_that_of(record));
        }
    }

    pub fn rows(&self) -> Vec<(u64, String, u64)> {
        let rows = self.0.iter();
        rows.map(|(kind, (reply, name, _), count)| (*kind, format!("{reply} {name}"), *count))
            .collect()
    }
}
