//! What must be seen of whole days.

use crate::call::Call;
use crate::limits::{Limits, DAYLIST, DISPATCHLIST};
use crate::listing::Line;
use crate::read::read_record;
use crate::reply::Refusal;

/// A day, as `dispatchlist` lists it.
struct Day<'a> {
    input: &'a [u8],
    records: usize,
    /// Whether the last record that is listed is broken.
    broken: bool,
    /// Where the last record that is listed begins, if it is broken, and where it ends,
    /// if it is whole.
    offset: usize,
}

const LIMITS: Limits = DISPATCHLIST;

/// What is seen, and whether it is that of a day.
type Row = (&'static str, fn(&Day) -> bool);

const ROWS: [Row; 11] = [
    ("262,143 bytes, whole", |day| day.is_whole() && day.input.len() == LIMITS.most_input - 1),
    ("262,144 bytes, whole", |day| day.is_whole() && day.input.len() == LIMITS.most_input),
    ("more than 262,144 bytes, a record ends there", |day| {
        day.is_over() && !day.broken && !day.lists_the_most_records()
    }),
    ("more than 262,144 bytes, a record is cut there", |day| {
        day.is_over() && day.broken && read_record(day.input, day.offset).is_ok()
    }),
    ("14 at an offset of 65,536 or more", |day| day.broken && day.offset >= 65_536),
    ("65,536 records, whole", |day| day.is_whole() && day.lists_the_most_records()),
    ("65,536 records, and whole ones behind", |day| {
        day.ends_by_its_records() && read_record(day.input, day.offset).is_ok()
    }),
    ("65,536 records, and a broken one behind", |day| {
        day.ends_by_its_records() && read_record(day.input, day.offset).is_err()
    }),
    ("65,536 records, the last is broken", |day| day.broken && day.lists_the_most_records()),
    ("65,536 records in 262,144 bytes, and more behind", |day| {
        day.is_over() && !day.broken && day.lists_the_most_records()
    }),
    // `run-alike`.
    ("taken by daylist too, and listed alike", |day| both_take(day.input)),
];

impl Day<'_> {
    fn of<'a>(input: &'a [u8], lines: &[Line]) -> Day<'a> {
        let last = lines.last().map(|line| line.answer);
        let broken = last.filter(|answer| answer.reply == Refusal::RecordBroken.number());
        let offset = broken.map_or_else(|| end_of_records(input), |answer| answer.length);
        Day { input, records: lines.len(), broken: broken.is_some(), offset }
    }

    fn is_whole(&self) -> bool {
        !self.broken && self.offset == self.input.len()
    }

    fn is_over(&self) -> bool {
        let ends_at_the_limit = self.broken || self.offset == LIMITS.most_input;
        self.input.len() > LIMITS.most_input && ends_at_the_limit
    }

    fn lists_the_most_records(&self) -> bool {
        self.records == LIMITS.most_records
    }

    /// Whether there would be another line but for the number of records.
    fn ends_by_its_records(&self) -> bool {
        let more = LIMITS.up_to_the_limit(self.input).len() > self.offset;
        self.lists_the_most_records() && !self.broken && more
    }
}

/// Where the last whole record that is listed ends.
fn end_of_records(input: &[u8]) -> usize {
    let bytes = LIMITS.up_to_the_limit(input);
    let mut offset = 0;
    for _ in 0..LIMITS.most_records {
        let Ok((_, behind)) = read_record(bytes, offset) else { break };
        offset = behind;
    }
    offset
}

/// Whether `daylist` reads all of the day and refuses no start that `dispatchlist`
/// takes. Then the two list it alike (`run-alike`).
pub fn both_take(input: &[u8]) -> bool {
    let too_large_for_one = DAYLIST.largest_maximum + 1..=DISPATCHLIST.largest_maximum;
    let mut offset = 0;
    while let Ok((call, behind)) = read_record(input, offset) {
        match call {
            Call::Start(settings) if too_large_for_one.contains(&settings.maximum) => return false,
            _ => offset = behind,
        }
    }
    input.len() <= DAYLIST.most_input
}

/// How often each row was seen.
pub struct Counts([(Row, u64); ROWS.len()]);

impl Default for Counts {
    fn default() -> Counts {
        Counts(ROWS.map(|row| (row, 0)))
    }
}

impl Counts {
    pub fn add(&mut self, input: &[u8], lines: &[Line]) {
        let day = Day::of(input, lines);
        for ((_, is_that_of), count) in &mut self.0 {
            *count += u64::from(is_that_of(&day));
        }
    }

    pub fn rows(&self) -> Vec<(&'static str, u64)> {
        self.0.iter().map(|((name, _), count)| (*name, *count)).collect()
    }
}
