//! Days with a table of some hundred stops: more than `daylist` takes, and soon listed.

use super::city::City;
use super::day::Day;
use super::random::Random;
use super::starts::{refused_starts, retired, ALL_BUT_STARTS, AMONG_SECOND_STARTS};
use super::themes::ALL_CALLS;
use super::thousands::{enable, enable_until_full, full_table, indices_above, look_around, start};
use super::{damage, faults, hops, several};
use crate::call::{kind, Call};
use crate::limits::DISPATCHLIST;
use crate::listing::RecordKind;

/// An odd number, as that of the other days' rounds.
pub const FILES_OF_A_ROUND: u64 = 21;
const _: () = assert!(FILES_OF_A_ROUND % 2 == 1);

/// Where a table gets larger than one by value, and where the indices get larger than
/// seven or eight bits.
const MAXIMA: [u64; 12] = [66, 67, 68, 126, 127, 128, 129, 254, 255, 256, 257, 258];

/// The day of this number.
pub fn day_file(mut random: Random, number: u64) -> Vec<u8> {
    let maximum = any_maximum(&mut random);
    match number % FILES_OF_A_ROUND {
        0 => full_table(random, 66).into_bytes(),
        1 => full_table(random, 65).into_bytes(),
        2 => full_table(random, maximum).into_bytes(),
        3 => smallest_table(random).into_bytes(),
        4 => starts(random, maximum).into_bytes(),
        5 => any_calls(random, maximum, 3).into_bytes(),
        6 => any_calls(random, maximum, 25).into_bytes(),
        7 => several_faults(random, maximum).into_bytes(),
        8 => next_hops(random, maximum).into_bytes(),
        9 => several_prefixes(random, maximum).into_bytes(),
        place => damaged(random, maximum, BROKEN[(place - 10) as usize]),
    }
}

/// What a broken record can show of its kind.
const BROKEN: [RecordKind; 11] = [
    RecordKind::Known(kind::START),
    RecordKind::Known(kind::OLD_ENABLE),
    RecordKind::Known(kind::DISABLE),
    RecordKind::Known(kind::DGVL_AREA),
    RecordKind::Known(kind::OWN_MID),
    RecordKind::Known(kind::INDICATION),
    RecordKind::Known(kind::OLD_REQUEST),
    RecordKind::Known(kind::REQUEST),
    RecordKind::Known(kind::ENABLE),
    RecordKind::Unknown,
    RecordKind::Unreadable,
];

fn any_maximum(random: &mut Random) -> u64 {
    match random.percent(60) {
        true => random.pick(&MAXIMA),
        false => random.between(66, 300),
    }
}

/// A table in which some indices are unused.
fn started(random: Random, maximum: u64) -> (Day, City) {
    let mut day = Day::within(DISPATCHLIST, random, 0);
    let mut city = City::new(&mut day.random);
    start(&mut day, maximum);
    day.enable_each_interface();
    enable(&mut day, &mut city, maximum - 6);
    for _ in 0..5 {
        day.disable_one();
    }
    (day, city)
}

/// `edge-maximum`, `edge-full`: 0 and 1 are refused, and 2 has room for one stop.
fn smallest_table(random: Random) -> Day {
    let mut day = Day::within(DISPATCHLIST, random, 0);
    let mut city = City::new(&mut day.random);
    day.good_start(0);
    day.good_start(1);
    start(&mut day, 2);
    enable_until_full(&mut day, &mut city);
    look_around(&mut day, &city);
    indices_above(&mut day);
    day.any_records(30, &ALL_CALLS);
    day
}

/// Each kind of record before the start, refused starts, and second starts.
fn starts(random: Random, maximum: u64) -> Day {
    let mut day = Day::within(DISPATCHLIST, random, 20);
    for kind in kind::OLD_ENABLE..=kind::LAST {
        day.any_of_kind(kind);
    }
    let largest = day.limits().largest_maximum;
    let retired = retired(&mut day.random, largest);
    day.add(&Call::Start(retired));
    refused_starts(&mut day);
    // One of them may have been good.
    if day.table().is_none() {
        start(&mut day, maximum);
    }
    day.any_records(60, &AMONG_SECOND_STARTS);
    day.any_records(20, &ALL_BUT_STARTS);
    day
}

fn any_calls(random: Random, maximum: u64, bad: u64) -> Day {
    let (mut day, city) = started(random, maximum);
    day.bad = bad;
    day.any_records(200, &ALL_CALLS);
    day.bad = 0;
    look_around(&mut day, &city);
    indices_above(&mut day);
    day
}

/// Records with several faults, in a table with unused indices and in a full one. The
/// DGVL has no area, as 11 needs it.
fn several_faults(random: Random, maximum: u64) -> Day {
    let (mut day, mut city) = started(random, maximum);
    for _ in 0..25 {
        faults::add_one_of_each(&mut day);
    }
    enable_until_full(&mut day, &mut city);
    for _ in 0..25 {
        faults::add_one_of_each(&mut day);
    }
    day
}

/// Requests with each sort of next hop on fixed links, on the last stops, and above.
fn next_hops(random: Random, maximum: u64) -> Day {
    let (mut day, mut city) = started(random, maximum);
    enable_until_full(&mut day, &mut city);
    for index in [0, 1, 2, maximum - 2, maximum - 1, maximum, maximum + 1] {
        hops::request_with_each(&mut day, index);
    }
    day
}

/// Stops with several prefixes where the rest of the table is behind them and before.
fn several_prefixes(random: Random, maximum: u64) -> Day {
    let (mut day, _) = started(random, maximum);
    for _ in 0..several::ROOM {
        day.disable_one();
    }
    several::show_lists(&mut day);
    for _ in 0..several::ROOM {
        day.disable_one();
    }
    several::show_arrivals(&mut day);
    day
}

fn damaged(mut random: Random, maximum: u64, broken: RecordKind) -> Vec<u8> {
    let day = any_calls(Random::new(random.number()), maximum, 3);
    damage::damaged_in_kind(&mut random, &day, broken)
}

#[cfg(test)]
mod tests {
    use super::*;
    use crate::listing::lines;

    #[test]
    fn damaged_days_end_with_14_of_their_kind() {
        for (seed, broken) in BROKEN.into_iter().enumerate() {
            let bytes = damaged(Random::new(seed as u64), 70, broken);
            let last = lines(DISPATCHLIST, &bytes).into_iter().last().unwrap();
            assert_eq!((last.kind, last.answer.reply), (broken, 14));
        }
    }
}
