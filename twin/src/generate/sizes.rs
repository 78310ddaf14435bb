//! Days whose size lies around the most bytes that are read.

use super::day::{Day, Weights};
use super::random::Random;
use crate::call::{kind, Call};

/// One of the ways a day for `daylist` can meet the limit.
pub fn around_the_limit(random: Random) -> Vec<u8> {
    let mut day = day_around_the_limit(Day::new(random, 2));
    let way = day.random.below(WAYS);
    met(day, way)
}

/// A started day, for [`met`].
pub fn day_around_the_limit(mut day: Day) -> Day {
    day.long = 15;
    let maximum = day.maximum(0);
    day.good_start(maximum);
    day
}

/// In how many ways a day can meet the limit.
pub const WAYS: u64 = 8;

/// The day filled up so that it meets the limit in this way.
pub fn met(mut day: Day, way: u64) -> Vec<u8> {
    let most = day.limits().most_input;
    match way {
        0 => fill_to(&mut day, most - 1),
        1 => fill_to(&mut day, most),
        2 => {
            // The last record ends one byte past the limit.
            fill_to(&mut day, most - 1);
            day.add(&Call::Disable(7));
        }
        3 => more_behind_the_limit(&mut day),
        4 => return broken_behind_the_limit(day),
        5 => cut_by_the_limit(&mut day),
        6 => return number_cut_by_the_limit(day),
        _ => fill_to(&mut day, 3 * most),
    }
    day.into_bytes()
}

const AMONG_ALL: Weights = [1, 8, 10, 5, 5, 60, 25, 40, 12];

/// Whole records up to exactly this size.
fn fill_to(day: &mut Day, size: usize) {
    // No record of this day is longer than 2,100 bytes.
    while day.bytes().len() + 2_100 < size {
        day.any_records(1, &AMONG_ALL);
    }
    day.long = 0;
    while day.bytes().len() + 150 < size {
        day.any_records(1, &AMONG_ALL);
    }
    while day.bytes().len() < size {
        // A disable of two bytes, or of three for an odd rest.
        let odd = (size - day.bytes().len()) % 2 == 1;
        let index = if odd { day.random.between(128, 16_383) } else { day.random.below(128) };
        day.add(&Call::Disable(index));
    }
}

fn more_behind_the_limit(day: &mut Day) {
    fill_to(day, day.limits().most_input);
    let count = day.random.between(1, 60);
    day.any_records(count, &[1; 9]);
}

/// Nothing behind the limit is read, so nothing there is broken either.
fn broken_behind_the_limit(mut day: Day) -> Vec<u8> {
    let most = day.limits().most_input;
    fill_to(&mut day, most);
    let count = day.random.pick(&[1, 2, 1_000, 70_000]);
    let byte = day.random.pick(&[0x00, 0x03, 0x80, 0xFF]);
    let mut bytes = day.into_bytes();
    bytes.resize(most + count, byte);
    bytes
}

/// A record that begins before the limit and ends behind it.
fn cut_by_the_limit(day: &mut Day) {
    let before = day.random.between(2, 39) as usize;
    fill_to(day, day.limits().most_input - before);
    // With a packet of 40 bytes or more each of them is longer than that.
    day.bad = 0;
    let kind = day.random.pick(&[kind::INDICATION, kind::OLD_REQUEST, kind::REQUEST]);
    day.any_of_kind(kind);
    let count = day.random.below(5);
    day.any_records(count, &[1; 9]);
}

/// The limit cuts a number that would go on behind it.
fn number_cut_by_the_limit(mut day: Day) -> Vec<u8> {
    let most = day.limits().most_input;
    let before = day.random.between(2, 10) as usize;
    fill_to(&mut day, most - before);
    day.add(&Call::OwnMid(u64::MAX));
    day.add(&Call::OwnMid(1));
    day.into_bytes()
}

#[cfg(test)]
mod tests {
    use super::*;
    use crate::limits::{Limits, DAYLIST, DISPATCHLIST};
    use crate::listing::lines;

    fn day(limits: Limits, seed: u64) -> Day {
        Day::within(limits, Random::new(seed), 2)
    }

    #[test]
    fn fills_to_the_very_byte() {
        for limits in [DAYLIST, DISPATCHLIST] {
            let most = limits.most_input;
            for size in [most - 39, most - 1, most, most + 1] {
                let mut day = day(limits, size as u64);
                fill_to(&mut day, size);
                assert_eq!(day.bytes().len(), size);
            }
        }
    }

    #[test]
    fn records_cut_by_the_limit_are_broken() {
        for limits in [DAYLIST, DISPATCHLIST] {
            for seed in 0..10 {
                for way in [2, 5, 6] {
                    let bytes = met(day_around_the_limit(day(limits, seed)), way);
                    assert_eq!(lines(limits, &bytes).last().unwrap().answer.reply, 14);
                }
            }
        }
    }
}
