//! The days for `dispatchlist`: first those with thousands of stops, of bytes around
//! the most that are read and of records around the most that are listed; then those
//! with some hundred stops; and then the days for `daylist`.

use super::day::Day;
use super::random::Random;
use super::{records, sizes, thousands, wide};
use crate::limits::DISPATCHLIST;
use crate::table::LARGEST_MAXIMUM_OVER_A_RUN;

/// A full table is compared with each new stop, so that days of this sort take the
/// longest by far. There are few of them.
const OF_THOUSANDS: u64 = 6;
pub const LARGE: u64 = OF_THOUSANDS + sizes::WAYS + records::WAYS;
/// Those that are not days for `daylist` too.
pub const OWN_FILES: u64 = LARGE + 4 * wide::FILES_OF_A_ROUND;

/// The file of this number under this seed. Files from `OWN_FILES` on are those of
/// [`super::day_file`].
pub fn day_file(seed: u64, number: u64) -> Vec<u8> {
    // So that they share nothing with the days for daylist.
    let random = Random::for_file(!seed, number);
    match number {
        0..LARGE => large(random, number),
        LARGE..OWN_FILES => wide::day_file(random, number - LARGE),
        _ => super::day_file(seed, number - OWN_FILES),
    }
}

fn large(mut random: Random, number: u64) -> Vec<u8> {
    let last = LARGEST_MAXIMUM_OVER_A_RUN;
    match number {
        0 | 1 => thousands::full_table(random, last).into_bytes(),
        2 => thousands::full_table(random, last - 1).into_bytes(),
        3 => {
            let maximum = random.between(1_000, 3_000);
            thousands::full_table(random, maximum).into_bytes()
        }
        4 => thousands::mixed(random).into_bytes(),
        5 => thousands::long_packets(random).into_bytes(),
        _ if number < OF_THOUSANDS + sizes::WAYS => {
            let day = sizes::day_around_the_limit(Day::within(DISPATCHLIST, random, 2));
            sizes::met(day, number - OF_THOUSANDS)
        }
        _ => records::met(random, number - OF_THOUSANDS - sizes::WAYS),
    }
}
