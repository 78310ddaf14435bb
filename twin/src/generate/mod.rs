//! The seeded generator of day files. The number of a file decides its theme,
//! so that every theme comes up in each round of files. Damaged days have a large
//! share, since each of them can be broken in one place only. Those with a start of
//! kind 2 have a small one, since behind it all is 16 up to the next start.

pub mod areas;
pub mod city;
pub mod compared;
pub mod damage;
pub mod day;
pub mod dispatch;
pub mod enables;
pub mod faults;
pub mod hops;
pub mod joined;
pub mod lists;
pub mod near;
pub mod noise;
pub mod packets;
pub mod prefixes;
pub mod random;
pub mod records;
pub mod requests;
pub mod several;
pub mod sizes;
pub mod starts;
pub mod themes;
pub mod thousands;
pub mod values;
pub mod wide;
pub mod winter;

use crate::table::LARGEST_MAXIMUM;
use random::Random;

/// An odd number: `compare` can feed every second file in pieces, and so each theme
/// comes in pieces in every second round.
pub const FILES_OF_A_ROUND: u64 = 37;
const _: () = assert!(FILES_OF_A_ROUND % 2 == 1);

/// The file of this number under this seed.
pub fn day_file(seed: u64, number: u64) -> Vec<u8> {
    let mut random = Random::for_file(seed, number);
    match number % FILES_OF_A_ROUND {
        0 => {
            let maximum = random.between(2, 8);
            themes::full_table(random, maximum).into_bytes()
        }
        1 => themes::full_table(random, LARGEST_MAXIMUM).into_bytes(),
        2 => themes::near_areas(random).into_bytes(),
        3 => compared::joined_areas(random).into_bytes(),
        4 => compared::near_misses(random).into_bytes(),
        5 | 6 => themes::prefix_lengths(random).into_bytes(),
        7 | 8 => themes::packet_bounds(random).into_bytes(),
        9 => themes::requests(random).into_bytes(),
        10 => themes::out_of_range(random).into_bytes(),
        11 => starts::starts(random).into_bytes(),
        12 => winter::last_winter(random).into_bytes(),
        13 | 14 => themes::mixed(random).into_bytes(),
        15 | 16 => faults::several_faults(random).into_bytes(),
        17 => hops::next_hops(random).into_bytes(),
        18 => several::lists_of_prefixes(random).into_bytes(),
        19 => several::operators(random).into_bytes(),
        20..=28 => damage::damaged(random),
        place @ 29..=31 => {
            let way = number / FILES_OF_A_ROUND * 3 + place - 29;
            damage::damaged_in_list(random, way)
        }
        32 => noise::bytes_changed(random),
        33 => noise::cut_or_shifted(random),
        34 => noise::formless(random),
        _ => sizes::around_the_limit(random),
    }
}
