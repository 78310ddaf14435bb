//! Enables of kind 9 that are broken in their list of prefixes (`record-broken`, 2, 5
//! and 7), one for each way in which they can be.

use super::{encoded, overlong, too_large, BrokenRecord};
use crate::call::Call;
use crate::generate::enables::PLACE_OF_COUNT;
use crate::generate::random::Random;
use crate::generate::{areas, lists, values};
use crate::numbers::{number_bytes, read_number};
use crate::prefix_list::{PrefixList, MOST_PREFIXES};
use crate::table::StopSettings;
use crate::write::record_pieces;

/// Ways that have nothing to do with one place of the list.
const OF_THE_LIST: u64 = 7;
/// Ways of one place.
const OF_A_PLACE: u64 = 3;
pub const WAYS: u64 = OF_THE_LIST + OF_A_PLACE * MOST_PREFIXES as u64;

/// The numbers and plain bytes of a record.
type Parts = Vec<Vec<u8>>;

/// A record with four prefixes that is broken in the way of this number. Behind the last
/// way comes the first again.
pub fn broken(random: &mut Random, way: u64) -> BrokenRecord {
    let parts = parts(random);
    let any_length = place_of_length(random.below(MOST_PREFIXES as u64));
    match way % WAYS {
        0 => with_five(parts),
        1 => {
            let count = random.pick(&[6, 7, 8, 127, 128, 255]);
            with(parts, PLACE_OF_COUNT, number_bytes(count))
        }
        2 => {
            let (narrow, bits) = (random.below(5), random.pick(&[8, 16, 32, 63]));
            with(parts, PLACE_OF_COUNT, number_bytes(narrow + (1 << bits)))
        }
        3 => with_no_number(random, parts, PLACE_OF_COUNT),
        4 => with_no_number(random, parts, any_length),
        5 => cut_in_number(random, parts, PLACE_OF_COUNT),
        6 => {
            // In the link's kind or flag.
            let place = parts.len() - random.between(1, 2) as usize;
            cut_in_number(random, parts, place)
        }
        way => broken_at_a_place(random, parts, way - OF_THE_LIST),
    }
}

fn broken_at_a_place(random: &mut Random, parts: Parts, way: u64) -> BrokenRecord {
    let length = place_of_length(way / OF_A_PLACE);
    match way % OF_A_PLACE {
        0 => {
            let above = random.pick(&[129, 130, 136, 255, 256, 320, 1 << 32, u64::MAX]);
            with(parts, length, number_bytes(above))
        }
        1 => cut_in_number(random, parts, length),
        _ => cut_in_bytes(random, parts, length + 1),
    }
}

/// Behind each length stand the prefix's bytes.
fn place_of_length(place: u64) -> usize {
    PLACE_OF_COUNT + 1 + 2 * place as usize
}

/// Of a whole record with four prefixes.
fn parts(random: &mut Random) -> Parts {
    let area = areas::fresh(random);
    let prefixes = PrefixList::of(&lists::apart(random, &[], MOST_PREFIXES));
    let interface = values::interface(random, 0);
    let call = Call::Enable(StopSettings { area, prefixes, interface });
    encoded(&record_pieces(&call).expect("a list of four has a form"))
}

fn with(mut parts: Parts, place: usize, part: Vec<u8>) -> BrokenRecord {
    parts[place] = part;
    BrokenRecord { bytes: parts.concat(), must_be_last: false }
}

/// Whole but for the count: five prefixes follow, the last of them twice.
fn with_five(mut parts: Parts) -> BrokenRecord {
    let (last, behind) = (place_of_length(3), place_of_length(4));
    let again = parts[last..behind].to_vec();
    parts.splice(behind..behind, again);
    with(parts, PLACE_OF_COUNT, number_bytes(5))
}

fn with_no_number(random: &mut Random, parts: Parts, place: usize) -> BrokenRecord {
    let number = read_number(&parts[place]).expect("a number stands there").0;
    let wrong = match random.percent(50) {
        true => overlong(random, number),
        false => too_large(random, number),
    };
    with(parts, place, wrong)
}

/// The end of the file stands before the number, or in it.
fn cut_in_number(random: &mut Random, mut parts: Parts, place: usize) -> BrokenRecord {
    parts.truncate(place);
    let left = random.below(3);
    parts.push((0..left).map(|_| random.byte() | 0x80).collect());
    BrokenRecord { bytes: parts.concat(), must_be_last: true }
}

/// The end of the file stands before the bytes, or among them.
fn cut_in_bytes(random: &mut Random, mut parts: Parts, place: usize) -> BrokenRecord {
    parts.truncate(place + 1);
    let left = random.below(parts[place].len() as u64);
    parts[place].truncate(left as usize);
    BrokenRecord { bytes: parts.concat(), must_be_last: true }
}

#[cfg(test)]
mod tests {
    use super::*;
    use crate::read::read_record;

    #[test]
    fn each_way_is_broken_and_some_whatever_stands_behind() {
        let mut random = Random::new(43);
        for way in 0..20 * WAYS {
            let BrokenRecord { mut bytes, must_be_last } = broken(&mut random, way);
            assert!(read_record(&bytes, 0).is_err(), "{way}: {bytes:02x?}");
            bytes.extend([1; 300]);
            assert!(must_be_last || read_record(&bytes, 0).is_err(), "{way}: {bytes:02x?}");
        }
    }
}
