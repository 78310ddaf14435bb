//! Days whose number of records lies around the most that `dispatchlist` lists.

use super::day::Day;
use super::random::Random;
use super::themes::ALL_CALLS;
use super::values;
use crate::call::Call;
use crate::limits::DISPATCHLIST;
use crate::table::StartSettings;

/// In how many ways a day can meet the limit.
pub const WAYS: u64 = 5;

/// One of the ways.
pub fn met(random: Random, way: u64) -> Vec<u8> {
    let mut day = Day::within(DISPATCHLIST, random, 3);
    let most = day.limits().most_records;
    if way == 4 {
        return both_limits(day);
    }
    let maximum = day.maximum(0);
    day.good_start(maximum);
    match way {
        0 => fill_to(&mut day, most),
        1 => {
            let more = day.random.between(1, 3_000) as usize;
            fill_to(&mut day, most + more);
        }
        // The first record that is not listed, or the last that is, is broken.
        2 => return broken_behind(day, most),
        _ => return broken_behind(day, most - 1),
    }
    day.into_bytes()
}

/// So many whole records, and then what is none.
fn broken_behind(mut day: Day, count: usize) -> Vec<u8> {
    fill_to(&mut day, count);
    let byte = day.random.pick(&[0x00, 0x0A, 0x80, 0xFF]);
    let more = day.random.pick(&[1, 2, 1_000]);
    let mut bytes = day.into_bytes();
    bytes.resize(bytes.len() + more, byte);
    bytes
}

/// Whole records up to exactly this number. Most have two bytes, so that the bytes are
/// within their own limit.
fn fill_to(day: &mut Day, count: usize) {
    while day.offsets().len() < count {
        let small = day.random.below(128);
        let call = match day.random.below(60) {
            0 => {
                day.any_records(1, &ALL_CALLS);
                continue;
            }
            1..=9 => Call::DgvlArea(None),
            10..=29 => Call::OwnMid(small),
            _ => Call::Disable(small),
        };
        day.add(&call);
    }
}

/// The last record that is listed ends with the last byte that is read. Records have
/// four bytes, but for the start of eight and two of two; and there is more behind.
fn both_limits(mut day: Day) -> Vec<u8> {
    let most = day.limits().most_records;
    let random = &mut day.random;
    let own_mid = random.between(128, 16_383);
    let maximum = random.pick(&[65, 66]);
    let (tvl, dgvl) = (values::interface(random, 0), values::interface(random, 0));
    day.add(&Call::Start(StartSettings { own_mid, maximum, tvl, dgvl }));
    day.add(&Call::Disable(0));
    day.add(&Call::Disable(1));
    while day.offsets().len() < most {
        let number = day.random.between(16_384, 2_097_151);
        match day.random.percent(50) {
            true => day.add(&Call::Disable(number)),
            false => day.add(&Call::OwnMid(number)),
        };
    }
    day.add(&Call::Disable(2));
    day.into_bytes()
}

#[cfg(test)]
mod tests {
    use super::*;
    use crate::listing::lines;

    /// How many records are listed, the last reply, and how many bytes there are.
    fn listed(way: u64) -> (usize, u8, usize) {
        let bytes = met(Random::new(way), way);
        let lines = lines(DISPATCHLIST, &bytes);
        (lines.len(), lines[lines.len() - 1].answer.reply, bytes.len())
    }

    #[test]
    fn each_way_lists_as_many_records_as_are_listed_at_most() {
        for way in 0..WAYS {
            let (records, last, bytes) = listed(way);
            assert_eq!((records, last == 14), (65_536, way == 3), "{way}");
            assert!(bytes < DISPATCHLIST.most_input || way == 4, "{way}: {bytes}");
        }
        assert_eq!(listed(4).2, DISPATCHLIST.most_input + 2);
    }
}
