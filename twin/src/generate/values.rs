//! Single values of calls: MIDs, kinds, flags, maxima and indices, in range and
//! out of it, up to numbers that fit no narrow type; and the retired kind.

use super::random::Random;
use crate::link::{InterfaceNumbers, RETIRED_KIND};
use crate::mid::LARGEST_MID;
use crate::table::{Table, LARGEST_MAXIMUM, LARGEST_MAXIMUM_OVER_A_RUN, SMALLEST_MAXIMUM};

/// A number that a type of too few bits would take for the value.
pub fn alias(random: &mut Random, value: u64) -> u64 {
    let bits = random.pick(&[8, 16, 32, 40, 48, 56, 63]);
    value.saturating_add(1 << bits)
}

/// As above, for a value that may itself be as large as 16 bits allow.
pub fn wide_alias(random: &mut Random, value: u64) -> u64 {
    let bits = random.pick(&[16, 32, 48, 63]);
    value.saturating_add(1 << bits)
}

/// One of the numbers out of range, or an alias of one in range.
fn outside(random: &mut Random, numbers: &[u64], in_range: u64) -> u64 {
    if random.percent(40) {
        return alias(random, in_range);
    }
    random.pick(numbers)
}

pub fn mid(random: &mut Random, bad: u64) -> u64 {
    if random.percent(bad) {
        let above = [LARGEST_MID + 1, LARGEST_MID + 2, 1 << 63, u64::MAX - 1, u64::MAX];
        return random.pick(&above);
    }
    match random.below(6) {
        0 => random.pick(&[0, 1, 127, 128, LARGEST_MID - 1, LARGEST_MID]),
        1 => 0x0200_0000_0000 + random.below(300),
        _ => random.number() & LARGEST_MID,
    }
}

/// A kind that links can have. A bad one is the retired kind or, more often, outside
/// the list.
pub fn kind(random: &mut Random, bad: u64) -> u64 {
    if !random.percent(bad) {
        return random.pick(&[1, 3]);
    }
    if random.percent(40) {
        return RETIRED_KIND;
    }
    kind_outside(random)
}

/// An alias of the retired kind is outside the list as well.
pub fn kind_outside(random: &mut Random) -> u64 {
    let listed = random.between(1, 3);
    outside(random, &[0, 4, 5, 127, 128, 255, 256, u64::MAX], listed)
}

pub fn flag(random: &mut Random, bad: u64) -> u64 {
    let good = random.below(2);
    if random.percent(bad) {
        return outside(random, &[2, 3, 127, 128, 255, 256, u64::MAX], good);
    }
    good
}

pub fn interface(random: &mut Random, bad: u64) -> InterfaceNumbers {
    InterfaceNumbers { kind: kind(random, bad), flag: flag(random, bad) }
}

/// Small ones are soon full, so they and the largest come often.
pub fn maximum(random: &mut Random, largest: u64, bad: u64) -> u64 {
    if random.percent(bad) {
        let (next, all_ones) = (largest + 1, largest.next_power_of_two() - 1);
        let other = if largest < LARGEST_MAXIMUM_OVER_A_RUN { 4_093 } else { 65_535 };
        return outside(
            random,
            &[0, 1, 1, next, next, next + 1, all_ones, other, u64::MAX],
            largest,
        );
    }
    match random.below(3) {
        0 => random.between(SMALLEST_MAXIMUM, 6),
        1 => random.between(largest - 1, largest),
        _ => random.between(SMALLEST_MAXIMUM, largest),
    }
}

/// An enabled stop's index, if there is one.
pub fn enabled_index(random: &mut Random, table: Option<&Table>) -> Option<u64> {
    let indices: Vec<u64> = table?.stops.keys().copied().collect();
    (!indices.is_empty()).then(|| random.pick(&indices))
}

/// An index for disable and request: enabled, fixed, unused, unknown or huge.
pub fn index(random: &mut Random, table: Option<&Table>) -> u64 {
    let enabled = enabled_index(random, table).unwrap_or(2);
    let maximum = table.map_or(LARGEST_MAXIMUM, |table| table.maximum);
    match random.below(20) {
        0..=9 => enabled,
        10 | 11 => 0,
        12 | 13 => 1,
        14 => random.between(2, maximum),
        15 => maximum,
        16 => maximum + 1,
        17 => random.between(64, 70),
        18 => alias(random, enabled),
        _ => random.pick(&[127, 128, 255, 256, 257, 65_536, 1 << 32, u64::MAX]),
    }
}
