//! Prefixes: of every length, nested, adjacent, around fe80::/10 and ff00::/8,
//! and with bits set past the length.

use super::random::Random;
use crate::prefix::{Prefix, NO_PREFIX};

/// The prefix of this length that holds the address.
pub fn first_bits(address: &[u8; 16], length: u64) -> Prefix {
    let bits = u128::from_be_bytes(*address);
    let kept = match length {
        0 => 0,
        128.. => u128::MAX,
        _ => u128::MAX << (128 - length),
    };
    Prefix { length, bytes: (bits & kept).to_be_bytes() }
}

/// The bytes with the bit at a place, counted from the left, turned.
pub fn turned(bytes: &[u8; 16], place: u64) -> [u8; 16] {
    let mut other = *bytes;
    other[(place / 8) as usize] ^= 0x80 >> (place % 8);
    other
}

/// Any length above 0, those around whole bytes more often.
pub fn length(random: &mut Random) -> u64 {
    if random.percent(50) {
        return random.pick(&[1, 7, 8, 9, 10, 11, 15, 16, 17, 63, 64, 65, 120, 121, 127, 128]);
    }
    random.between(1, 128)
}

/// A good prefix; most of them lie where real networks do.
pub fn fresh(random: &mut Random) -> Prefix {
    loop {
        let mut address: [u8; 16] = random.bytes();
        if random.percent(70) {
            address[0] = 0x20 | address[0] & 0x1F;
        }
        let prefix = first_bits(&address, length(random));
        if prefix.is_good() {
            return prefix;
        }
    }
}

/// A good prefix of the block of this number, of eight that lie apart.
pub fn of_block(random: &mut Random, number: u8) -> Prefix {
    let mut address: [u8; 16] = random.bytes();
    address[0] = 0x20 | number << 2 | address[0] & 0x03;
    first_bits(&address, random.between(6, 128))
}

/// Equal, longer or shorter, for one whose length is above 0: the two overlap.
pub fn nested(random: &mut Random, to: &Prefix) -> Prefix {
    match random.below(3) {
        0 => *to,
        1 => {
            // The first bits as they are, random ones behind them.
            let tail = u128::from_be_bytes(random.bytes());
            let behind = u128::MAX.checked_shr(to.length as u32).unwrap_or(0);
            let bits = u128::from_be_bytes(to.bytes) | tail & behind;
            first_bits(&bits.to_be_bytes(), random.between(to.length, 128))
        }
        _ => first_bits(&to.bytes, random.between(1, to.length)),
    }
}

/// The neighbour of the same length that differs in the last bit alone.
pub fn beside(prefix: &Prefix) -> Prefix {
    Prefix { length: prefix.length, bytes: turned(&prefix.bytes, prefix.length - 1) }
}

/// Equal, longer, shorter, or the neighbour with a bit turned, often the last, of one
/// whose length is above 0.
pub fn related(random: &mut Random, to: &Prefix) -> Prefix {
    match random.below(5) {
        0..=2 => nested(random, to),
        3 => beside(to),
        _ => {
            let place = random.below(to.length);
            Prefix { length: to.length, bytes: turned(&to.bytes, place) }
        }
    }
}

/// Every prefix length's neighbourhood of fe80::/10 and ff00::/8, both ways
/// (`prefix-reserved`), good and bad ones.
pub fn around_the_forbidden(random: &mut Random) -> Prefix {
    let start = random.pick(&[
        [0xFE, 0x80],
        [0xFE, 0xBF],
        [0xFE, 0x7F],
        [0xFE, 0xC0],
        [0xFE, 0x00],
        [0xFF, 0x00],
        [0xFF, 0xFF],
        [0xFD, 0xFF],
        [0xF8, 0x00],
        [0x80, 0x00],
        [0x00, 0x00],
        [0x7F, 0xFF],
        [0xC0, 0x00],
        [0xF0, 0x00],
        [0xFC, 0x00],
    ]);
    let mut address = [0; 16];
    address[..2].copy_from_slice(&start);
    let length = if random.percent(80) { random.between(1, 12) } else { length(random) };
    first_bits(&address, length)
}

/// A bit set past the length but within the last byte that a record holds.
pub fn with_bit_past_length(random: &mut Random, base: &Prefix) -> Prefix {
    let length = match base.length % 8 {
        0 => random.between(0, 15) * 8 + random.between(1, 7),
        _ => base.length,
    };
    let place = random.between(length, length.next_multiple_of(8) - 1);
    Prefix { length, bytes: turned(&first_bits(&base.bytes, length).bytes, place) }
}

/// Any prefix, given those that the table knows.
pub fn any(random: &mut Random, known: &[Prefix], bad: u64) -> Prefix {
    let base = if known.is_empty() { fresh(random) } else { random.pick(known) };
    if random.percent(bad) {
        return with_bit_past_length(random, &base);
    }
    match random.below(20) {
        0..=5 => NO_PREFIX,
        6..=13 => fresh(random),
        14..=17 => related(random, &base),
        _ => around_the_forbidden(random),
    }
}

#[cfg(test)]
mod tests {
    use super::*;

    #[test]
    fn related_ones_nest_or_lie_beside() {
        let mut random = Random::new(9);
        let (mut overlapping, mut apart) = (0, 0);
        for _ in 0..2_000 {
            let base = fresh(&mut random);
            assert!(nested(&mut random, &base).overlaps(&base));
            let other = related(&mut random, &base);
            assert!((1..=128).contains(&other.length));
            if base.overlaps(&other) {
                overlapping += 1;
            } else {
                apart += 1;
            }
        }
        assert!(overlapping > 500 && apart > 300);
    }

    #[test]
    fn blocks_lie_apart() {
        let mut random = Random::new(12);
        for _ in 0..200 {
            let blocks: Vec<Prefix> = (0..8).map(|number| of_block(&mut random, number)).collect();
            assert!(blocks.iter().all(Prefix::is_good));
            for (place, one) in blocks.iter().enumerate() {
                assert!(blocks[place + 1..].iter().all(|other| !one.overlaps(other)));
            }
        }
    }

    #[test]
    fn a_bit_past_the_length_makes_it_bad_and_leaves_a_record_form_and_the_overlap() {
        let mut random = Random::new(10);
        for _ in 0..2_000 {
            let base = fresh(&mut random);
            let bad = with_bit_past_length(&mut random, &base);
            assert!(!bad.is_good() && bad.overlaps(&base));
            let needed = crate::prefix::bytes_needed(bad.length);
            assert!(bad.bytes[needed..].iter().all(|&byte| byte == 0));
        }
    }

    #[test]
    fn good_and_bad_ones_stand_around_the_forbidden() {
        let mut random = Random::new(11);
        let some: Vec<_> = (0..500).map(|_| around_the_forbidden(&mut random).is_good()).collect();
        assert!(some.contains(&true) && some.contains(&false));
    }
}
