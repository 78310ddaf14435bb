//! Prefixes (docs/RULES.md, "Prefix").

pub const LONGEST_PREFIX: u64 = 128;

/// `prefix-form`: a length and 16 bytes as a caller gives them, good or bad.
#[derive(Clone, Copy, Debug, PartialEq, Eq)]
pub struct Prefix {
    pub length: u64,
    pub bytes: [u8; 16],
}

/// `prefix-none`: length 0 means none.
pub const NO_PREFIX: Prefix = Prefix { length: 0, bytes: [0; 16] };

/// `prefix-reserved`: fe80::/10 and ff00::/8, which no good prefix overlaps.
const LINK_LOCAL: Prefix = starting_with(0xFE, 0x80, 10);
const MULTICAST: Prefix = starting_with(0xFF, 0x00, 8);

const fn starting_with(first: u8, second: u8, length: u64) -> Prefix {
    let mut bytes = [0; 16];
    bytes[0] = first;
    bytes[1] = second;
    Prefix { length, bytes }
}

impl Prefix {
    /// `prefix-good`.
    pub fn is_good(&self) -> bool {
        self.length <= LONGEST_PREFIX
            && !self.has_bit_past_length()
            && !self.overlaps(&LINK_LOCAL)
            && !self.overlaps(&MULTICAST)
    }

    /// `prefix-holds`; length 0 holds nothing (`prefix-none`).
    pub fn holds_address(&self, address: &[u8; 16]) -> bool {
        self.length > 0 && equal_first_bits(&self.bytes, address, self.length)
    }

    fn holds_prefix(&self, other: &Prefix) -> bool {
        other.length >= self.length && self.holds_address(&other.bytes)
    }

    /// `prefix-overlap`: both have a length above 0, and one holds the other.
    pub fn overlaps(&self, other: &Prefix) -> bool {
        self.length > 0
            && other.length > 0
            && (self.holds_prefix(other) || other.holds_prefix(self))
    }

    fn has_bit_past_length(&self) -> bool {
        (self.length..LONGEST_PREFIX).any(|place| bit(&self.bytes, place))
    }
}

/// How many bytes a record holds of a prefix of this length (`record-prefix`).
pub fn bytes_needed(length: u64) -> usize {
    length.div_ceil(8) as usize
}

/// The bit at a place, counted from 0 at the highest bit of the first byte.
fn bit(bytes: &[u8; 16], place: u64) -> bool {
    let byte = bytes[(place / 8) as usize];
    byte & (0x80 >> (place % 8)) != 0
}

fn equal_first_bits(left: &[u8; 16], right: &[u8; 16], count: u64) -> bool {
    // All at once, since one by one takes long with thousands of stops. A count above
    // 128 asks for bits that are not there.
    let differing = u128::from_be_bytes(*left) ^ u128::from_be_bytes(*right);
    count <= LONGEST_PREFIX && u64::from(differing.leading_zeros()) >= count
}

#[cfg(test)]
mod tests {
    use super::*;

    const ADDRESS: [u8; 16] = [
        0x20, 0x01, 0x0D, 0xB8, 0x5A, 0xA5, 0x33, 0xCC, 0x0F, 0xF0, 0x12, 0x48, 0x81, 0x7E, 0xE7,
        0x99,
    ];

    /// The first bits of an address, the rest zero.
    fn first_bits(address: &[u8; 16], length: u64) -> Prefix {
        let mut bytes = [0; 16];
        for place in (0..length).filter(|&place| bit(address, place)) {
            bytes[(place / 8) as usize] |= 0x80 >> (place % 8);
        }
        Prefix { length, bytes }
    }

    fn flipped(address: &[u8; 16], place: u64) -> [u8; 16] {
        let mut other = *address;
        other[(place / 8) as usize] ^= 0x80 >> (place % 8);
        other
    }

    #[test]
    fn every_length_is_good_with_its_own_bits_only() {
        for length in 0..=128 {
            let prefix = first_bits(&ADDRESS, length);
            assert!(prefix.is_good(), "{length}");
            for place in length..128 {
                let bytes = flipped(&prefix.bytes, place);
                assert!(!Prefix { length, bytes }.is_good(), "{length} {place}");
            }
        }
    }

    #[test]
    fn length_0_is_good_only_without_a_bit() {
        assert!(NO_PREFIX.is_good());
        let mut bytes = [0; 16];
        bytes[15] = 1;
        assert!(!Prefix { length: 0, bytes }.is_good());
    }

    #[test]
    fn a_longer_length_is_bad() {
        for length in [129, 255, 256, u64::MAX] {
            let prefix = Prefix { length, bytes: ADDRESS };
            assert!(!prefix.is_good());
            assert!(!prefix.holds_address(&ADDRESS));
        }
    }

    #[test]
    fn bad_inside_and_around_the_reserved_blocks() {
        for (first, second, length) in [
            (0x80, 0, 1),
            (0xC0, 0, 2),
            (0xE0, 0, 3),
            (0xF0, 0, 4),
            (0xF8, 0, 5),
            (0xFC, 0, 6),
            (0xFE, 0, 7),
            (0xFE, 0x80, 9),
            (0xFE, 0x80, 10),
            (0xFE, 0xBF, 16),
            (0xFE, 0x80, 128),
            (0xFF, 0, 8),
            (0xFF, 0x80, 9),
            (0xFF, 0x02, 128),
        ] {
            assert!(!starting_with(first, second, length).is_good(), "{first:x} {length}");
        }
    }

    #[test]
    fn good_near_the_reserved_blocks() {
        for (first, second, length) in [
            (0, 0, 1),
            (0x80, 0, 2),
            (0xC0, 0, 3),
            (0xF0, 0, 5),
            (0xFC, 0, 7),
            (0xFE, 0, 9),
            (0xFE, 0xC0, 10),
            (0xFE, 0x40, 10),
            (0xFE, 0xC0, 128),
            (0xFE, 0x7F, 16),
        ] {
            assert!(starting_with(first, second, length).is_good(), "{first:x} {length}");
        }
    }

    #[test]
    fn holds_exactly_the_addresses_with_its_first_bits() {
        for length in 1..=128 {
            let prefix = first_bits(&ADDRESS, length);
            for place in 0..128 {
                let held = prefix.holds_address(&flipped(&ADDRESS, place));
                assert_eq!(held, place >= length, "{length} {place}");
            }
        }
        assert!(!NO_PREFIX.holds_address(&[0; 16]));
    }

    #[test]
    fn overlap_is_nesting_both_ways() {
        for short in 1..=128 {
            for long in short..=128 {
                let outer = first_bits(&ADDRESS, short);
                let inner = first_bits(&ADDRESS, long);
                let beside = first_bits(&flipped(&ADDRESS, short - 1), long);
                assert!(outer.overlaps(&inner) && inner.overlaps(&outer));
                assert!(!outer.overlaps(&beside) && !beside.overlaps(&outer));
            }
        }
    }

    #[test]
    fn no_prefix_overlaps_none() {
        let one_bit = first_bits(&[0; 16], 1);
        assert!(!NO_PREFIX.overlaps(&NO_PREFIX));
        assert!(!NO_PREFIX.overlaps(&one_bit));
        assert!(!one_bit.overlaps(&NO_PREFIX));
    }

    #[test]
    fn bytes_needed_rounds_up() {
        let expected = [(0, 0), (1, 1), (7, 1), (8, 1), (9, 2), (64, 8), (121, 16), (128, 16)];
        for (length, bytes) in expected {
            assert_eq!(bytes_needed(length), bytes);
        }
    }
}
