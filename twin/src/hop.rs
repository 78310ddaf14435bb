//! The next hop of a request (`next-hop`): which run of bytes can be the address of
//! a neighbour.

use crate::packet::{is_multicast, Address, LOOPBACK, UNSPECIFIED};

/// How many bytes a good next hop has, and one of a record.
pub const NEXT_HOP_LENGTH: usize = 16;

/// The address of a good next hop: 16 bytes, and neither :: nor ::1 nor multicast.
pub fn good_next_hop(bytes: &[u8]) -> Option<Address> {
    let address = Address::try_from(bytes).ok()?;
    let good = address != UNSPECIFIED && address != LOOPBACK && !is_multicast(&address);
    good.then_some(address)
}

#[cfg(test)]
mod tests {
    use super::*;

    /// An address whose first, second and last byte are these.
    fn address(first: u8, second: u8, last: u8) -> Address {
        let mut address = [0; 16];
        (address[0], address[1], address[15]) = (first, second, last);
        address
    }

    #[test]
    fn neither_unspecified_nor_loopback_nor_multicast() {
        for second in [0, 1, 2, 0x80, 0xFF] {
            assert_eq!(good_next_hop(&address(0xFF, second, 1)), None);
        }
        assert_eq!(good_next_hop(&UNSPECIFIED), None);
        assert_eq!(good_next_hop(&LOOPBACK), None);
        assert_eq!(good_next_hop(&[0xFF; 16]), None);
    }

    #[test]
    fn what_is_next_to_them_is_good() {
        for (first, second, last) in
            [(0, 0, 2), (0, 0, 3), (0, 0, 0x80), (0, 1, 1), (0xFE, 0xFF, 1), (0x7F, 0xFF, 0)]
        {
            let near = address(first, second, last);
            assert_eq!(good_next_hop(&near), Some(near));
        }
        for bit in 0..127 {
            let near = (1u128 << (127 - bit)).to_be_bytes();
            assert_eq!(good_next_hop(&near), Some(near), "bit {bit} of ::");
        }
    }

    #[test]
    fn sixteen_bytes_and_no_other_number_of_them() {
        for length in 0..40 {
            let run = vec![0x20; length];
            assert_eq!(good_next_hop(&run).is_some(), length == 16, "{length}");
        }
    }
}
