//! MIDs (docs/RULES.md, "MID") and their modified EUI-64 form (RFC 4291,
//! appendix A).

use crate::hop::good_next_hop;
use crate::reply::Refusal;

pub const LARGEST_MID: u64 = (1 << 48) - 1;

/// What stands between the two halves of a MID in an interface identifier.
const MIDDLE: [u8; 2] = [0xFF, 0xFE];
/// The universal/local bit, the bit of value 2 in the first byte.
const FLIPPED_BIT: u8 = 2;

/// `mid-range`: reply 1 for a MID above 2^48 - 1, in each call that bears one.
pub fn check_mid(mid: u64) -> Result<(), Refusal> {
    if mid > LARGEST_MID {
        return Err(Refusal::ValueOutsideItsList);
    }
    Ok(())
}

/// The MID as a MAC address is written: `02:00:00:00:00:01`.
pub fn mac_text(mid: u64) -> String {
    mac_bytes(mid).map(|byte| format!("{byte:02X}")).join(":")
}

/// `mid-number`: the six bytes of a MAC address, highest first.
pub fn mac_bytes(mid: u64) -> [u8; 6] {
    let eight = mid.to_be_bytes();
    [eight[2], eight[3], eight[4], eight[5], eight[6], eight[7]]
}

fn from_mac_bytes(mac: [u8; 6]) -> u64 {
    mac.iter().fold(0, |mid, &byte| mid * 256 + u64::from(byte))
}

/// `interface-address`: fe80::/64 with the identifier built from the MID.
pub fn link_local_address(mid: u64) -> [u8; 16] {
    let mac = mac_bytes(mid);
    let mut address = [0; 16];
    address[0] = 0xFE;
    address[1] = 0x80;
    address[8] = mac[0] ^ FLIPPED_BIT;
    address[9..11].copy_from_slice(&mac[1..3]);
    address[11..13].copy_from_slice(&MIDDLE);
    address[13..16].copy_from_slice(&mac[3..6]);
    address
}

/// `mid-from-address`: the MID in the last 8 bytes of a good next hop, if FF FE are
/// their 4th and 5th. Other addresses give none, though FF FE stand there.
pub fn mid_of_address(address: &[u8; 16]) -> Option<u64> {
    let identifier = &good_next_hop(address)?[8..16];
    if identifier[3..5] != MIDDLE {
        return None;
    }
    Some(from_mac_bytes([
        identifier[0] ^ FLIPPED_BIT,
        identifier[1],
        identifier[2],
        identifier[5],
        identifier[6],
        identifier[7],
    ]))
}

#[cfg(test)]
mod tests {
    use super::*;

    fn identifier(bytes: [u8; 8]) -> [u8; 16] {
        let mut address = [0x20; 16];
        address[8..16].copy_from_slice(&bytes);
        address
    }

    #[test]
    fn the_edge_case_of_an_own_mid() {
        let mut expected = [0; 16];
        expected[..2].copy_from_slice(&[0xFE, 0x80]);
        expected[8..].copy_from_slice(&[0, 0, 0, 0xFF, 0xFE, 0, 0, 1]);
        assert_eq!(link_local_address(0x0200_0000_0001), expected);
        assert_eq!(mid_of_address(&expected), Some(0x0200_0000_0001));
    }

    #[test]
    fn the_bit_is_flipped_in_both_directions() {
        assert_eq!(link_local_address(0)[8], 2);
        assert_eq!(link_local_address(LARGEST_MID)[8], 0xFD);
        let all_bits = identifier([0xFD, 0xFF, 0xFF, 0xFF, 0xFE, 0xFF, 0xFF, 0xFF]);
        assert_eq!(mid_of_address(&all_bits), Some(LARGEST_MID));
    }

    #[test]
    fn bytes_keep_their_order() {
        let address = link_local_address(0x1122_3344_5566);
        let expected = [0x13, 0x22, 0x33, 0xFF, 0xFE, 0x44, 0x55, 0x66];
        assert_eq!(address[8..], expected);
        assert_eq!(mac_bytes(0x1122_3344_5566), [0x11, 0x22, 0x33, 0x44, 0x55, 0x66]);
    }

    #[test]
    fn both_bytes_ff_fe_must_be_in_their_places() {
        for bytes in [
            [0, 0, 0, 0xFE, 0xFF, 0, 0, 0],
            [0, 0, 0, 0xFF, 0xFF, 0, 0, 0],
            [0, 0, 0, 0xFE, 0xFE, 0, 0, 0],
            [0, 0, 0xFF, 0xFE, 0, 0, 0, 0],
            [0, 0, 0, 0, 0xFF, 0xFE, 0, 0],
            [0; 8],
        ] {
            assert_eq!(mid_of_address(&identifier(bytes)), None);
        }
    }

    #[test]
    fn a_multicast_address_gives_none_though_it_has_ff_fe() {
        let mut address = link_local_address(0x0200_0000_0001);
        for second in [0, 2, 0x80, 0xFF] {
            (address[0], address[1]) = (0xFF, second);
            assert_eq!(mid_of_address(&address), None);
        }
        (address[0], address[1]) = (0xFE, 0xFF);
        assert_eq!(mid_of_address(&address), Some(0x0200_0000_0001));
    }

    #[test]
    fn written_as_a_mac_address() {
        assert_eq!(mac_text(0x02AB_0000_00C7), "02:AB:00:00:00:C7");
    }

    #[test]
    fn there_and_back_for_many_mids() {
        for bit in 0..48 {
            for mid in [1 << bit, LARGEST_MID ^ (1 << bit)] {
                assert_eq!(mid_of_address(&link_local_address(mid)), Some(mid));
            }
        }
    }

    #[test]
    fn the_bound_of_48_bits() {
        assert_eq!(check_mid(LARGEST_MID), Ok(()));
        assert_eq!(check_mid(LARGEST_MID + 1), Err(Refusal::ValueOutsideItsList));
        assert_eq!(check_mid(u64::MAX), Err(Refusal::ValueOutsideItsList));
    }
}
