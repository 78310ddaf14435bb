//! IPv6 packets: addresses within and just outside the stops' prefixes, special
//! addresses, lengths at the bounds, and packets that are none.

use super::prefixes::turned;
use super::random::Random;
use crate::mid::{link_local_address, LARGEST_MID};
use crate::packet::{Address, HEADER_LENGTH, LOOPBACK, UNSPECIFIED};
use crate::prefix::Prefix;

/// What a packet's sort of length and faults are drawn from.
#[derive(Clone, Copy, Debug)]
pub struct Taste {
    /// How many percent are spoiled.
    pub bad: u64,
    /// How many percent have a length at a bound, most of them long.
    pub long: u64,
}

/// An address within the prefix, which has a length, or outside it by its last bit.
pub fn near_prefix(random: &mut Random, prefix: &Prefix, within: bool) -> Address {
    let tail = u128::from_be_bytes(random.bytes());
    let behind = u128::MAX.checked_shr(prefix.length as u32).unwrap_or(0);
    let address = (u128::from_be_bytes(prefix.bytes) | tail & behind).to_be_bytes();
    match within {
        true => address,
        false => turned(&address, prefix.length - 1),
    }
}

pub fn multicast(random: &mut Random) -> Address {
    let mut address: Address = random.bytes();
    address[0] = 0xFF;
    if random.percent(70) {
        address[1] = random.pick(&[0x01, 0x02, 0x05, 0x0E]);
        address[2..15].fill(0);
    }
    address
}

/// An address with the modified EUI-64 of some MID, link-local or not.
pub fn with_identifier(random: &mut Random) -> Address {
    let mut address = link_local_address(random.number() & LARGEST_MID);
    if random.percent(40) {
        let network: [u8; 8] = random.bytes();
        address[..8].copy_from_slice(&network);
        address[0] = 0x20 | address[0] & 0x1F;
    }
    address
}

/// As above, but FF FE is spoiled or in the wrong place.
pub fn without_identifier(random: &mut Random) -> Address {
    let mut address = with_identifier(random);
    let middle = random.pick(&[[0xFE, 0xFF], [0xFF, 0xFF], [0xFE, 0xFE], [0xFF, 0xFC], [0, 0]]);
    address[11..13].copy_from_slice(&middle);
    match random.below(3) {
        0 => address[10..13].copy_from_slice(&[0xFF, 0xFE, 0x00]),
        1 => address[11..14].copy_from_slice(&[0x00, 0xFF, 0xFE]),
        _ => {}
    }
    address
}

/// Addresses that rules name, and those next to them.
pub fn special(random: &mut Random) -> Address {
    let mut address = UNSPECIFIED;
    match random.below(8) {
        0 => {}
        1 => address = LOOPBACK,
        2 => address[15] = random.pick(&[2, 3, 0x81]),
        3 => address = turned(&LOOPBACK, random.below(127)),
        4 => address[..2].copy_from_slice(&random.pick(&[[0xFE, 0xBF], [0xFE, 0xC0], [0xFE, 0]])),
        5 => address[0] = random.pick(&[0xFE, 0xFD, 0xFC, 0x7F]),
        6 => address = multicast(random),
        _ => address[..2].copy_from_slice(&[0xFE, 0x80]),
    }
    address
}

/// Any address, given the prefixes that the table knows.
pub fn address(random: &mut Random, known: &[Prefix], special_percent: u64) -> Address {
    if random.percent(special_percent) {
        return special(random);
    }
    match random.below(10) {
        0..=4 if !known.is_empty() => {
            let (prefix, within) = (random.pick(known), random.percent(75));
            near_prefix(random, &prefix, within)
        }
        5 | 6 => with_identifier(random),
        7 => without_identifier(random),
        _ => {
            let mut address: Address = random.bytes();
            address[0] = 0x20 | address[0] & 0x1F;
            address
        }
    }
}

/// 40 bytes and a bit more, or a length at a bound.
pub fn length(random: &mut Random, long: u64) -> usize {
    if random.percent(long) {
        return random.pick(&[40, 41, 296, 1_279, 1_280, 1_281, 1_282, 1_294, 1_295, 1_500, 2_000]);
    }
    random.pick(&[40, 40, 41, 42, 48, 60, 61])
}

/// A packet with a right header. Below 40 bytes the header is cut.
pub fn packet(random: &mut Random, source: &Address, to: &Address, length: usize) -> Vec<u8> {
    let mut packet: Vec<u8> = (0..length.max(HEADER_LENGTH)).map(|_| random.byte()).collect();
    packet[0] = 0x60 | packet[0] & 0x0F;
    let payload = (packet.len() - HEADER_LENGTH) as u16;
    packet[4..6].copy_from_slice(&payload.to_be_bytes());
    packet[8..24].copy_from_slice(source);
    packet[24..40].copy_from_slice(to);
    packet.truncate(length);
    packet
}

/// Makes a packet one that answers 20, 21 or 22, sometimes with two causes.
pub fn spoil(random: &mut Random, packet: &mut Vec<u8>) {
    match random.below(8) {
        0 | 1 => spoil_version(random, packet),
        2 | 3 => cut(random, packet),
        4 | 5 => spoil_length_field(random, packet),
        6 => {
            spoil_version(random, packet);
            spoil_length_field(random, packet);
        }
        _ => {
            spoil_version(random, packet);
            cut(random, packet);
        }
    }
}

/// Reply 21: any version but 6, which may stand in the low half of the byte.
pub fn spoil_version(random: &mut Random, packet: &mut [u8]) {
    let version = (7 + random.below(15) as u8) % 16;
    let low_half = if random.percent(30) { 6 } else { random.byte() & 0x0F };
    if let Some(first) = packet.first_mut() {
        *first = version << 4 | low_half;
    }
}

/// Reply 20, most often with bytes that later refusals look at.
pub fn cut(random: &mut Random, packet: &mut Vec<u8>) {
    packet.truncate(random.pick(&[0, 1, 5, 6, 23, 24, 25, 36, 37, 38, 39, 39]));
    if packet.len() == 39 && random.percent(50) {
        // 65,535 + 40 is 39 to a type of 16 bits.
        set_length_field(packet, 0xFFFF);
    }
}

/// Reply 22: one off, one byte wrong, the whole length, the bytes exchanged, or
/// the largest.
pub fn spoil_length_field(random: &mut Random, packet: &mut [u8]) {
    let right = packet.len().saturating_sub(HEADER_LENGTH) as u16;
    let (below, above, high_byte) = (right.wrapping_sub(1), right + 1, right ^ 0x0100);
    let mut wrong = vec![below, above, high_byte, right + 40, right.swap_bytes(), 0xFFFF];
    wrong.retain(|&field| field != right);
    set_length_field(packet, random.pick(&wrong));
}

fn set_length_field(packet: &mut [u8], field: u16) {
    if let Some(place) = packet.get_mut(4..6) {
        place.copy_from_slice(&field.to_be_bytes());
    }
}

/// Any packet, given the prefixes that the table knows.
pub fn any(random: &mut Random, known: &[Prefix], taste: Taste) -> Vec<u8> {
    let source = address(random, known, 12);
    let to = if random.percent(15) { multicast(random) } else { address(random, known, 8) };
    let length = length(random, taste.long);
    let mut packet = packet(random, &source, &to, length);
    if random.percent(taste.bad) {
        spoil(random, &mut packet);
    }
    packet
}

#[cfg(test)]
mod tests {
    use super::*;
    use crate::generate::prefixes;
    use crate::mid::mid_of_address;
    use crate::packet::check_packet;

    #[test]
    fn addresses_near_a_prefix() {
        let mut random = Random::new(1);
        for _ in 0..1_000 {
            let prefix = prefixes::fresh(&mut random);
            assert!(prefix.holds_address(&near_prefix(&mut random, &prefix, true)));
            assert!(!prefix.holds_address(&near_prefix(&mut random, &prefix, false)));
        }
    }

    #[test]
    fn identifiers_with_and_without_ff_fe() {
        let mut random = Random::new(2);
        for _ in 0..1_000 {
            assert!(mid_of_address(&with_identifier(&mut random)).is_some());
            assert!(mid_of_address(&without_identifier(&mut random)).is_none());
        }
    }

    #[test]
    fn right_packets_pass_and_spoiled_ones_do_not() {
        let mut random = Random::new(3);
        let (source, to) = ([0x20; 16], [0x21; 16]);
        for length in 40..=1_280 {
            let right = packet(&mut random, &source, &to, length);
            assert!(check_packet(&right).is_ok());
            let mut spoiled = [right.clone(), right.clone(), right.clone(), right];
            cut(&mut random, &mut spoiled[0]);
            spoil_version(&mut random, &mut spoiled[1]);
            spoil_length_field(&mut random, &mut spoiled[2]);
            spoil(&mut random, &mut spoiled[3]);
            let replies = spoiled.map(|packet| check_packet(&packet).unwrap_err().number());
            assert_eq!(replies[..3], [20, 21, 22]);
            assert!((20..=22).contains(&replies[3]));
        }
    }
}
