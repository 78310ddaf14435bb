use super::*;
use crate::reply::EVERY_REFUSAL;

const HERE: Address = [0x20; 16];
const THERE: Address = [0x21; 16];

fn packet(source: Address, destination: Address, length: usize) -> Vec<u8> {
    let mut packet = vec![0; length];
    packet[0] = 0x60;
    let payload = (length - HEADER_LENGTH) as u16;
    packet[4..6].copy_from_slice(&payload.to_be_bytes());
    packet[8..24].copy_from_slice(&source);
    packet[24..40].copy_from_slice(&destination);
    packet
}

fn multicast() -> Address {
    let mut address = HERE;
    address[0] = 0xFF;
    address
}

/// The number and the place of the packet's refusal.
fn refused(packet: &[u8]) -> (u8, usize) {
    let refusal = check_packet(packet).unwrap_err();
    (refusal.number(), fault_place(refusal, packet))
}

#[test]
fn lengths_at_the_bounds() {
    for length in [40, 41, 295, 296, 297, 1_279, 1_280] {
        let expected = Addresses { source: HERE, destination: THERE };
        assert_eq!(check_packet(&packet(HERE, THERE, length)), Ok(expected));
    }
    for length in [1_281, 1_282, 1_320, 1_536, 65_575, 70_000] {
        assert_eq!(refused(&vec![0; length]), (9, 0), "9, whatever else is wrong");
    }
}

#[test]
fn each_length_below_40_is_20_at_that_length() {
    for length in 0..40 {
        assert_eq!(refused(&packet(HERE, THERE, 40)[..length]), (20, length));
        for byte in [0x00, 0x5F, 0xFF] {
            assert_eq!(refused(&vec![byte; length]), (20, length), "whatever its version");
        }
    }
    assert!(check_packet(&packet(HERE, THERE, 40)).is_ok());
}

#[test]
fn each_version_but_6_is_21_at_0() {
    for first in (0..=255).filter(|first| first >> 4 != 6) {
        let mut wrong = packet(HERE, THERE, 50);
        wrong[0] = first;
        assert_eq!(refused(&wrong), (21, 0));
    }
}

#[test]
fn traffic_class_bits_are_no_part_of_the_version() {
    for low_half in 0..16 {
        let mut coloured = packet(HERE, THERE, 40);
        coloured[..4].copy_from_slice(&[0x60 | low_half, 0xFF, 0xFF, 0xFF]);
        assert!(check_packet(&coloured).is_ok());
    }
}

#[test]
fn each_length_field_but_the_right_one_is_22_at_4() {
    for length in [40, 41, 50, 296, 297, 1_280] {
        let mut wrong = packet(HERE, THERE, length);
        for field in (0..=u16::MAX).filter(|&field| usize::from(field) + 40 != length) {
            wrong[4..6].copy_from_slice(&field.to_be_bytes());
            assert_eq!(refused(&wrong), (22, 4));
        }
    }
}

#[test]
fn the_length_field_does_not_wrap() {
    // 65,535 + 40 is 39 to a type of 16 bits.
    let mut short = packet(HERE, THERE, 40);
    short[4..6].copy_from_slice(&[0xFF, 0xFF]);
    assert_eq!(refused(&short), (22, 4));
    short.truncate(39);
    assert_eq!(refused(&short), (20, 39));
}

#[test]
fn addresses_that_are_refused() {
    for (source, destination) in [
        (multicast(), THERE),
        (LOOPBACK, THERE),
        (HERE, UNSPECIFIED),
        (HERE, LOOPBACK),
        (UNSPECIFIED, UNSPECIFIED),
    ] {
        assert_eq!(refused(&packet(source, destination, 40)), (10, 0));
    }
}

#[test]
fn addresses_that_are_allowed() {
    let mut two = LOOPBACK;
    two[15] = 2;
    let mut high = LOOPBACK;
    high[0] = 1;
    for (source, destination) in
        [(UNSPECIFIED, THERE), (HERE, multicast()), (two, two), (high, high)]
    {
        assert!(check_packet(&packet(source, destination, 40)).is_ok());
    }
}

/// A packet of this length with these faults, and what it answers: the first in
/// the order 9, 20, 21, 22, 10.
fn faulty(length: usize, version: bool, field: bool, address: bool) -> (Vec<u8>, (u8, usize)) {
    let source = if address { LOOPBACK } else { HERE };
    let mut packet = packet(source, THERE, length.max(HEADER_LENGTH));
    if version {
        packet[0] = 0x40;
    }
    if field {
        packet[5] ^= 1;
    }
    packet.truncate(length);
    let answer = if length > 1_280 {
        (9, 0)
    } else if length < 40 {
        (20, length)
    } else if version {
        (21, 0)
    } else if field {
        (22, 4)
    } else {
        (10, 0)
    };
    (packet, answer)
}

#[test]
fn the_first_of_several_faults_is_given() {
    for length in [0, 1, 5, 6, 23, 24, 39, 40, 41, 1_280, 1_281] {
        for faults in 1..8 {
            let [version, field, address] = [1, 2, 4].map(|bit| faults & bit != 0);
            let (packet, answer) = faulty(length, version, field, address);
            assert_eq!(refused(&packet), answer, "{length} bytes, faults {faults}");
        }
    }
}

#[test]
fn the_place_of_every_refusal() {
    for length in [0, 39, 40, 50, 1_280, 1_281] {
        for refusal in EVERY_REFUSAL {
            let place = match refusal.number() {
                20 => length,
                22 => 4,
                _ => 0,
            };
            assert_eq!(fault_place(refusal, &vec![0x60; length]), place, "{refusal:?}");
        }
    }
}
