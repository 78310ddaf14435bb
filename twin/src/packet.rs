//! The IPv6 packet as far as the rules look into it: replies 9, 20, 21, 22 and
//! 10, and the place in the packet that stands beside them.

use crate::reply::Refusal;

pub const HEADER_LENGTH: usize = 40;
pub const LONGEST_PACKET: usize = 1_280;

const VERSION: u8 = 6;
/// The byte whose high half is the version.
const VERSION_PLACE: usize = 0;
/// The first of the two bytes of the payload length field.
const LENGTH_FIELD_PLACE: usize = 4;
const SOURCE_PLACE: usize = 8;
const DESTINATION_PLACE: usize = 24;

pub type Address = [u8; 16];

pub const UNSPECIFIED: Address = [0; 16];
pub const LOOPBACK: Address = [0, 0, 0, 0, 0, 0, 0, 0, 0, 0, 0, 0, 0, 0, 0, 1];

/// Source and destination of a packet that passed all tests.
#[derive(Clone, Copy, Debug, PartialEq, Eq)]
pub struct Addresses {
    pub source: Address,
    pub destination: Address,
}

/// `multicast-out`: the first byte is FF.
pub fn is_multicast(address: &Address) -> bool {
    address[0] == 0xFF
}

/// `packet-refusals`: the part that the orders of indication and request share.
pub fn check_packet(packet: &[u8]) -> Result<Addresses, Refusal> {
    if packet.len() > LONGEST_PACKET {
        return Err(Refusal::PacketAbove1280);
    }
    check_header(packet)?;
    let addresses = Addresses {
        source: address_at(packet, SOURCE_PLACE),
        destination: address_at(packet, DESTINATION_PLACE),
    };
    if !addresses.are_allowed() {
        return Err(Refusal::AddressNotAllowed);
    }
    Ok(addresses)
}

/// 20, 21, 22. A short packet is 20 whatever its version, so that what is asked
/// behind it can rely on the bytes of a header.
fn check_header(packet: &[u8]) -> Result<(), Refusal> {
    if packet.len() < HEADER_LENGTH {
        return Err(Refusal::PacketShort);
    }
    if packet[VERSION_PLACE] >> 4 != VERSION {
        return Err(Refusal::VersionNot6);
    }
    if payload_length_field(packet) + HEADER_LENGTH != packet.len() {
        return Err(Refusal::LengthFieldWrong);
    }
    Ok(())
}

fn payload_length_field(packet: &[u8]) -> usize {
    usize::from(packet[LENGTH_FIELD_PLACE]) * 256 + usize::from(packet[LENGTH_FIELD_PLACE + 1])
}

/// Bytes 24 to 39, of a packet that has them.
pub fn destination_bytes(packet: &[u8]) -> Option<&[u8]> {
    packet.get(DESTINATION_PLACE..HEADER_LENGTH)
}

fn address_at(packet: &[u8], place: usize) -> Address {
    let mut address = [0; 16];
    address.copy_from_slice(&packet[place..place + 16]);
    address
}

/// `packet-place`: where in the packet of a refused indication or request the
/// fault stands. Every other refusal has the place 0, as reply 0 has.
pub fn fault_place(refusal: Refusal, packet: &[u8]) -> usize {
    match refusal {
        Refusal::PacketShort => packet.len(),
        Refusal::VersionNot6 => VERSION_PLACE,
        Refusal::LengthFieldWrong => LENGTH_FIELD_PLACE,
        _ => 0,
    }
}

impl Addresses {
    /// Reply 10 forbids a multicast or ::1 source and a :: or ::1 destination.
    /// A source :: is allowed.
    fn are_allowed(&self) -> bool {
        !is_multicast(&self.source)
            && self.source != LOOPBACK
            && self.destination != UNSPECIFIED
            && self.destination != LOOPBACK
    }
}

#[cfg(test)]
mod tests;
