//! Indications: the choice of a link and the frame (docs/RULES.md, "What
//! arrives").

use crate::area::Area;
use crate::call::{Destination, GEO_ANYCAST, GEO_BROADCAST, GEO_UNICAST, TSB};
use crate::link::Kind;
use crate::mid::{check_mid, mac_bytes};
use crate::packet::{check_packet, Address, Addresses};
use crate::reply::Refusal;
use crate::table::{self, Table, DGVL};

/// Two MAC addresses and 86 DD.
pub const FRAME_HEADER_LENGTH: usize = 14;

const ETHERTYPE_IPV6: [u8; 2] = [0x86, 0xDD];
const TO_ALL: [u8; 6] = [0xFF; 6];

#[derive(Clone, Copy, Debug, PartialEq, Eq)]
pub struct Indication<'a> {
    pub transport: u64,
    pub source: u64,
    pub class: u8,
    pub destination: Destination,
    pub packet: &'a [u8],
}

/// `indication-reply`: index, length, source MID and class.
#[derive(Clone, Copy, Debug, PartialEq, Eq)]
pub struct Delivery {
    pub link: u64,
    pub length: usize,
    pub source: u64,
    pub class: u8,
}

impl Table {
    /// `indication-refusals`: 1, 2, 9, 20, 21, 22, 10, 13. A refusal leaves the
    /// buffer as it was (`refusal-leaves`); its place is
    /// [`fault_place`](crate::packet::fault_place).
    pub fn indication(
        &self,
        indication: &Indication,
        buffer: &mut [u8],
    ) -> Result<Delivery, Refusal> {
        indication.check_values()?;
        indication.check_area()?;
        let addresses = check_packet(indication.packet)?;
        // Whatever kind will be chosen (`slip-kind`).
        if buffer.len() < indication.packet.len() + FRAME_HEADER_LENGTH {
            return Err(Refusal::NoRoom);
        }
        let link = self.choose_link(indication, &addresses);
        let kind = self.interface(link)?.kind;
        let frame = indication.frame(kind);
        buffer[..frame.len()].copy_from_slice(&frame);
        Ok(Delivery {
            link,
            length: frame.len(),
            source: indication.source,
            class: indication.class,
        })
    }

    /// `line-first`: the link is that of the first line that fits.
    fn choose_link(&self, indication: &Indication, addresses: &Addresses) -> u64 {
        let fitting_stop = match (indication.transport, indication.destination) {
            (TSB, _) => return table::TVL,
            (GEO_ANYCAST | GEO_BROADCAST, Destination::Area(area)) => self.stop_with_area(&area),
            (GEO_UNICAST, _) => self
                .stop_holding(&addresses.destination)
                .or_else(|| self.stop_holding(&addresses.source)),
            _ => None,
        };
        fitting_stop.unwrap_or(DGVL)
    }

    fn stop_with_area(&self, area: &Area) -> Option<u64> {
        self.stops.iter().find(|(_, stop)| stop.area.equals(area)).map(|(&index, _)| index)
    }

    fn stop_holding(&self, address: &Address) -> Option<u64> {
        let mut stops = self.stops.iter();
        stops.find(|(_, stop)| stop.prefixes.holds_address(address)).map(|(&index, _)| index)
    }
}

impl Indication<'_> {
    /// Reply 1: a transport outside 1..4 or a destination of the wrong sort
    /// (even if its area is not good), a MID above 2^48 - 1.
    fn check_values(&self) -> Result<(), Refusal> {
        if !self.destination.is_of_the_sort_of(self.transport) {
            return Err(Refusal::ValueOutsideItsList);
        }
        check_mid(self.source)?;
        match self.destination {
            Destination::Mid(mid) => check_mid(mid),
            _ => Ok(()),
        }
    }

    fn check_area(&self) -> Result<(), Refusal> {
        match self.destination {
            Destination::Area(area) if !area.is_good() => Err(Refusal::AreaNotGood),
            _ => Ok(()),
        }
    }

    /// `frame-kind`: an Ethernet frame on a link of kind 1, the packet alone on
    /// every other; `frame-bytes`.
    fn frame(&self, kind: Kind) -> Vec<u8> {
        let mut frame = Vec::new();
        if kind == Kind::EthernetLan {
            let to = match self.destination {
                Destination::Mid(mid) => mac_bytes(mid),
                _ => TO_ALL,
            };
            frame.extend_from_slice(&to);
            frame.extend_from_slice(&mac_bytes(self.source));
            frame.extend_from_slice(&ETHERTYPE_IPV6);
        }
        frame.extend_from_slice(self.packet);
        frame
    }
}

#[cfg(test)]
mod tests;
