//! Requests: what is sent down (docs/RULES.md, "What leaves").

use crate::area::Area;
use crate::call::{Destination, GEO_BROADCAST, GEO_UNICAST, TSB};
use crate::hop::good_next_hop;
use crate::link::Interface;
use crate::mid::{check_mid, mid_of_address};
use crate::packet::{check_packet, is_multicast};
use crate::reply::Refusal;
use crate::table::{Table, DGVL, TVL};

/// `request-given`. The next hop is a run of bytes that may have any length.
#[derive(Clone, Copy, Debug, PartialEq, Eq)]
pub struct Request<'a> {
    pub index: u64,
    pub class: u8,
    pub neighbour: Option<u64>,
    pub next_hop: &'a [u8],
    pub packet: &'a [u8],
}

/// `request-reply`: transport, destination, class and packet length.
#[derive(Clone, Copy, Debug, PartialEq, Eq)]
pub struct Sending {
    pub transport: u64,
    pub destination: Destination,
    pub class: u8,
    pub length: usize,
}

impl Table {
    /// `request-refusals`: 1, 7, 9, 20, 21, 22, 10, 11, 12. The place of a refusal
    /// is [`fault_place`](crate::packet::fault_place).
    pub fn request(&self, request: &Request) -> Result<Sending, Refusal> {
        if let Some(mid) = request.neighbour {
            // Even where it would not be used.
            check_mid(mid)?;
        }
        let interface = self.interface(request.index)?;
        let to = check_packet(request.packet)?.destination;
        let (transport, destination) = if is_multicast(&to) {
            self.multicast(request.index)?
        } else {
            let mid = neighbour_mid(interface, request).ok_or(Refusal::NeighbourNotResolvable)?;
            (GEO_UNICAST, Destination::Mid(mid))
        };
        let length = request.packet.len();
        Ok(Sending { transport, destination, class: request.class, length })
    }

    /// `multicast-out`: TSB without destination on the TVL, GeoBroadcast to the
    /// link's area on the others; 11 on the DGVL without an area.
    fn multicast(&self, index: u64) -> Result<(u64, Destination), Refusal> {
        if index == TVL {
            return Ok((TSB, Destination::Nothing));
        }
        let area = self.area_of_link(index)?.ok_or(Refusal::MulticastWithoutArea)?;
        Ok((GEO_BROADCAST, Destination::Area(area)))
    }

    fn area_of_link(&self, index: u64) -> Result<Option<Area>, Refusal> {
        if index == DGVL {
            return Ok(self.dgvl_area);
        }
        let stop = self.stops.get(&index).ok_or(Refusal::NoEnabledLink)?;
        Ok(Some(stop.area))
    }
}

/// `neighbour-mid`: there is none where the next hop is not good, though one is
/// given; a derived MID ignores the one given.
fn neighbour_mid(interface: Interface, request: &Request) -> Option<u64> {
    let hop = good_next_hop(request.next_hop)?;
    match interface.derives_the_mid() {
        true => mid_of_address(&hop),
        false => request.neighbour,
    }
}

#[cfg(test)]
mod tests;
