//! Requests of a day, of kind 8 and of kind 7. Those of kind 7 are from before there
//! were next hops: the writer writes none any more (`record-hop`), so the generator
//! makes them.

use super::day::Day;
use super::{hops, values};
use crate::call::{kind, Call};
use crate::leaving::Request;
use crate::packet::{Address, UNSPECIFIED};
use crate::replay::Answer;
use crate::write::{joined, record_pieces, Piece};

/// How many pieces stand behind the next hop: the packet's length, and the packet.
const BEHIND_THE_HOP: usize = 2;

/// `record-old-request`: the record without its next hop, which must be 16 bytes.
pub fn old_request_pieces(request: &Request) -> Vec<Piece> {
    let mut pieces = record_pieces(&Call::Request(*request)).expect("a next hop of 16 bytes");
    pieces.remove(pieces.len() - BEHIND_THE_HOP - 1);
    pieces[0] = Piece::Number(kind::OLD_REQUEST);
    pieces
}

impl Day {
    /// A request of kind 8, or of kind 7.
    pub fn request_on(&mut self, index: u64, neighbour: Option<u64>, packet: &[u8]) -> Answer {
        if self.random.percent(40) {
            return self.old_request_on(index, neighbour, packet);
        }
        let next_hop = hops::any(&mut self.random, packet);
        self.request_by(index, neighbour, &next_hop, packet)
    }

    /// A request of kind 8 with this next hop.
    pub fn request_by(
        &mut self,
        index: u64,
        neighbour: Option<u64>,
        next_hop: &Address,
        packet: &[u8],
    ) -> Answer {
        let class = self.random.byte();
        self.add(&Call::Request(Request { index, class, neighbour, next_hop, packet }))
    }

    /// A request of kind 7: the reader says what its next hop is.
    pub fn old_request_on(&mut self, index: u64, neighbour: Option<u64>, packet: &[u8]) -> Answer {
        let class = self.random.byte();
        let next_hop = &UNSPECIFIED;
        let pieces = old_request_pieces(&Request { index, class, neighbour, next_hop, packet });
        self.add_record(&joined(&pieces))
    }

    /// Any request of this kind, 7 or 8.
    pub fn any_request(&mut self, wanted: u64) -> Answer {
        let index = self.index();
        let given = self.random.percent(50);
        let neighbour = given.then(|| values::mid(&mut self.random, self.bad));
        let packet = self.packet();
        if wanted == kind::OLD_REQUEST {
            return self.old_request_on(index, neighbour, &packet);
        }
        let next_hop = hops::any(&mut self.random, &packet);
        self.request_by(index, neighbour, &next_hop, &packet)
    }
}

#[cfg(test)]
mod tests {
    use super::*;

    #[test]
    fn the_record_has_no_next_hop() {
        let (next_hop, packet) = (&[0x55; 16], &[0xAA, 0xBB]);
        let request = Request { index: 2, class: 128, neighbour: Some(9), next_hop, packet };
        let expected = [7, 2, 0x80, 0x01, 1, 9, 2, 0xAA, 0xBB];
        assert_eq!(joined(&old_request_pieces(&request)), expected);
        let without = Request { neighbour: None, ..request };
        assert_eq!(joined(&old_request_pieces(&without)), [7, 2, 0x80, 0x01, 0, 2, 0xAA, 0xBB]);
    }
}
