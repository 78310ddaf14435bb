//! `edge-film-server`, and other requests on the only stop link with what they send
//! down (`request-reply`). What is expected was worked out by hand.

use super::{packet, table_with_stop_of_flag, Case};
use crate::area::Area;
use crate::call::Destination;
use crate::leaving::{Request, Sending};
use crate::mid::mac_text;
use crate::packet::{Address, UNSPECIFIED};
use crate::reply::Refusal;
use crate::table::FIRST_STOP;

/// 2001:db8::5, in the Internet: without FF FE.
const FILM_SERVER: Address = [0x20, 0x01, 0x0D, 0xB8, 0, 0, 0, 0, 0, 0, 0, 0, 0, 0, 0, 5];
/// fe80::ff:fe00:1, of 02:00:00:00:00:01.
const MAST: Address = [0xFE, 0x80, 0, 0, 0, 0, 0, 0, 0, 0, 0, 0xFF, 0xFE, 0, 0, 1];
/// 2001:db8::1.
const PLAIN_MAST: Address = [0x20, 0x01, 0x0D, 0xB8, 0, 0, 0, 0, 0, 0, 0, 0, 0, 0, 0, 1];
/// ff02::1.
const TO_ALL: Address = [0xFF, 0x02, 0, 0, 0, 0, 0, 0, 0, 0, 0, 0, 0, 0, 0, 1];
/// 02:00:00:00:00:02.
const GIVEN: u64 = (1 << 41) + 2;

/// What differs between the four: the stop's flag, the packet's destination, the next
/// hop, and the MID that is given.
struct Sent {
    flag: u64,
    to: Address,
    next_hop: Address,
    neighbour: Option<u64>,
}

const BY_THE_MAST: Sent = Sent { flag: 1, to: FILM_SERVER, next_hop: MAST, neighbour: None };

pub fn cases() -> Vec<Case> {
    let by_itself = Sent { next_hop: FILM_SERVER, ..BY_THE_MAST };
    let by_given = Sent { flag: 0, next_hop: PLAIN_MAST, neighbour: Some(GIVEN), ..BY_THE_MAST };
    let to_all = Sent { to: TO_ALL, next_hop: UNSPECIFIED, ..BY_THE_MAST };
    [
        (
            "request to a film server behind the mast",
            "1 to 02:00:00:00:00:01 class 7 length 40",
            BY_THE_MAST,
        ),
        ("request to a film server as its own next hop", "12", by_itself),
        (
            "request by a mast without FF FE, MID given",
            "1 to 02:00:00:00:00:02 class 7 length 40",
            by_given,
        ),
        ("multicast request with next hop ::", "3 to 1 0 0 500 300 90 class 7 length 40", to_all),
    ]
    .map(|(name, expected, sent)| Case {
        name: name.to_string(),
        expected: expected.to_string(),
        got: text(sent.outcome()),
    })
    .into()
}

impl Sent {
    fn outcome(&self) -> Result<Sending, Refusal> {
        let mut packet = packet();
        packet[24..40].copy_from_slice(&self.to);
        table_with_stop_of_flag(self.flag).request(&Request {
            index: FIRST_STOP,
            class: 7,
            neighbour: self.neighbour,
            next_hop: &self.next_hop,
            packet: &packet,
        })
    }
}

/// The number of a refusal alone.
fn text(outcome: Result<Sending, Refusal>) -> String {
    match outcome {
        Ok(Sending { transport, destination, class, length }) => {
            format!("{transport} to {} class {class} length {length}", place(&destination))
        }
        Err(refusal) => refusal.number().to_string(),
    }
}

fn place(destination: &Destination) -> String {
    match destination {
        Destination::Mid(mid) => mac_text(*mid),
        Destination::Area(Area { shape, latitude, longitude, a, b, angle }) => {
            format!("{shape} {latitude} {longitude} {a} {b} {angle}")
        }
        Destination::Nothing => "nothing".to_string(),
    }
}

#[cfg(test)]
mod tests {
    use super::super::tests::assert_printed;
    use super::*;

    #[test]
    fn as_they_are_printed() {
        let expected = [
            "request to a film server behind the mast: \
             expected 1 to 02:00:00:00:00:01 class 7 length 40 \
             got 1 to 02:00:00:00:00:01 class 7 length 40",
            "request to a film server as its own next hop: expected 12 got 12",
            "request by a mast without FF FE, MID given: \
             expected 1 to 02:00:00:00:00:02 class 7 length 40 \
             got 1 to 02:00:00:00:00:02 class 7 length 40",
            "multicast request with next hop ::: \
             expected 3 to 1 0 0 500 300 90 class 7 length 40 \
             got 3 to 1 0 0 500 300 90 class 7 length 40",
        ];
        assert_printed(&cases(), &expected);
    }
}
