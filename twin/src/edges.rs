//! The cases of "Cases at the edges" that bear no *. They run in a program, and
//! in an independent second one (`edge-stars`): this is the second one.

mod operators;
mod sent;

use crate::area::{Area, RECTANGLE};
use crate::arriving::Indication;
use crate::call::{Destination, GEO_BROADCAST, TSB};
use crate::leaving::Request;
use crate::link::InterfaceNumbers;
use crate::packet::{fault_place, UNSPECIFIED};
use crate::prefix::Prefix;
use crate::prefix_list::{PrefixList, NO_PREFIXES};
use crate::reply::{Refusal, DONE};
use crate::table::{StartSettings, StopSettings, Table, DGVL, TVL};

pub struct Case {
    pub name: String,
    pub expected: String,
    pub got: String,
}

impl Case {
    pub fn agrees(&self) -> bool {
        self.expected == self.got
    }

    pub fn line(&self) -> String {
        format!("{}: expected {} got {}", self.name, self.expected, self.got)
    }
}

pub fn cases() -> Vec<Case> {
    let mut cases = operators::cases();
    cases.extend([
        second_stop_at_maximum_2(),
        broadcast_beside_the_only_stop(),
        buffer_of_packet_and_13(),
    ]);
    cases.extend(places_of_bad_packets());
    cases.extend(sent::cases());
    cases
}

const LAN: InterfaceNumbers = InterfaceNumbers { kind: 1, flag: 1 };
const STOP_AREA: Area =
    Area { shape: RECTANGLE, latitude: 0, longitude: 0, a: 500, b: 300, angle: 90 };
const STOP: StopSettings = StopSettings { area: STOP_AREA, prefixes: NO_PREFIXES, interface: LAN };

/// A table of maximum 2 whose only stop link has STOP's settings.
fn table_with_one_stop() -> Table {
    table_with_stop_of_flag(STOP.interface.flag)
}

/// As above, but for the stop's flag.
fn table_with_stop_of_flag(flag: u64) -> Table {
    let settings = StartSettings { own_mid: 1, maximum: 2, tvl: LAN, dgvl: LAN };
    let (_, mut table) = Table::start(&settings);
    let interface = InterfaceNumbers { flag, ..LAN };
    // If this were refused, the cases below would differ and say so.
    let _ = table.enable(&StopSettings { interface, ..STOP });
    table
}

/// A packet of 40 bytes from fe80::1 to ff02::1.
fn packet() -> Vec<u8> {
    let mut packet = vec![0; 40];
    packet[0] = 0x60;
    (packet[8], packet[9], packet[23]) = (0xFE, 0x80, 1);
    (packet[24], packet[25], packet[39]) = (0xFF, 0x02, 1);
    packet
}

fn tsb(packet: &[u8]) -> Indication<'_> {
    Indication { transport: TSB, source: 2, class: 0, destination: Destination::Nothing, packet }
}

fn number_of<T>(outcome: Result<T, Refusal>) -> u8 {
    outcome.map_or_else(Refusal::number, |_| DONE)
}

fn link_or_number(outcome: Result<u64, Refusal>) -> String {
    match outcome {
        Ok(link) => format!("link {link}"),
        refused => number_of(refused).to_string(),
    }
}

/// `edge-full`: maximum 2 and one stop link, a second with new settings gets 6.
fn second_stop_at_maximum_2() -> Case {
    let mut bytes = [0; 16];
    bytes[0] = 0x20;
    let second = StopSettings {
        area: Area { latitude: 1_000, ..STOP_AREA },
        prefixes: PrefixList::of(&[Prefix { length: 8, bytes }]),
        ..STOP
    };
    let outcome = table_with_one_stop().enable(&second);
    Case {
        name: "second stop link at maximum 2".to_string(),
        expected: Refusal::NoIndexFree.number().to_string(),
        got: number_of(outcome).to_string(),
    }
}

/// `edge-angle`: a broadcast to a rectangle whose angle alone differs, by one,
/// from the only stop link's goes to the DGVL.
fn broadcast_beside_the_only_stop() -> Case {
    let packet = packet();
    let area = Area { angle: STOP_AREA.angle + 1, ..STOP_AREA };
    let indication = Indication {
        transport: GEO_BROADCAST,
        source: 2,
        class: 0,
        destination: Destination::Area(area),
        packet: &packet,
    };
    let outcome = table_with_one_stop().indication(&indication, &mut [0; 1_294]);
    Case {
        name: "broadcast to a rectangle with the angle one off".to_string(),
        expected: format!("link {DGVL}"),
        got: link_or_number(outcome.map(|delivery| delivery.link)),
    }
}

/// `edge-room`: a buffer of packet + 13 is 13, and stays unchanged.
fn buffer_of_packet_and_13() -> Case {
    let packet = packet();
    let indication = tsb(&packet);
    let before = vec![0x5A; packet.len() + 13];
    let mut buffer = before.clone();
    let outcome = table_with_one_stop().indication(&indication, &mut buffer);
    let state = if buffer == before { "unchanged" } else { "changed" };
    Case {
        name: "buffer of packet + 13".to_string(),
        expected: format!("{} unchanged", Refusal::NoRoom.number()),
        got: format!("{} {state}", number_of(outcome)),
    }
}

/// `edge-place`: an indication and a request with a packet of 39 bytes are 20 at
/// place 39; of version 5, 21 at place 0; with the length field one too large, 22
/// at place 4.
fn places_of_bad_packets() -> Vec<Case> {
    let (mut short, mut version, mut field) = (packet(), packet(), packet());
    short.truncate(39);
    version[0] = 0x50;
    field[5] = 1;
    let cases = [
        received_and_sent("of 39 bytes", &short, Refusal::PacketShort, 39),
        received_and_sent("of version 5", &version, Refusal::VersionNot6, 0),
        received_and_sent(
            "with the length field one too large",
            &field,
            Refusal::LengthFieldWrong,
            4,
        ),
    ];
    cases.into_iter().flatten().collect()
}

/// The packet in an indication, and in a request on the TVL.
fn received_and_sent(what: &str, packet: &[u8], refusal: Refusal, place: usize) -> [Case; 2] {
    let table = table_with_one_stop();
    let indicated = table.indication(&tsb(packet), &mut [0; 1_294]);
    let next_hop = &UNSPECIFIED;
    let request = Request { index: TVL, class: 0, neighbour: None, next_hop, packet };
    let requested = table.request(&request);
    [
        ("indication", number_and_place(indicated, packet)),
        ("request", number_and_place(requested, packet)),
    ]
    .map(|(call, got)| Case {
        name: format!("{call} {what}"),
        expected: format!("{} at {place}", refusal.number()),
        got,
    })
}

fn number_and_place<T>(outcome: Result<T, Refusal>, packet: &[u8]) -> String {
    let place = outcome.as_ref().map_or_else(|refusal| fault_place(*refusal, packet), |_| 0);
    format!("{} at {place}", number_of(outcome))
}

#[cfg(test)]
mod tests {
    use super::*;

    pub fn assert_printed(cases: &[Case], lines: &[&str]) {
        assert_eq!(cases.iter().map(Case::line).collect::<Vec<_>>(), lines);
    }

    #[test]
    fn all_twenty_agree() {
        let cases = cases();
        assert_eq!(cases.len(), 7 + 9 + 4);
        for case in cases {
            assert!(case.agrees(), "{}", case.line());
        }
    }
}
