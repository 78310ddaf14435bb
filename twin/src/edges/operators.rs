//! `edge-operators`: two operators on one mast.

use super::{link_or_number, packet, Case, LAN, STOP, STOP_AREA};
use crate::area::Area;
use crate::arriving::Indication;
use crate::call::{Destination, GEO_UNICAST};
use crate::packet::Address;
use crate::prefix::Prefix;
use crate::prefix_list::PrefixList;
use crate::reply::Refusal;
use crate::table::{StartSettings, StopSettings, Table};

/// The first of the stops, and where a second one goes.
const MAST: &str = "link 2";
const SECOND_MAST: &str = "link 3";

/// 2001:db8:a::/48, 2001:db8:b::/48, 2001:db8:b:1::/64 and 2001:db8:c::/48.
const FIRST: Prefix = prefix(0x0A, 0, 48);
const SECOND: Prefix = prefix(0x0B, 0, 48);
const INSIDE_SECOND: Prefix = prefix(0x0B, 1, 64);
const OTHER: Prefix = prefix(0x0C, 0, 48);

const fn prefix(third: u8, fourth: u8, length: u64) -> Prefix {
    Prefix { length, bytes: address(third, fourth, 0) }
}

/// 2001:db8:, the third and the fourth group, :: and the last one.
const fn address(third: u8, fourth: u8, last: u8) -> Address {
    [0x20, 0x01, 0x0D, 0xB8, 0, third, 0, fourth, 0, 0, 0, 0, 0, 0, 0, last]
}

pub fn cases() -> Vec<Case> {
    let [to_first, to_second] = [address(0x0A, 0, 1), address(0x0B, 0, 1)];
    let (from_second, nobody) = (address(0x0B, 7, 1), address(0x0D, 0, 1));
    let overlap = Refusal::PrefixOverlapsAnother.number().to_string();
    let too_many = Refusal::TooManyPrefixes.number().to_string();
    let five = PrefixList { count: 5, ..PrefixList::of(&[OTHER]) };
    [
        ("indication to the first operator", MAST, arrives(nobody, to_first)),
        ("indication to the second operator", MAST, arrives(nobody, to_second)),
        ("indication from the second operator", MAST, arrives(from_second, nobody)),
        (
            "second mast with a prefix inside the second operator's",
            &overlap,
            enabled(PrefixList::of(&[OTHER, INSIDE_SECOND])),
        ),
        ("second mast with its own prefix twice", &overlap, enabled(PrefixList::of(&[OTHER; 2]))),
        ("second mast with five prefixes", &too_many, enabled(five)),
        ("second mast without a prefix", SECOND_MAST, enabled(PrefixList::of(&[]))),
    ]
    .map(|(name, expected, got)| Case {
        name: name.to_string(),
        expected: expected.to_string(),
        got,
    })
    .into()
}

/// A table of maximum 3 with the mast of the two operators.
fn table() -> Table {
    let settings = StartSettings { own_mid: 1, maximum: 3, tvl: LAN, dgvl: LAN };
    let (_, mut table) = Table::start(&settings);
    // If this were refused, the cases would differ and say so.
    let _ = table.enable(&StopSettings { prefixes: PrefixList::of(&[FIRST, SECOND]), ..STOP });
    table
}

/// The link of an indication, or the number of its refusal.
fn arrives(source: Address, to: Address) -> String {
    let mut packet = packet();
    packet[8..24].copy_from_slice(&source);
    packet[24..40].copy_from_slice(&to);
    let destination = Destination::Mid(1);
    let indication =
        Indication { transport: GEO_UNICAST, source: 2, class: 0, destination, packet: &packet };
    let outcome = table().indication(&indication, &mut [0; 1_294]);
    link_or_number(outcome.map(|delivery| delivery.link))
}

/// The link of a second mast elsewhere, or the number of its refusal.
fn enabled(prefixes: PrefixList) -> String {
    let area = Area { latitude: 1_000, ..STOP_AREA };
    link_or_number(table().enable(&StopSettings { area, prefixes, ..STOP }))
}

#[cfg(test)]
mod tests {
    use super::super::tests::assert_printed;
    use super::*;

    #[test]
    fn as_they_are_printed() {
        let expected = [
            "indication to the first operator: expected link 2 got link 2",
            "indication to the second operator: expected link 2 got link 2",
            "indication from the second operator: expected link 2 got link 2",
            "second mast with a prefix inside the second operator's: expected 5 got 5",
            "second mast with its own prefix twice: expected 5 got 5",
            "second mast with five prefixes: expected 29 got 29",
            "second mast without a prefix: expected link 3 got link 3",
        ];
        assert_printed(&cases(), &expected);
    }
}
