//! Next hops of requests (`next-hop`): good ones with and without FF FE, those that
//! can be no neighbour's, and their near misses; and days of requests with them.

use super::day::Day;
use super::packets;
use super::prefixes::turned;
use super::random::Random;
use super::values;
use crate::mid::link_local_address;
use crate::packet::{destination_bytes, Address, LOOPBACK, UNSPECIFIED};

/// Each sort of next hop, whatever the packet is.
type Maker = fn(&mut Random) -> Address;
pub const MAKERS: [Maker; 9] = [
    packets::with_identifier,
    packets::without_identifier,
    |_| UNSPECIFIED,
    |_| LOOPBACK,
    packets::multicast,
    multicast_with_identifier,
    near_unspecified,
    near_loopback,
    near_multicast,
];

/// Those that are not good.
pub const BAD_MAKERS: [Maker; 4] =
    [|_| UNSPECIFIED, |_| LOOPBACK, packets::multicast, multicast_with_identifier];

fn multicast_with_identifier(random: &mut Random) -> Address {
    let mut address = packets::with_identifier(random);
    address[0] = 0xFF;
    if random.percent(50) {
        address[1] = random.pick(&[0x01, 0x02, 0x05, 0x0E]);
    }
    address
}

/// Good: :: but for one bit, or for FF FE and a few.
fn near_unspecified(random: &mut Random) -> Address {
    match random.below(3) {
        0 => first_bytes_cleared(random, 8),
        1 => turned(&UNSPECIFIED, 126),
        // The last bit would make it ::1.
        _ => turned(&UNSPECIFIED, random.below(127)),
    }
}

/// Good: ::1 but for one bit, or with FF FE before it.
fn near_loopback(random: &mut Random) -> Address {
    if random.percent(30) {
        let mut address = first_bytes_cleared(random, 11);
        address[13..].copy_from_slice(&[0, 0, 1]);
        return address;
    }
    turned(&LOOPBACK, random.below(127))
}

/// Good: it begins with fe, with or without FF FE, or has ff in another byte.
fn near_multicast(random: &mut Random) -> Address {
    let mut address = match random.percent(50) {
        true => packets::with_identifier(random),
        false => packets::without_identifier(random),
    };
    let first = random.pick(&[0xFE, 0xFE, 0xFD, 0x7F, 0xEF, 0x00]);
    address[..2].copy_from_slice(&[first, random.pick(&[0xFF, 0x02, 0xC0])]);
    address
}

/// With FF FE, and zeros before.
fn first_bytes_cleared(random: &mut Random, count: usize) -> Address {
    let mut address = link_local_address(values::mid(random, 0));
    address[..count].fill(0);
    address
}

/// A next hop for a packet: a mast, the packet's own destination, or any of the sorts.
pub fn any(random: &mut Random, packet: &[u8]) -> Address {
    let to = destination_bytes(packet).and_then(|to| Address::try_from(to).ok());
    match (random.below(10), to) {
        (0..=2, Some(to)) => to,
        (3..=5, _) => packets::with_identifier(random),
        _ => random.pick(&MAKERS)(random),
    }
}

/// Requests with each sort of next hop, on links of each kind that links can have and
/// each flag, with a MID given and without, to one neighbour and to all; and the same
/// packets as requests of kind 7.
pub fn next_hops(random: Random) -> Day {
    let mut day = Day::new(random, 0);
    day.good_start(7);
    day.enable_each_interface();
    if day.random.percent(50) {
        day.any_records(1, &[0, 0, 0, 1, 0, 0, 0, 0, 0]);
    }
    for index in 0..=6 {
        request_with_each(&mut day, index);
    }
    day.bad = 5;
    day.any_records(30, &[0, 1, 1, 2, 1, 2, 10, 20, 1]);
    day
}

/// Requests on this index with each sort of next hop.
pub fn request_with_each(day: &mut Day, index: u64) {
    for maker in MAKERS {
        request_with(day, index, maker);
    }
}

fn request_with(day: &mut Day, index: u64, maker: Maker) {
    let unicast = match day.random.below(3) {
        0 => packets::with_identifier(&mut day.random),
        1 => packets::without_identifier(&mut day.random),
        _ => near_multicast(&mut day.random),
    };
    let multicast = packets::multicast(&mut day.random);
    for to in [unicast, unicast, multicast] {
        let source = packets::address(&mut day.random, &[], 0);
        let packet = packets::packet(&mut day.random, &source, &to, 40);
        let next_hop = maker(&mut day.random);
        let given = values::mid(&mut day.random, 0);
        day.request_by(index, None, &next_hop, &packet);
        day.request_by(index, Some(given), &next_hop, &packet);
        if day.random.percent(25) {
            let neighbour = day.random.percent(50).then_some(given);
            day.old_request_on(index, neighbour, &packet);
        }
    }
}

#[cfg(test)]
mod tests {
    use super::*;
    use crate::hop::good_next_hop;
    use crate::mid::mid_of_address;

    #[test]
    fn each_is_good_or_bad_as_it_is_meant() {
        let mut random = Random::new(31);
        for _ in 0..500 {
            for (place, maker) in MAKERS.iter().enumerate() {
                let hop = maker(&mut random);
                let good = !(2..=5).contains(&place);
                assert_eq!(good_next_hop(&hop).is_some(), good, "{place}: {hop:02x?}");
            }
            for maker in BAD_MAKERS {
                assert_eq!(good_next_hop(&maker(&mut random)), None);
            }
            assert_eq!(multicast_with_identifier(&mut random)[11..13], [0xFF, 0xFE]);
        }
    }

    #[test]
    fn near_misses_are_with_and_without_ff_fe() {
        let mut random = Random::new(32);
        for maker in [near_unspecified, near_loopback, near_multicast] {
            let hops = [(); 200].map(|()| maker(&mut random));
            let with = hops.iter().filter(|hop| mid_of_address(hop).is_some()).count();
            assert!((20..180).contains(&with), "{with}");
        }
    }
}
