//! Stops by the thousands: their areas all differ, and their prefixes lie apart.

use super::packets::near_prefix;
use super::prefixes::first_bits;
use super::random::Random;
use crate::area::{Area, LATITUDE_BOUND, LONGITUDE_BOUND};
use crate::packet::Address;
use crate::prefix::Prefix;

/// The cell of a stop has so many bits: enough for each index of the longest run, and
/// as many again for further prefixes and for stops that are not enabled.
const CELL_BITS: u64 = 13;
const CELLS: u64 = 1 << CELL_BITS;
/// The cells lie in rows from west to east.
const CELLS_OF_A_ROW: u64 = 128;

#[derive(Clone, Debug)]
pub struct City {
    /// The corner in the south-west, and how far two cells are apart.
    south: i128,
    west: i128,
    step: u64,
    /// The prefixes have the first bits of this network, as many as `place` says; then
    /// come the bits of the cell.
    network: u128,
    place: u64,
    /// An odd number, so that neighbours in the table are none on the ground.
    stride: u64,
    /// The number of the next new stop.
    next: u64,
}

impl City {
    pub fn new(random: &mut Random) -> City {
        City {
            south: i128::from(random.below(1_700_000_000)) - LATITUDE_BOUND,
            west: i128::from(random.below(3_500_000_000)) - LONGITUDE_BOUND,
            step: random.pick(&[2, 1_000, 50_000]),
            // Apart from the blocks of `prefixes::of_block`, which begin with 001.
            network: 1 << 126 | u128::from_be_bytes(random.bytes()) >> 2,
            place: random.between(2, 64),
            stride: random.below(CELLS) | 1,
            next: 0,
        }
    }

    fn cell(&self, number: u64) -> u64 {
        number * self.stride % CELLS
    }

    fn area(&self, random: &mut Random, number: u64) -> Area {
        let (row, column) =
            (self.cell(number) / CELLS_OF_A_ROW, self.cell(number) % CELLS_OF_A_ROW);
        Area {
            shape: random.below(3),
            latitude: self.south + i128::from(row * self.step),
            longitude: self.west + i128::from(column * self.step),
            a: random.between(1, 300),
            b: random.between(1, 300),
            angle: random.below(360),
        }
    }

    fn prefix(&self, random: &mut Random, number: u64) -> Prefix {
        let shortest = self.place + CELL_BITS;
        let network = first_bits(&self.network.to_be_bytes(), self.place);
        let cell = u128::from(self.cell(number)) << (128 - shortest);
        let tail = u128::from_be_bytes(random.bytes()) >> shortest;
        let bits = u128::from_be_bytes(network.bytes) | cell | tail;
        // Few are long, so that a day has room for thousands.
        let longest = if random.percent(15) { 128 } else { (shortest + 16).min(128) };
        first_bits(&bits.to_be_bytes(), random.between(shortest, longest))
    }

    /// A new stop with so many prefixes, each of a cell of its own.
    pub fn stop(&mut self, random: &mut Random, count: usize) -> (Area, Vec<Prefix>) {
        let first = self.next;
        self.next += count.max(1) as u64;
        let prefixes = (first..).take(count).map(|number| self.prefix(random, number)).collect();
        (self.area(random, first), prefixes)
    }

    /// A new stop. Few have several prefixes, so that a day has room for thousands.
    pub fn any_stop(&mut self, random: &mut Random) -> (Area, Vec<Prefix>) {
        let count = random.pick(&[0, 0, 0, 1, 1, 1, 1, 1, 2, 4]);
        self.stop(random, count)
    }

    /// An area and an address in the city, of a cell where no stop is yet.
    pub fn elsewhere(&self, random: &mut Random) -> (Area, Address) {
        let number = random.between(self.next, CELLS - 1);
        let prefix = self.prefix(random, number);
        (self.area(random, number), near_prefix(random, &prefix, true))
    }
}

#[cfg(test)]
mod tests {
    use super::*;
    use std::collections::BTreeSet;

    #[test]
    fn areas_differ_and_prefixes_lie_apart() {
        for seed in 0..20 {
            let mut random = Random::new(seed);
            let mut city = City::new(&mut random);
            let (mut centres, mut cells) = (BTreeSet::new(), BTreeSet::new());
            for number in 0..4_500 {
                let (area, prefixes) = match number % 2 {
                    0 => city.stop(&mut random, 1),
                    _ => city.any_stop(&mut random),
                };
                assert!(area.is_good(), "{area:?}");
                // No change moves a centre that is not at an end of the longitudes.
                assert!(area.longitude.abs() < LONGITUDE_BOUND);
                assert!(centres.insert((area.latitude, area.longitude)));
                // Equally many first bits of each tell all of them apart.
                for prefix in prefixes {
                    assert!(prefix.is_good() && prefix.length >= city.place + CELL_BITS);
                    assert!(cells.insert(first_bits(&prefix.bytes, city.place + CELL_BITS).bytes));
                }
            }
            let (area, address) = city.elsewhere(&mut random);
            assert!(!centres.contains(&(area.latitude, area.longitude)));
            assert!(!cells.contains(&first_bits(&address, city.place + CELL_BITS).bytes));
        }
    }
}
