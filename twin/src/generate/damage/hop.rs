//! Requests of kind 8 that are broken in their next hop (`record-broken`, 7).

use super::{encoded, pieces_of_kind, BrokenRecord};
use crate::call::kind;
use crate::generate::day::Day;
use crate::generate::random::Random;
use crate::hop::NEXT_HOP_LENGTH;
use crate::numbers::number_bytes;

/// The parts of a whole request of kind 8, and the place of its next hop among them:
/// behind it are the packet's length and the packet.
fn parts(random: &mut Random, day: &Day) -> (Vec<Vec<u8>>, usize) {
    let parts = encoded(&pieces_of_kind(random, day, kind::REQUEST));
    let place = parts.len() - 3;
    (parts, place)
}

/// The end of the file cuts the next hop, or stands just before or behind it.
pub fn cut(random: &mut Random, day: &Day) -> BrokenRecord {
    let (mut parts, place) = parts(random, day);
    parts.truncate(place + 1);
    parts[place].truncate(random.pick(&[0, 1, 8, 15, NEXT_HOP_LENGTH]));
    BrokenRecord { bytes: parts.concat(), must_be_last: true }
}

/// Some bytes of the next hop, or all, are left out. The packet has so few bytes that
/// all behind the gap is no longer than a next hop.
pub fn left_out(random: &mut Random, day: &Day) -> BrokenRecord {
    let (mut parts, place) = parts(random, day);
    let missing = random.pick(&[1, 2, 8, 15, 16, 16, 16]);
    let left = random.below(missing) as usize;
    parts[place].truncate(NEXT_HOP_LENGTH - missing as usize);
    parts[place + 1] = number_bytes(left as u64);
    parts[place + 2].truncate(left);
    BrokenRecord { bytes: parts.concat(), must_be_last: true }
}

#[cfg(test)]
mod tests {
    use super::*;
    use crate::generate::themes;
    use crate::read::read_record;

    #[test]
    fn each_is_broken_by_its_next_hop_alone() {
        let mut random = Random::new(7);
        let day = themes::mixed(Random::new(8));
        for make in [cut, left_out] {
            for _ in 0..300 {
                let BrokenRecord { mut bytes, must_be_last } = make(&mut random, &day);
                assert!(must_be_last && read_record(&bytes, 0).is_err(), "{bytes:02x?}");
                // A next hop of zeros and an empty packet.
                bytes.extend([0; NEXT_HOP_LENGTH + 1]);
                assert!(read_record(&bytes, 0).is_ok(), "{bytes:02x?}");
            }
        }
    }
}
