//! Days with one broken record among whole ones, broken at every kind of place
//! that `record-broken` names.

mod hop;
mod list;

use super::day::Day;
use super::enables::{old_enable_pieces, PLACE_OF_COUNT};
use super::random::Random;
use super::requests::old_request_pieces;
use super::themes;
use super::values::{alias, wide_alias};
use crate::call::{kind, Call};
use crate::listing::RecordKind;
use crate::numbers::number_bytes;
use crate::read::read_record;
use crate::write::{record_pieces, Piece};

/// A broken record, and whether it is broken only at the end of the file.
struct BrokenRecord {
    bytes: Vec<u8>,
    must_be_last: bool,
}

/// A whole day in whose midst, or before whose start, stands a broken record.
pub fn damaged(mut random: Random) -> Vec<u8> {
    let day = themes::any(Random::new(random.number()));
    let place = match random.percent(10) {
        true => 0,
        false => late_place(&mut random, &day),
    };
    let broken = broken_record(&mut random, &day);
    with_broken_record(&day, place, broken)
}

/// The day with a broken record of this kind in its midst, or with one that shows no
/// kind.
pub fn damaged_in_kind(random: &mut Random, day: &Day, damaged: RecordKind) -> Vec<u8> {
    let broken = match damaged {
        RecordKind::Unknown => unknown_kind_of_whole_record(random, day),
        RecordKind::Unreadable => unreadable_kind(random),
        RecordKind::Known(wanted) => match random.below(3) {
            0 => cut(random, day, wanted),
            1 => number_replaced(random, day, wanted, overlong),
            _ => number_replaced(random, day, wanted, too_large),
        },
    };
    let place = late_place(random, day);
    with_broken_record(day, place, broken)
}

/// A whole day in whose midst stands a record of kind 9 that is broken in its list, in
/// the way of this number.
pub fn damaged_in_list(mut random: Random, way: u64) -> Vec<u8> {
    let day = themes::any(Random::new(random.number()));
    let broken = list::broken(&mut random, way);
    let place = late_place(&mut random, &day);
    with_broken_record(&day, place, broken)
}

/// The offset of a record behind the first third of them.
fn late_place(random: &mut Random, day: &Day) -> usize {
    let places = day.offsets();
    random.pick(&places[places.len() / 3..])
}

fn with_broken_record(day: &Day, place: usize, broken: BrokenRecord) -> Vec<u8> {
    let mut bytes = day.bytes()[..place].to_vec();
    bytes.extend(broken.bytes);
    if !broken.must_be_last {
        bytes.extend_from_slice(&day.bytes()[place..]);
    }
    bytes
}

fn broken_record(random: &mut Random, day: &Day) -> BrokenRecord {
    match random.below(30) {
        0 | 1 => unknown_kind(random),
        2..=4 => unknown_kind_of_whole_record(random, day),
        5 => unreadable_kind(random),
        6..=8 => {
            let wanted = any_kind(random);
            cut(random, day, wanted)
        }
        9..=11 => {
            let wanted = any_kind(random);
            number_replaced(random, day, wanted, overlong)
        }
        12..=14 => {
            let wanted = any_kind(random);
            number_replaced(random, day, wanted, too_large)
        }
        15 => number_cut(random, day),
        16 | 17 => packet_beyond_the_end(random, day),
        18 | 19 => hop::cut(random, day),
        20..=22 => hop::left_out(random, day),
        _ => value_out_of_bounds(random, day),
    }
}

/// The pieces of a whole record of this kind that would fit into the day.
fn pieces_of_kind(random: &mut Random, day: &Day, wanted: u64) -> Vec<Piece> {
    let mut scratch = day.clone();
    scratch.random = Random::new(random.number());
    scratch.bad = 0;
    scratch.any_of_kind(wanted);
    let (call, _) = read_record(scratch.last_record(), 0).expect("just written");
    match call {
        Call::Request(request) if wanted == kind::OLD_REQUEST => old_request_pieces(&request),
        Call::Enable(settings) if wanted == kind::OLD_ENABLE => old_enable_pieces(&settings),
        call => record_pieces(&call).expect("just written"),
    }
}

fn encoded(pieces: &[Piece]) -> Vec<Vec<u8>> {
    pieces.iter().map(|piece| crate::write::joined(std::slice::from_ref(piece))).collect()
}

fn number_places(pieces: &[Piece]) -> Vec<usize> {
    let is_number = |place: &usize| matches!(pieces[*place], Piece::Number(_));
    (0..pieces.len()).filter(is_number).collect()
}

fn any_kind(random: &mut Random) -> u64 {
    random.between(kind::START, kind::LAST)
}

fn unknown_kind(random: &mut Random) -> BrokenRecord {
    let known = any_kind(random);
    let number = match random.percent(50) {
        true => alias(random, known),
        false => random.pick(&[0, 10, 11, 12, 64, 127, 128, 255, 1 << 63, u64::MAX]),
    };
    BrokenRecord { bytes: number_bytes(number), must_be_last: false }
}

/// A whole record, most often an enable or a request, but for its kind, which is just
/// outside 1..9.
fn unknown_kind_of_whole_record(random: &mut Random, day: &Day) -> BrokenRecord {
    let wanted = match random.percent(60) {
        true => random.pick(&[kind::REQUEST, kind::ENABLE]),
        false => any_kind(random),
    };
    let mut pieces = pieces_of_kind(random, day, wanted);
    pieces[0] = Piece::Number(random.pick(&[0, 10]));
    BrokenRecord { bytes: encoded(&pieces).concat(), must_be_last: false }
}

fn unreadable_kind(random: &mut Random) -> BrokenRecord {
    let known = any_kind(random);
    let bytes = match random.percent(60) {
        true => overlong(random, known),
        false => too_large(random, known),
    };
    BrokenRecord { bytes, must_be_last: false }
}

/// The number with needless groups of zeros behind it.
fn overlong(random: &mut Random, number: u64) -> Vec<u8> {
    let mut bytes = number_bytes(number);
    let most = 10_usize.saturating_sub(bytes.len()).max(1) as u64;
    for _ in 0..random.between(1, most) {
        *bytes.last_mut().expect("a number has a byte") |= 0x80;
        bytes.push(0);
    }
    bytes
}

/// A number above 2^64 - 1 whose lowest groups are the number's.
fn too_large(random: &mut Random, number: u64) -> Vec<u8> {
    let mut bytes = number_bytes(number);
    bytes.resize(random.pick(&[10, 10, 10, 11, 12, 19]), 0);
    let last = bytes.len() - 1;
    bytes[..last].iter_mut().for_each(|byte| *byte |= 0x80);
    bytes[last] = random.pick(&[0x02, 0x03, 0x40, 0x7F]);
    bytes
}

/// One number of a record, the kind aside, in a wrong form.
fn number_replaced(
    random: &mut Random,
    day: &Day,
    wanted: u64,
    wrong: fn(&mut Random, u64) -> Vec<u8>,
) -> BrokenRecord {
    let pieces = pieces_of_kind(random, day, wanted);
    let place = random.pick(&number_places(&pieces)[1..]);
    let mut parts = encoded(&pieces);
    if let Piece::Number(number) = pieces[place] {
        parts[place] = wrong(random, number);
    }
    BrokenRecord { bytes: parts.concat(), must_be_last: false }
}

/// A record that the end of the file cuts anywhere behind its first byte.
fn cut(random: &mut Random, day: &Day, wanted: u64) -> BrokenRecord {
    let mut bytes = encoded(&pieces_of_kind(random, day, wanted)).concat();
    let whole = bytes.len() as u64;
    let left = if random.percent(30) { whole - 1 } else { random.between(1, whole - 1) };
    bytes.truncate(left as usize);
    BrokenRecord { bytes, must_be_last: true }
}

/// The end of the file cuts a number: all its bytes have the top bit set.
fn number_cut(random: &mut Random, day: &Day) -> BrokenRecord {
    let wanted = any_kind(random);
    let pieces = pieces_of_kind(random, day, wanted);
    let place = random.pick(&number_places(&pieces));
    let mut parts = encoded(&pieces);
    parts.truncate(place);
    let bytes_left = random.between(1, 9);
    parts.push((0..bytes_left).map(|_| random.byte() | 0x80).collect());
    BrokenRecord { bytes: parts.concat(), must_be_last: true }
}

/// A packet length above what is left, by one or by very much.
fn packet_beyond_the_end(random: &mut Random, day: &Day) -> BrokenRecord {
    let wanted = random.pick(&[kind::INDICATION, kind::OLD_REQUEST, kind::REQUEST]);
    let pieces = pieces_of_kind(random, day, wanted);
    let mut parts = encoded(&pieces);
    let place = pieces.len() - 2;
    let length = parts[place + 1].len() as u64;
    // Added to an offset, a length just below 2^64 may wrap to one before it.
    let wrapping = u64::MAX - random.below(70_000);
    let (claimed, must_be_last) = match random.below(4) {
        0 => (wide_alias(random, length), false),
        1 => (random.pick(&[wrapping, u64::MAX, 1 << 63]), false),
        _ => (length + random.pick(&[1, 1, 2, 100]), true),
    };
    parts[place] = number_bytes(claimed);
    BrokenRecord { bytes: parts.concat(), must_be_last }
}

/// The places of the numbers with bounds of their own (in front of each stands
/// the record kind), and the first numbers outside these bounds.
const BOUNDED: [(u64, usize, &[u64]); 9] = [
    // prefix length
    (kind::OLD_ENABLE, PLACE_OF_COUNT, &[129, 130, 136, 255]),
    // count of prefixes
    (kind::ENABLE, PLACE_OF_COUNT, &[5, 6, 255]),
    // choice of an area
    (kind::DGVL_AREA, 1, &[2, 3]),
    // transport
    (kind::INDICATION, 1, &[0, 5]),
    // class
    (kind::INDICATION, 3, &[256, 257]),
    (kind::OLD_REQUEST, 2, &[256, 257]),
    (kind::REQUEST, 2, &[256, 257]),
    // choice of a neighbour's MID
    (kind::OLD_REQUEST, 3, &[2, 3]),
    (kind::REQUEST, 3, &[2, 3]),
];

/// A number just outside its bounds, one that a narrow type would take for the
/// right number, or a very large one.
fn value_out_of_bounds(random: &mut Random, day: &Day) -> BrokenRecord {
    let (wanted, place, just_outside) = random.pick(&BOUNDED);
    let pieces = pieces_of_kind(random, day, wanted);
    let mut parts = encoded(&pieces);
    let outside = match pieces[place] {
        Piece::Number(stood) if random.percent(45) => alias(random, stood),
        _ if random.percent(15) => random.pick(&[65_535, 1 << 63, u64::MAX]),
        _ => random.pick(just_outside),
    };
    parts[place] = number_bytes(outside);
    BrokenRecord { bytes: parts.concat(), must_be_last: false }
}

#[cfg(test)]
mod tests {
    use super::*;
    use crate::limits::DAYLIST;
    use crate::listing::lines;
    use crate::numbers::read_number;

    #[test]
    fn wrong_numbers_are_no_numbers() {
        let mut random = Random::new(4);
        for bit in 0..64 {
            let number = random.number() >> bit;
            assert_eq!(read_number(&overlong(&mut random, number)), None);
            assert_eq!(read_number(&too_large(&mut random, number)), None);
        }
    }

    #[test]
    fn every_broken_record_is_broken_alone() {
        let mut random = Random::new(5);
        let day = themes::mixed(Random::new(6));
        for _ in 0..2_000 {
            let broken = broken_record(&mut random, &day);
            assert!(read_record(&broken.bytes, 0).is_err(), "{:02x?}", broken.bytes);
        }
    }

    #[test]
    fn every_damaged_day_ends_with_14() {
        for seed in 0..150 {
            let bytes = damaged(Random::new(seed));
            if bytes.len() <= DAYLIST.most_input {
                let last = lines(DAYLIST, &bytes).last().unwrap().answer.reply;
                assert_eq!(last, 14, "seed {seed}");
            }
        }
    }
}
