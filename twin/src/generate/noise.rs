//! Files without care for the form: turned bytes, cut files, random bytes.

use super::random::Random;
use super::themes;

/// A whole day in which a few bytes are changed anywhere.
pub fn bytes_changed(mut random: Random) -> Vec<u8> {
    let mut bytes = themes::any(Random::new(random.number())).into_bytes();
    for _ in 0..random.between(1, 4) {
        let place = random.below(bytes.len() as u64) as usize;
        bytes[place] = match random.below(3) {
            0 => random.byte(),
            1 => bytes[place] ^ 1 << random.below(8),
            _ => random.pick(&[0x00, 0x01, 0x7F, 0x80, 0xFF]),
        };
    }
    bytes
}

/// A whole day cut anywhere, or with a few bytes taken out or put in.
pub fn cut_or_shifted(mut random: Random) -> Vec<u8> {
    let mut bytes = themes::any(Random::new(random.number())).into_bytes();
    let place = random.below(bytes.len() as u64 + 1) as usize;
    match random.below(3) {
        0 => bytes.insert(place, random.byte()),
        1 if place < bytes.len() => {
            bytes.remove(place);
        }
        _ => bytes.truncate(place),
    }
    bytes
}

/// Nothing at all, one byte again and again, or random bytes.
pub fn formless(mut random: Random) -> Vec<u8> {
    let length = random.pick(&[1, 2, 9, 10, 11, 100, 3_000, 65_536, 65_537, 70_000]);
    match random.below(4) {
        0 => Vec::new(),
        1 => {
            vec![random.pick(&[0x00, 0x01, 0x03, 0x05, 0x07, 0x08, 0x09, 0x0A, 0x80, 0xFF]); length]
        }
        2 => (0..length).map(|_| random.byte()).collect(),
        _ => record_like(random, length),
    }
}

/// Small numbers, most of them record kinds: many short records.
fn record_like(mut random: Random, length: usize) -> Vec<u8> {
    let mut bytes = vec![1, 5, 9, 1, 0, 3, 1];
    while bytes.len() < length {
        let byte = random.pick(&[3, 3, 3, 5, 5, 5, 0, 1, 2, 4, 64, 127]);
        bytes.push(byte);
        if byte == 3 || byte == 5 {
            bytes.push(random.byte() & 0x7F);
        }
    }
    bytes
}
