//! What breaks a record of kind 9 in or behind its list of prefixes (`record-broken`).

use super::PLACES;
use crate::numbers::read_number;
use crate::prefix::{bytes_needed, LONGEST_PREFIX};
use crate::prefix_list::MOST_PREFIXES;

/// The record's kind and the six numbers of its area.
const BEFORE_THE_COUNT: usize = 7;

pub fn wanted() -> Vec<String> {
    let mut wanted: Vec<String> = [
        "14 count 5",
        "14 count 6 to 255",
        "14 count above 255",
        "14 count no number",
        "14 cut in the count",
        "14 a length no number",
    ]
    .map(String::from)
    .to_vec();
    for place in PLACES {
        wanted.push(format!("14 {place} length above 128"));
        wanted.push(format!("14 cut in the {place} length"));
        wanted.push(format!("14 cut in the {place} prefix's bytes"));
    }
    wanted.push("14 cut behind the prefixes".to_string());
    wanted
}

/// What can stand where a number should.
enum Found {
    Number(u64),
    /// The end of what is read is within it, or before it.
    Cut,
    /// Overlong or above 2^64 - 1.
    NoNumber,
}

/// Takes a number from the front of the bytes.
fn take_number(rest: &mut &[u8]) -> Found {
    match read_number(rest) {
        Some((number, length)) => {
            *rest = &rest[length..];
            Found::Number(number)
        }
        // Ten bytes hold each number that there is.
        None if rest.len() < 10 && rest.iter().all(|byte| byte & 0x80 != 0) => Found::Cut,
        None => Found::NoNumber,
    }
}

/// Of a broken record of kind 9 up to the end of what is read, unless it is broken
/// before its list.
pub fn name_of(record: &[u8]) -> Option<String> {
    let rest = &mut &*record;
    for _ in 0..BEFORE_THE_COUNT {
        let Found::Number(_) = take_number(rest) else { return None };
    }
    let count = match take_number(rest) {
        Found::Cut => return Some("14 cut in the count".to_string()),
        Found::NoNumber => return Some("14 count no number".to_string()),
        Found::Number(5) => return Some("14 count 5".to_string()),
        Found::Number(6..=255) => return Some("14 count 6 to 255".to_string()),
        Found::Number(256..) => return Some("14 count above 255".to_string()),
        Found::Number(count) => count as usize,
    };
    debug_assert!(count <= MOST_PREFIXES);
    let in_the_list = PLACES[..count].iter().find_map(|place| name_of_prefix(rest, place));
    in_the_list.or_else(|| name_behind(rest))
}

/// Takes a prefix from the front of the bytes, or says what breaks it.
fn name_of_prefix(rest: &mut &[u8], place: &str) -> Option<String> {
    let length = match take_number(rest) {
        Found::Cut => return Some(format!("14 cut in the {place} length")),
        Found::NoNumber => return Some("14 a length no number".to_string()),
        Found::Number(length) if length > LONGEST_PREFIX => {
            return Some(format!("14 {place} length above 128"))
        }
        Found::Number(length) => length,
    };
    let Some(behind) = rest.get(bytes_needed(length)..) else {
        return Some(format!("14 cut in the {place} prefix's bytes"));
    };
    *rest = behind;
    None
}

/// In the link's kind or flag.
fn name_behind(rest: &mut &[u8]) -> Option<String> {
    let is_cut = (0..2).any(|_| matches!(take_number(rest), Found::Cut));
    is_cut.then(|| "14 cut behind the prefixes".to_string())
}
