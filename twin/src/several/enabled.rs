//! What enables show of their lists of prefixes, and of those of the enabled stops.

use super::{is_one_bit_beside, Gone, Record, PLACES};
use crate::call::kind;
use crate::prefix::Prefix;
use crate::prefix_list::{PrefixList, MOST_PREFIXES};

/// Of the reply 0.
const BESIDE_LISTED: &str = "0 two of the list differ in the last bit alone";
const BESIDE_A_STOPS: &str = "0 one differs from a stop's in the last bit alone";
const NONE_AS_ANOTHER: &str = "0 no prefix, as another stop";
const REORDERED: &str = "0 a disabled stop's several, in another order";
const REORDERED_ELSEWHERE: &str =
    "0 a disabled stop's several, in another order and at another index";
const BESIDE_OTHER_KIND: &str = "0 beside a stop by the other kind of enable";
/// Of the reply 5.
const BY_OTHER_KIND: &str = "5 by a stop by the other kind of enable";
/// Of the reply 3, with a length 0.
const ALONE: &str = "3 length 0 alone";
const BEHIND: &str = "3 length 0 behind a good one";
const BEFORE: &str = "3 length 0 before a good one";
const BESIDE_OVERLAP: &str = "3 length 0, two others overlap";

/// Why a listed prefix is bad.
const CAUSES: [&str; 3] = ["length 0", "bit past the length", "reserved block"];

pub fn wanted_of_kind_2() -> Vec<String> {
    let mut wanted = vec!["0 no prefix".to_string(), "0 one prefix".to_string()];
    wanted.extend(PLACES.map(|place| format!("5 overlaps a stop's {place}")));
    wanted.extend([BESIDE_OTHER_KIND, BY_OTHER_KIND].map(String::from));
    wanted
}

pub fn wanted_of_kind_9() -> Vec<String> {
    let mut wanted: Vec<String> =
        (0..=MOST_PREFIXES).map(|count| format!("0 count {count}")).collect();
    wanted.extend([BESIDE_LISTED, BESIDE_A_STOPS, NONE_AS_ANOTHER].map(String::from));
    wanted.extend([REORDERED, REORDERED_ELSEWHERE, BESIDE_OTHER_KIND].map(String::from));
    wanted.extend([ALONE, BEHIND, BEFORE, BESIDE_OVERLAP].map(String::from));
    for cause in CAUSES {
        wanted.extend(PLACES.map(|place| format!("3 {cause} at the {place} of four")));
    }
    for (place, earlier) in PLACES.iter().enumerate() {
        for later in &PLACES[place + 1..] {
            wanted.push(format!("5 within the call: {earlier} and {later} equal"));
            wanted.push(format!("5 within the call: {earlier} inside {later}"));
            wanted.push(format!("5 within the call: {later} inside {earlier}"));
        }
    }
    for place in PLACES {
        wanted.extend(PLACES.map(|of_stop| format!("5 {place} overlaps a stop's {of_stop}")));
    }
    wanted.push(BY_OTHER_KIND.to_string());
    wanted
}

pub fn names_of(record: &Record, given: &PrefixList) -> Vec<String> {
    match record.answer.reply {
        0 => names_of_enabled(record, given),
        3 => names_of_bad(given),
        5 => names_of_overlap(record, given),
        _ => Vec::new(),
    }
}

fn names_of_enabled(record: &Record, given: &PrefixList) -> Vec<String> {
    let stops = || record.table.stops.values();
    let is_beside = |other: &Prefix| given.listed().iter().any(|one| are_beside(one, other));
    let is_reordered = |gone: &&Gone| is_reordered(given, &gone.stop.prefixes);
    let reordered = || record.past.gone.iter().filter(is_reordered);
    let besides = [
        (given.listed().iter().any(is_beside), BESIDE_LISTED),
        (stops().flat_map(|stop| stop.prefixes.listed()).any(is_beside), BESIDE_A_STOPS),
        (given.count == 0 && stops().any(|stop| stop.prefixes.count == 0), NONE_AS_ANOTHER),
        (reordered().next().is_some(), REORDERED),
        (reordered().any(|gone| Some(gone.index) != record.answer.link), REORDERED_ELSEWHERE),
        (record.past.kinds.values().any(|&kind| kind != record.kind), BESIDE_OTHER_KIND),
    ];
    let mut names = vec![match record.kind {
        kind::ENABLE => format!("0 count {}", given.count),
        _ if given.count == 0 => "0 no prefix".to_string(),
        _ => "0 one prefix".to_string(),
    }];
    names.extend(besides.into_iter().filter(|(seen, _)| *seen).map(|(_, name)| name.to_string()));
    names
}

/// Of one length, and different in the last bit alone.
fn are_beside(one: &Prefix, other: &Prefix) -> bool {
    one.length == other.length && is_one_bit_beside(one, &other.bytes)
}

fn is_reordered(given: &PrefixList, of_gone: &PrefixList) -> bool {
    let (one, other) = (given.listed(), of_gone.listed());
    let same_set = one.len() == other.len() && one.iter().all(|prefix| other.contains(prefix));
    same_set && one != other
}

fn names_of_bad(given: &PrefixList) -> Vec<String> {
    let listed = given.listed();
    let is_bad = |prefix: &Prefix| prefix.length == 0 || !prefix.is_good();
    let bad: Vec<usize> = (0..listed.len()).filter(|&place| is_bad(&listed[place])).collect();
    let [place] = bad[..] else { return Vec::new() };
    let cause = cause_of(&listed[place]);
    let mut names = match (cause, place, listed.len()) {
        (_, _, MOST_PREFIXES) => vec![format!("3 {cause} at the {} of four", PLACES[place])],
        ("length 0", 0, 1) => vec![ALONE.to_string()],
        ("length 0", 1, 2) => vec![BEHIND.to_string()],
        ("length 0", 0, 2) => vec![BEFORE.to_string()],
        _ => Vec::new(),
    };
    if cause == "length 0" && given.overlaps_itself() {
        names.push(BESIDE_OVERLAP.to_string());
    }
    names
}

/// Of a prefix that is bad.
fn cause_of(bad: &Prefix) -> &'static str {
    let within = u128::MAX.checked_shr(bad.length as u32).unwrap_or(0);
    let bits_past = u128::from_be_bytes(bad.bytes) & within;
    match bad.length {
        0 => CAUSES[0],
        _ if bits_past != 0 => CAUSES[1],
        _ => CAUSES[2],
    }
}

/// Where one pair of prefixes alone overlaps, within the call or of the call and a stop.
fn names_of_overlap(record: &Record, given: &PrefixList) -> Vec<String> {
    let within = overlaps_within(given);
    let of_stops: Vec<(u64, [usize; 2])> = record
        .table
        .stops
        .iter()
        .flat_map(|(&index, stop)| {
            overlaps_between(given, &stop.prefixes).into_iter().map(move |places| (index, places))
        })
        .collect();
    match (&within[..], &of_stops[..]) {
        (&[[earlier, later]], []) => vec![name_within(given.listed(), earlier, later)],
        (&[], &[(index, [place, of_stop])]) => {
            let by_other = record.past.kinds.get(&index).is_some_and(|&kind| kind != record.kind);
            let mut names = vec![match record.kind {
                kind::ENABLE => {
                    format!("5 {} overlaps a stop's {}", PLACES[place], PLACES[of_stop])
                }
                _ => format!("5 overlaps a stop's {}", PLACES[of_stop]),
            }];
            names.extend(by_other.then(|| BY_OTHER_KIND.to_string()));
            names
        }
        _ => Vec::new(),
    }
}

fn overlaps_within(list: &PrefixList) -> Vec<[usize; 2]> {
    let pairs = overlaps_between(list, list);
    pairs.into_iter().filter(|[earlier, later]| earlier < later).collect()
}

/// The places of each two prefixes that overlap.
fn overlaps_between(one: &PrefixList, other: &PrefixList) -> Vec<[usize; 2]> {
    let mut places = Vec::new();
    for (place, prefix) in one.listed().iter().enumerate() {
        let overlapping = other.listed().iter().enumerate().filter(|(_, of)| of.overlaps(prefix));
        places.extend(overlapping.map(|(other_place, _)| [place, other_place]));
    }
    places
}

fn name_within(listed: &[Prefix], earlier: usize, later: usize) -> String {
    let (one, other) = (PLACES[earlier], PLACES[later]);
    match listed[earlier].length.cmp(&listed[later].length) {
        std::cmp::Ordering::Equal => format!("5 within the call: {one} and {other} equal"),
        std::cmp::Ordering::Greater => format!("5 within the call: {one} inside {other}"),
        std::cmp::Ordering::Less => format!("5 within the call: {other} inside {one}"),
    }
}
