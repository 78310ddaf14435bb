//! What shows by which prefix of which stop an indication is delivered (`line-3`).

use super::{is_one_bit_beside, Record, PLACES};
use crate::arriving::Indication;
use crate::call::GEO_UNICAST;
use crate::packet::{check_packet, Address};

const TO_AND_FROM_ONE: &str = "0 to and from two prefixes of one stop";
const TO_A_DISABLED: &str = "0 to the 2nd or a later one of a disabled stop";
const FROM_A_DISABLED: &str = "0 from the 2nd or a later one of a disabled stop";

pub fn wanted() -> Vec<String> {
    let mut wanted = Vec::new();
    for place in PLACES {
        wanted.push(format!("0 to a stop's {place}"));
        wanted.push(format!("0 from a stop's {place}"));
        wanted.push(format!("0 one bit beside a stop's {place}"));
    }
    for place in &PLACES[..2] {
        wanted.push(format!("0 to the {place} of two operators"));
        wanted.push(format!("0 from the {place} of two operators"));
    }
    for to in PLACES {
        wanted.extend(
            PLACES.map(|from| format!("0 to a stop's {to}, from an earlier stop's {from}")),
        );
        wanted.extend(PLACES.map(|from| format!("0 to a stop's {to}, from a later stop's {from}")));
    }
    wanted.extend([TO_AND_FROM_ONE, TO_A_DISABLED, FROM_A_DISABLED].map(String::from));
    wanted
}

/// Which prefix of which stop holds an address.
#[derive(Clone, Copy)]
struct Holder {
    index: u64,
    place: usize,
    /// How many prefixes the stop has.
    count: u8,
}

impl Holder {
    fn of(record: &Record, address: &Address) -> Option<Holder> {
        record.table.stops.iter().find_map(|(&index, stop)| {
            let mut listed = stop.prefixes.listed().iter();
            let place = listed.position(|prefix| prefix.holds_address(address))?;
            Some(Holder { index, place, count: stop.prefixes.count })
        })
    }
}

/// Of an indication that is delivered.
pub fn names_of(record: &Record, indication: &Indication) -> Vec<String> {
    let Ok(addresses) = check_packet(indication.packet) else { return Vec::new() };
    if indication.transport != GEO_UNICAST {
        return Vec::new();
    }
    let (to, from) = (addresses.destination, addresses.source);
    match (Holder::of(record, &to), Holder::of(record, &from)) {
        (Some(to), None) => names_of_one("to", to),
        (None, Some(from)) => names_of_one("from", from),
        (Some(to), Some(from)) => names_of_two(to, from),
        (None, None) => names_of_nobody(record, &to, &from),
    }
}

fn names_of_one(way: &str, holder: Holder) -> Vec<String> {
    let place = PLACES[holder.place];
    let mut names = vec![format!("0 {way} a stop's {place}")];
    if holder.count == 2 {
        names.push(format!("0 {way} the {place} of two operators"));
    }
    names
}

fn names_of_two(to: Holder, from: Holder) -> Vec<String> {
    let (place, of_source) = (PLACES[to.place], PLACES[from.place]);
    if from.index < to.index {
        return vec![format!("0 to a stop's {place}, from an earlier stop's {of_source}")];
    }
    if from.index > to.index {
        return vec![format!("0 to a stop's {place}, from a later stop's {of_source}")];
    }
    let two = to.place != from.place;
    two.then(|| TO_AND_FROM_ONE.to_string()).into_iter().collect()
}

/// What goes to the DGVL.
fn names_of_nobody(record: &Record, to: &Address, from: &Address) -> Vec<String> {
    let mut names = Vec::new();
    for stop in record.table.stops.values() {
        let listed = PLACES.iter().zip(stop.prefixes.listed());
        let beside = listed.filter(|(_, prefix)| is_one_bit_beside(prefix, to));
        names.extend(beside.map(|(place, _)| format!("0 one bit beside a stop's {place}")));
    }
    let lists = record.past.gone.iter().map(|gone| gone.stop.prefixes.listed());
    let later: Vec<_> = lists.flat_map(|listed| listed.iter().skip(1)).collect();
    for (address, name) in [(to, TO_A_DISABLED), (from, FROM_A_DISABLED)] {
        let held = later.iter().any(|prefix| prefix.holds_address(address));
        names.extend(held.then(|| name.to_string()));
    }
    names
}
