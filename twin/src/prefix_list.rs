//! The list of prefixes of a stop link (docs/RULES.md, `prefix-list`).

use crate::packet::Address;
use crate::prefix::{Prefix, NO_PREFIX};

pub const MOST_PREFIXES: usize = 4;

/// A count and four places as a caller gives them, good or bad. Places past the count
/// are not looked at.
#[derive(Clone, Copy, Debug, PartialEq, Eq)]
pub struct PrefixList {
    pub count: u8,
    pub places: [Prefix; MOST_PREFIXES],
}

pub const NO_PREFIXES: PrefixList = PrefixList { count: 0, places: [NO_PREFIX; MOST_PREFIXES] };

impl PrefixList {
    /// Of at most four prefixes; the places past them are blank.
    pub fn of(prefixes: &[Prefix]) -> PrefixList {
        let mut list = PrefixList { count: prefixes.len() as u8, ..NO_PREFIXES };
        list.places[..prefixes.len()].copy_from_slice(prefixes);
        list
    }

    /// `record-list`: what a link had that could have one prefix, and had none with
    /// length 0.
    pub fn of_one_or_none(prefix: Prefix) -> PrefixList {
        match prefix.length {
            0 => NO_PREFIXES,
            _ => PrefixList::of(&[prefix]),
        }
    }

    /// In the order given. A count above four names no place that is not there.
    pub fn listed(&self) -> &[Prefix] {
        &self.places[..usize::from(self.count).min(MOST_PREFIXES)]
    }

    pub fn is_too_long(&self) -> bool {
        usize::from(self.count) > MOST_PREFIXES
    }

    /// `prefix-listed`.
    pub fn is_good(&self) -> bool {
        self.listed().iter().all(|prefix| prefix.length > 0 && prefix.is_good())
    }

    pub fn holds_address(&self, address: &Address) -> bool {
        self.listed().iter().any(|prefix| prefix.holds_address(address))
    }

    /// `prefix-within`, of two lists.
    pub fn overlaps(&self, other: &PrefixList) -> bool {
        self.listed().iter().any(|one| other.listed().iter().any(|other| one.overlaps(other)))
    }

    /// `prefix-within`, of one list: at two different places.
    pub fn overlaps_itself(&self) -> bool {
        let listed = self.listed();
        let overlaps_a_later =
            |place: usize| listed[place + 1..].iter().any(|later| listed[place].overlaps(later));
        (0..listed.len()).any(overlaps_a_later)
    }

    /// `prefix-kept`.
    pub fn kept(&self) -> PrefixList {
        PrefixList::of(self.listed())
    }
}

#[cfg(test)]
mod tests;
