//! How much each of the two programs that list a day takes. In all else their
//! listings follow the same rules.

use crate::table::{LARGEST_MAXIMUM, LARGEST_MAXIMUM_OVER_A_RUN};

#[derive(Clone, Copy, Debug, PartialEq, Eq)]
pub struct Limits {
    /// A start with a larger maximum is refused with 1. The smallest is 2 in both.
    pub largest_maximum: u64,
    /// Bytes past these count as missing.
    pub most_input: usize,
    /// Records past these count as missing.
    pub most_records: usize,
}

/// `listing-input`. A whole record has two bytes or more, so that no day reaches the
/// bound of its records.
pub const DAYLIST: Limits =
    Limits { largest_maximum: LARGEST_MAXIMUM, most_input: 65_536, most_records: 65_536 };
const _: () = assert!(DAYLIST.most_input / 2 < DAYLIST.most_records);

/// `dispatch-list`.
pub const DISPATCHLIST: Limits = Limits {
    largest_maximum: LARGEST_MAXIMUM_OVER_A_RUN,
    most_input: 262_144,
    most_records: 65_536,
};

impl Limits {
    /// What is read: a record cut by the limit is broken, and behind one that ends
    /// exactly there nothing is left to list.
    pub fn up_to_the_limit<'a>(&self, input: &'a [u8]) -> &'a [u8] {
        &input[..input.len().min(self.most_input)]
    }
}
