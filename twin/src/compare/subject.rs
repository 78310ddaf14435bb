//! The programs that can be compared with the twin.

use std::time::Duration;

use crate::generate::{self, dispatch};
use crate::limits::{Limits, DAYLIST, DISPATCHLIST};

/// Which program it is: its limits, and the days that it is given.
#[derive(Clone, Copy, Debug, PartialEq, Eq)]
pub enum Subject {
    Daylist,
    Dispatchlist,
}

impl Subject {
    pub fn name(self) -> &'static str {
        match self {
            Subject::Daylist => "daylist",
            Subject::Dispatchlist => "dispatchlist",
        }
    }

    pub fn limits(self) -> Limits {
        match self {
            Subject::Daylist => DAYLIST,
            Subject::Dispatchlist => DISPATCHLIST,
        }
    }

    pub fn day_file(self, seed: u64, number: u64) -> Vec<u8> {
        match self {
            Subject::Daylist => generate::day_file(seed, number),
            Subject::Dispatchlist => dispatch::day_file(seed, number),
        }
    }

    /// How many days it is given where nothing else is said.
    pub fn files(self) -> u64 {
        match self {
            Subject::Daylist => 1_000,
            Subject::Dispatchlist => dispatch::OWN_FILES + 8 * generate::FILES_OF_A_ROUND,
        }
    }

    /// Whether the day of this number is made for this program alone.
    pub fn is_own(self, number: u64) -> bool {
        self == Subject::Daylist || number < dispatch::OWN_FILES
    }

    /// For one day. Thousands of stops take their time where the program is emulated.
    pub fn time_limit(self) -> Duration {
        match self {
            Subject::Daylist => Duration::from_secs(10),
            Subject::Dispatchlist => Duration::from_secs(60),
        }
    }
}
