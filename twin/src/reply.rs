//! The reply numbers (docs/RULES.md, "Replies").

/// Reply 0, "done". It is no refusal, so it stands apart from [`Refusal`].
pub const DONE: u8 = 0;

/// Every reply but 0. The value of each case is the number of the rules.
#[derive(Clone, Copy, Debug, PartialEq, Eq)]
pub enum Refusal {
    /// A MID above 2^48 - 1, a maximum outside 2..65 (over a run 2..4,093), a
    /// transport outside 1..4, a destination of the wrong sort, a kind or flag
    /// outside its list.
    ValueOutsideItsList = 1,
    AreaNotGood = 2,
    /// A listed prefix not good, or of length 0.
    PrefixNotGood = 3,
    AreaEqualToAStops = 4,
    /// An enabled stop link's, or another of the same call.
    PrefixOverlapsAnother = 5,
    NoIndexFree = 6,
    NoEnabledLink = 7,
    PacketAbove1280 = 9,
    AddressNotAllowed = 10,
    MulticastWithoutArea = 11,
    NeighbourNotResolvable = 12,
    /// Output buffer shorter than packet + 14; no room for the record.
    NoRoom = 13,
    /// Record broken; call without a record form.
    RecordBroken = 14,
    IndexOfFixedLink = 15,
    /// Record before the start record, or a second start record.
    StartOutOfPlace = 16,
    /// Packet under 40 bytes.
    PacketShort = 20,
    VersionNot6 = 21,
    /// Payload length field + 40 is not the packet's length.
    LengthFieldWrong = 22,
    /// Fewer records than maximum - 1. The twin's table needs no run, and no program
    /// lists it (`dispatch-list`): it stands here to be complete.
    RunTooShort = 23,
    TooManyPrefixes = 29,
    /// Kind 2, NBMA.
    RetiredKind = 30,
}

impl Refusal {
    pub const fn number(self) -> u8 {
        self as u8
    }
}

/// Every refusal, in the order of the numbers.
#[cfg(test)]
pub const EVERY_REFUSAL: [Refusal; 21] = [
    Refusal::ValueOutsideItsList,
    Refusal::AreaNotGood,
    Refusal::PrefixNotGood,
    Refusal::AreaEqualToAStops,
    Refusal::PrefixOverlapsAnother,
    Refusal::NoIndexFree,
    Refusal::NoEnabledLink,
    Refusal::PacketAbove1280,
    Refusal::AddressNotAllowed,
    Refusal::MulticastWithoutArea,
    Refusal::NeighbourNotResolvable,
    Refusal::NoRoom,
    Refusal::RecordBroken,
    Refusal::IndexOfFixedLink,
    Refusal::StartOutOfPlace,
    Refusal::PacketShort,
    Refusal::VersionNot6,
    Refusal::LengthFieldWrong,
    Refusal::RunTooShort,
    Refusal::TooManyPrefixes,
    Refusal::RetiredKind,
];

#[cfg(test)]
mod tests {
    use super::*;

    #[test]
    fn the_numbers_of_the_rules() {
        let numbers = EVERY_REFUSAL.map(Refusal::number);
        let expected = [1, 2, 3, 4, 5, 6, 7, 9, 10, 11, 12, 13, 14, 15, 16, 20, 21, 22, 23, 29, 30];
        assert_eq!(numbers, expected);
    }
}
