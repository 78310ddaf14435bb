//! Interface kind and resolve flag of a link (`kind-list`, `kind-retired`,
//! `flag-list`).

use crate::reply::Refusal;

/// `kind-list`. No call gives NBMA to a link; a table that no call has reached may
/// have it, and the calls take every table.
#[derive(Clone, Copy, Debug, PartialEq, Eq)]
pub enum Kind {
    EthernetLan,
    Nbma,
    PointToPoint,
}

/// `kind-retired`: the number of NBMA, which stands in the list all the same.
pub const RETIRED_KIND: u64 = 2;

/// Kind and flag as the numbers that a caller gives, in range or not.
#[derive(Clone, Copy, Debug, PartialEq, Eq)]
pub struct InterfaceNumbers {
    pub kind: u64,
    pub flag: u64,
}

/// Kind and flag, each in its list.
#[derive(Clone, Copy, Debug, PartialEq, Eq)]
pub struct Interface {
    pub kind: Kind,
    pub resolve: bool,
}

impl InterfaceNumbers {
    /// Reply 1 for a kind or flag outside its list.
    pub fn check(self) -> Result<Interface, Refusal> {
        let kind = match self.kind {
            1 => Kind::EthernetLan,
            RETIRED_KIND => Kind::Nbma,
            3 => Kind::PointToPoint,
            _ => return Err(Refusal::ValueOutsideItsList),
        };
        let resolve = match self.flag {
            0 => false,
            1 => true,
            _ => return Err(Refusal::ValueOutsideItsList),
        };
        Ok(Interface { kind, resolve })
    }
}

impl Interface {
    /// Reply 30 for a link that would be started or enabled with the retired kind.
    pub fn check_not_retired(self) -> Result<(), Refusal> {
        if self.kind == Kind::Nbma {
            return Err(Refusal::RetiredKind);
        }
        Ok(())
    }

    /// `neighbour-mid`: on kind 3, or with flag 1, from the next hop.
    pub fn derives_the_mid(self) -> bool {
        self.kind == Kind::PointToPoint || self.resolve
    }
}

#[cfg(test)]
mod tests {
    use super::*;

    #[test]
    fn the_list_of_kinds_and_flags() {
        for kind in 1..=3 {
            for flag in 0..=1 {
                let interface = InterfaceNumbers { kind, flag }.check().unwrap();
                assert_eq!(interface.resolve, flag == 1);
                assert_eq!(interface.derives_the_mid(), kind == 3 || flag == 1);
            }
        }
    }

    #[test]
    fn kind_2_alone_is_retired() {
        for (kind, answer) in [(1, Ok(())), (2, Err(Refusal::RetiredKind)), (3, Ok(()))] {
            for flag in 0..=1 {
                let interface = InterfaceNumbers { kind, flag }.check().unwrap();
                assert_eq!(interface.check_not_retired(), answer);
            }
        }
    }

    #[test]
    fn outside_the_list() {
        // 257 and 258 are 1 and 2 to a type of 8 bits.
        let pairs =
            [(0, 0), (4, 0), (257, 0), (258, 1), (u64::MAX, 1), (1, 2), (2, 256), (3, u64::MAX)];
        for (kind, flag) in pairs {
            let answer = InterfaceNumbers { kind, flag }.check();
            assert_eq!(answer, Err(Refusal::ValueOutsideItsList));
        }
    }
}
