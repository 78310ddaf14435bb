//! The calls of the day file (docs/RULES.md, "The day file").

use crate::area::Area;
use crate::arriving::Indication;
use crate::leaving::Request;
use crate::table::{StartSettings, StopSettings};

/// `destination-sort`: a MID, an area, or nothing.
#[derive(Clone, Copy, Debug, PartialEq, Eq)]
pub enum Destination {
    Mid(u64),
    Area(Area),
    Nothing,
}

/// `transport-list`.
pub const GEO_UNICAST: u64 = 1;
pub const GEO_ANYCAST: u64 = 2;
pub const GEO_BROADCAST: u64 = 3;
pub const TSB: u64 = 4;

impl Destination {
    /// A MID for 1, an area for 2 and 3, nothing for 4; no transport else.
    pub fn is_of_the_sort_of(&self, transport: u64) -> bool {
        match transport {
            GEO_UNICAST => matches!(self, Destination::Mid(_)),
            GEO_ANYCAST | GEO_BROADCAST => matches!(self, Destination::Area(_)),
            TSB => matches!(self, Destination::Nothing),
            _ => false,
        }
    }
}

/// A call that a record can hold, its packet and next hop borrowed.
#[derive(Clone, Copy, Debug, PartialEq, Eq)]
pub enum Call<'a> {
    Start(StartSettings),
    Enable(StopSettings),
    Disable(u64),
    DgvlArea(Option<Area>),
    OwnMid(u64),
    Indication(Indication<'a>),
    Request(Request<'a>),
}

/// Record kinds: the first number of each record.
pub mod kind {
    pub const START: u64 = 1;
    /// Of an enable from before a stop could have several prefixes: read, but not
    /// written (`record-list`).
    pub const OLD_ENABLE: u64 = 2;
    pub const DISABLE: u64 = 3;
    pub const DGVL_AREA: u64 = 4;
    pub const OWN_MID: u64 = 5;
    pub const INDICATION: u64 = 6;
    /// Of a request from before there were next hops: read, but not written
    /// (`record-hop`).
    pub const OLD_REQUEST: u64 = 7;
    pub const REQUEST: u64 = 8;
    pub const ENABLE: u64 = 9;

    pub const LAST: u64 = ENABLE;
}

impl Call<'_> {
    /// The kind of the record that the call is written as.
    pub fn kind(&self) -> u64 {
        match self {
            Call::Start(_) => kind::START,
            Call::Enable(_) => kind::ENABLE,
            Call::Disable(_) => kind::DISABLE,
            Call::DgvlArea(_) => kind::DGVL_AREA,
            Call::OwnMid(_) => kind::OWN_MID,
            Call::Indication(_) => kind::INDICATION,
            Call::Request(_) => kind::REQUEST,
        }
    }
}
