//! The virtual-link table and the calls that change it (docs/RULES.md, "Virtual
//! links" and "The calls on the table").

use std::collections::BTreeMap;

use crate::area::Area;
use crate::link::{Interface, InterfaceNumbers, Kind};
use crate::mid::{check_mid, link_local_address};
use crate::packet::Address;
use crate::prefix_list::PrefixList;
use crate::reply::Refusal;

/// `link-fixed`.
pub const TVL: u64 = 0;
pub const DGVL: u64 = 1;
pub const FIRST_STOP: u64 = 2;

pub const SMALLEST_MAXIMUM: u64 = 2;
/// `link-maximum`.
pub const LARGEST_MAXIMUM: u64 = 65;
/// `run-maximum`.
pub const LARGEST_MAXIMUM_OVER_A_RUN: u64 = 4_093;

/// What a start gives: the fixed links' kinds and flags among it.
#[derive(Clone, Copy, Debug, PartialEq, Eq)]
pub struct StartSettings {
    pub own_mid: u64,
    pub maximum: u64,
    pub tvl: InterfaceNumbers,
    pub dgvl: InterfaceNumbers,
}

/// What an enable gives, good or bad.
#[derive(Clone, Copy, Debug, PartialEq, Eq)]
pub struct StopSettings {
    pub area: Area,
    pub prefixes: PrefixList,
    pub interface: InterfaceNumbers,
}

/// An enabled stop link (SGVL).
#[derive(Clone, Copy, Debug, PartialEq, Eq)]
pub struct Stop {
    pub area: Area,
    /// With blank places past the count (`prefix-kept`).
    pub prefixes: PrefixList,
    pub interface: Interface,
}

/// The interface address of an enabled link.
#[derive(Clone, Copy, Debug, PartialEq, Eq)]
pub struct InterfaceAddress {
    pub mid: u64,
    pub address: Address,
}

#[derive(Clone, Debug, PartialEq, Eq)]
pub struct Table {
    pub own_mid: u64,
    pub maximum: u64,
    pub tvl: Interface,
    pub dgvl: Interface,
    pub dgvl_area: Option<Area>,
    /// The enabled stop links by index.
    pub stops: BTreeMap<u64, Stop>,
}

impl Table {
    /// `start-refused`: a refused start returns its number and the table for own
    /// MID 0, maximum 2, fixed links of kind 1 and flag 1.
    pub fn start(settings: &StartSettings) -> (Result<(), Refusal>, Table) {
        match Table::start_up_to(LARGEST_MAXIMUM, settings) {
            Ok(table) => (Ok(()), table),
            Err(refusal) => (Err(refusal), Table::after_refused_start()),
        }
    }

    /// `start-refusals`: 1, 30. Over a run they are the same but for the largest
    /// maximum, where the run is not too short (`run-refusals`).
    pub fn start_up_to(largest_maximum: u64, settings: &StartSettings) -> Result<Table, Refusal> {
        check_mid(settings.own_mid)?;
        if !(SMALLEST_MAXIMUM..=largest_maximum).contains(&settings.maximum) {
            return Err(Refusal::ValueOutsideItsList);
        }
        // 1 of either link comes before 30 of the other.
        let (tvl, dgvl) = (settings.tvl.check()?, settings.dgvl.check()?);
        tvl.check_not_retired()?;
        dgvl.check_not_retired()?;
        Ok(Table::fresh(settings.own_mid, settings.maximum, tvl, dgvl))
    }

    fn after_refused_start() -> Table {
        let lan = Interface { kind: Kind::EthernetLan, resolve: true };
        Table::fresh(0, SMALLEST_MAXIMUM, lan, lan)
    }

    fn fresh(own_mid: u64, maximum: u64, tvl: Interface, dgvl: Interface) -> Table {
        Table { own_mid, maximum, tvl, dgvl, dgvl_area: None, stops: BTreeMap::new() }
    }

    /// `enable-refusals`: 1, 30, 2, 29, 3, 4, 5, 6. The answer is the new link's
    /// index.
    pub fn enable(&mut self, settings: &StopSettings) -> Result<u64, Refusal> {
        let interface = settings.interface.check()?;
        interface.check_not_retired()?;
        if !settings.area.is_good() {
            return Err(Refusal::AreaNotGood);
        }
        if settings.prefixes.is_too_long() {
            return Err(Refusal::TooManyPrefixes);
        }
        if !settings.prefixes.is_good() {
            return Err(Refusal::PrefixNotGood);
        }
        // Only enabled stop links are asked, not the DGVL (`link-apart`).
        if self.stops.values().any(|stop| stop.area.equals(&settings.area)) {
            return Err(Refusal::AreaEqualToAStops);
        }
        let overlap = |stop: &Stop| stop.prefixes.overlaps(&settings.prefixes);
        if settings.prefixes.overlaps_itself() || self.stops.values().any(overlap) {
            return Err(Refusal::PrefixOverlapsAnother);
        }
        let index = self.lowest_unused_index().ok_or(Refusal::NoIndexFree)?;
        let prefixes = settings.prefixes.kept();
        self.stops.insert(index, Stop { area: settings.area, prefixes, interface });
        Ok(index)
    }

    fn lowest_unused_index(&self) -> Option<u64> {
        // Both go up, so that the first index that differs from its key is unused. To
        // look each of thousands up is slow.
        let used = self.stops.keys().zip(FIRST_STOP..).take_while(|(key, index)| *key == index);
        let lowest = FIRST_STOP + used.count() as u64;
        (lowest <= self.maximum).then_some(lowest)
    }

    /// `disable-refusals`: 15, 7.
    pub fn disable(&mut self, index: u64) -> Result<(), Refusal> {
        if index == TVL || index == DGVL {
            return Err(Refusal::IndexOfFixedLink);
        }
        match self.stops.remove(&index) {
            Some(_) => Ok(()),
            None => Err(Refusal::NoEnabledLink),
        }
    }

    /// `dgvl-area`: it may be set, changed or cleared. Refusal: 2.
    pub fn set_dgvl_area(&mut self, area: Option<Area>) -> Result<(), Refusal> {
        if area.is_some_and(|area| !area.is_good()) {
            return Err(Refusal::AreaNotGood);
        }
        self.dgvl_area = area;
        Ok(())
    }

    /// `mid-own`: changes the MAC address of every interface and nothing else.
    /// Refusal: 1.
    pub fn set_own_mid(&mut self, mid: u64) -> Result<(), Refusal> {
        check_mid(mid)?;
        self.own_mid = mid;
        Ok(())
    }

    /// The kind and flag of an enabled link; 0 and 1 always are (`link-fixed`).
    pub fn interface(&self, index: u64) -> Result<Interface, Refusal> {
        match index {
            TVL => Ok(self.tvl),
            DGVL => Ok(self.dgvl),
            _ => {
                let stop = self.stops.get(&index).ok_or(Refusal::NoEnabledLink)?;
                Ok(stop.interface)
            }
        }
    }

    /// `interface-address`: own MID and fe80::/64 with the identifier built from
    /// it. Refusal: 7.
    pub fn interface_address(&self, index: u64) -> Result<InterfaceAddress, Refusal> {
        self.interface(index)?;
        let address = link_local_address(self.own_mid);
        Ok(InterfaceAddress { mid: self.own_mid, address })
    }
}

#[cfg(test)]
mod tests;
