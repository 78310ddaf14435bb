//! A day file in the making. It replays what it writes, so that later records
//! can aim at the links that are enabled by then.

use super::packets::{self, Taste};
use super::random::Random;
use super::{areas, prefixes, values};
use crate::area::Area;
use crate::arriving::Indication;
use crate::call::{kind, Call, Destination, GEO_UNICAST, TSB};
use crate::limits::{Limits, DAYLIST};
use crate::prefix::Prefix;
use crate::prefix_list::PrefixList;
use crate::replay::{Answer, Replay};
use crate::table::{StartSettings, Table};
use crate::write::record_bytes;

/// How likely each record kind 1 to 9 is.
pub type Weights = [u64; 9];

#[derive(Clone)]
pub struct Day {
    pub random: Random,
    /// How many percent of the values are out of range, retired or spoiled.
    pub bad: u64,
    /// How many percent of the packets have a length at a bound.
    pub long: u64,
    bytes: Vec<u8>,
    /// The offset of each record.
    offsets: Vec<usize>,
    replay: Replay,
}

impl Day {
    /// A day for `daylist`.
    pub fn new(random: Random, bad: u64) -> Day {
        Day::within(DAYLIST, random, bad)
    }

    pub fn within(limits: Limits, random: Random, bad: u64) -> Day {
        let replay = Replay::new(limits);
        Day { random, bad, long: 3, bytes: Vec::new(), offsets: Vec::new(), replay }
    }

    pub fn limits(&self) -> Limits {
        self.replay.limits()
    }

    pub fn bytes(&self) -> &[u8] {
        &self.bytes
    }

    pub fn into_bytes(self) -> Vec<u8> {
        self.bytes
    }

    pub fn offsets(&self) -> &[usize] {
        &self.offsets
    }

    pub fn last_record(&self) -> &[u8] {
        &self.bytes[self.offsets.last().copied().unwrap_or(0)..]
    }

    pub fn table(&self) -> Option<&Table> {
        self.replay.table()
    }

    /// Writes the call's record and replays it.
    pub fn add(&mut self, call: &Call) -> Answer {
        let record = record_bytes(call).expect("generated calls have a record form");
        self.add_record(&record)
    }

    /// Writes the whole record and replays it.
    pub fn add_record(&mut self, record: &[u8]) -> Answer {
        self.offsets.push(self.bytes.len());
        self.bytes.extend(record);
        self.replay.record(record, 0).expect("generated records are whole").0
    }

    /// The areas of the enabled stops and of the DGVL.
    pub fn known_areas(&self) -> Vec<Area> {
        let Some(table) = self.table() else { return Vec::new() };
        table.stops.values().map(|stop| stop.area).chain(table.dgvl_area).collect()
    }

    /// All prefixes of the enabled stops.
    pub fn known_prefixes(&self) -> Vec<Prefix> {
        let Some(table) = self.table() else { return Vec::new() };
        table.stops.values().flat_map(|stop| stop.prefixes.listed()).copied().collect()
    }

    pub fn packet(&mut self) -> Vec<u8> {
        let taste = Taste { bad: self.bad, long: self.long };
        let known = self.known_prefixes();
        packets::any(&mut self.random, &known, taste)
    }

    pub fn area(&mut self) -> Area {
        let known = self.known_areas();
        areas::any(&mut self.random, &known, self.bad)
    }

    /// A maximum for a start, so many percent of them refused.
    pub fn maximum(&mut self, bad: u64) -> u64 {
        let largest = self.limits().largest_maximum;
        values::maximum(&mut self.random, largest, bad)
    }

    /// An index for disable and request, see [`values::index`].
    pub fn index(&mut self) -> u64 {
        values::index(&mut self.random, self.replay.table())
    }

    pub fn start(&mut self, maximum: u64) -> Answer {
        let (random, bad) = (&mut self.random, self.bad);
        let own_mid = values::mid(random, bad);
        let (tvl, dgvl) = (values::interface(random, bad), values::interface(random, bad));
        self.add(&Call::Start(StartSettings { own_mid, maximum, tvl, dgvl }))
    }

    /// A start that nothing but the maximum can refuse.
    pub fn good_start(&mut self, maximum: u64) {
        let bad = std::mem::take(&mut self.bad);
        self.start(maximum);
        self.bad = bad;
    }

    pub fn indicate(&mut self, transport: u64, destination: Destination, packet: &[u8]) -> Answer {
        let source = values::mid(&mut self.random, self.bad);
        let class = self.random.byte();
        self.add(&Call::Indication(Indication { transport, source, class, destination, packet }))
    }

    /// What arrives for this area without another fault.
    pub fn indicate_to_area(&mut self, transport: u64, area: Area) -> Answer {
        let source = packets::with_identifier(&mut self.random);
        let to = packets::multicast(&mut self.random);
        let packet = packets::packet(&mut self.random, &source, &to, 40);
        self.indicate(transport, Destination::Area(area), &packet)
    }

    /// The index of one of the enabled stops, if there is one.
    pub fn enabled_index(&mut self) -> Option<u64> {
        values::enabled_index(&mut self.random, self.replay.table())
    }

    /// Disables one of the enabled stops, if there is one.
    pub fn disable_one(&mut self) {
        if let Some(index) = self.enabled_index() {
            self.add(&Call::Disable(index));
        }
    }

    /// Any indication with this transport.
    pub fn any_indication(&mut self, transport: u64) -> Answer {
        let destination = match transport {
            GEO_UNICAST => Destination::Mid(values::mid(&mut self.random, self.bad)),
            TSB => Destination::Nothing,
            _ => Destination::Area(self.area()),
        };
        let packet = self.packet();
        self.indicate(transport, destination, &packet)
    }

    /// Area and prefix of a stop, new or like those that the table knows, or no prefix.
    pub fn area_and_prefix(&mut self) -> (Area, PrefixList) {
        let known = self.known_prefixes();
        let prefix = prefixes::any(&mut self.random, &known, self.bad);
        (self.area(), PrefixList::of_one_or_none(prefix))
    }

    fn any_dgvl_area(&mut self) -> Answer {
        let area = self.random.percent(70).then(|| self.area());
        self.add(&Call::DgvlArea(area))
    }

    /// Any record of this kind, 1 to 9.
    pub fn any_of_kind(&mut self, wanted: u64) -> Answer {
        match wanted {
            kind::START => {
                let maximum = self.maximum(self.bad);
                self.start(maximum)
            }
            kind::OLD_ENABLE | kind::ENABLE => self.any_enable(wanted),
            kind::DISABLE => {
                let index = self.index();
                self.add(&Call::Disable(index))
            }
            kind::DGVL_AREA => self.any_dgvl_area(),
            kind::OWN_MID => {
                let mid = values::mid(&mut self.random, self.bad);
                self.add(&Call::OwnMid(mid))
            }
            kind::INDICATION => {
                let transport = self.random.between(1, 4);
                self.any_indication(transport)
            }
            _ => self.any_request(wanted),
        }
    }

    /// So many records, their kinds drawn by weight.
    pub fn any_records(&mut self, count: u64, weights: &Weights) {
        for _ in 0..count {
            let kind = self.random.weighted(weights) as u64 + 1;
            self.any_of_kind(kind);
        }
    }
}
