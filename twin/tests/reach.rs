//! What the generated day files reach: every allowed pair, every order of
//! refusals and cause of one, every way in which areas are alike, all that several
//! prefixes show, and the situations within a pair that a listing could get wrong.

use std::collections::BTreeMap;

use twin::alike;
use twin::arriving::Indication;
use twin::call::{kind, Call, Destination, TSB};
use twin::generate::{day_file, FILES_OF_A_ROUND};
use twin::leaving::Request;
use twin::limits::DAYLIST;
use twin::link::RETIRED_KIND;
use twin::listing::{lines, Line, RecordKind};
use twin::mid::LARGEST_MID;
use twin::orders::Counts;
use twin::pairs::{allowed_pairs, Seen};
use twin::read::{kind_of_record, read_record};
use twin::replay::{Answer, Replay};
use twin::reply::Refusal;
use twin::several;
use twin::table::{StartSettings, Table};

const FILES: u64 = 300;

/// In the order of `record-start`.
const VALUES_OF_START: [&str; 6] =
    ["own MID", "maximum", "TVL kind", "TVL flag", "DGVL kind", "DGVL flag"];

#[derive(Default)]
struct Situations(BTreeMap<String, u64>);

impl Situations {
    fn add(&mut self, situation: impl Into<String>) {
        *self.0.entry(situation.into()).or_default() += 1;
    }

    /// Which links of a start in its place have kind 2, and which values beside it are
    /// outside their lists.
    fn of_start(&mut self, settings: &StartSettings, reply: u8) {
        let StartSettings { own_mid, maximum, tvl, dgvl } = settings;
        let retired = [tvl, dgvl].map(|link| link.kind == RETIRED_KIND);
        if retired == [false, false] {
            return;
        }
        self.add(format!("start {reply}, kind 2 of TVL and DGVL {retired:?}"));
        let outside = [
            *own_mid > LARGEST_MID,
            !(2..=65).contains(maximum),
            !(1..=3).contains(&tvl.kind),
            tvl.flag > 1,
            !(1..=3).contains(&dgvl.kind),
            dgvl.flag > 1,
        ];
        for (name, _) in VALUES_OF_START.iter().zip(outside).filter(|(_, outside)| *outside) {
            self.add(format!("start {reply}, kind 2 beside {name}"));
        }
    }

    fn of_record(&mut self, table: &Table, kind: u64, call: &Call, answer: Answer) {
        match call {
            Call::Start(settings) if Table::start(settings).0 == Err(Refusal::RetiredKind) => {
                self.add("second start that would be 30")
            }
            Call::Enable(_) if answer.reply == 6 => self.add(format!("full {}", table.maximum)),
            Call::Enable(settings) if answer.reply == 0 => {
                for prefix in settings.prefixes.listed() {
                    self.add(format!("prefix length {}", prefix.length));
                    self.add(format!("kind {kind}: prefix length {}", prefix.length));
                }
                let gap = table.stops.keys().any(|&index| Some(index) > answer.link);
                self.add(if gap { "enabled within a gap" } else { "enabled behind all" });
                let of_dgvl = table.dgvl_area.is_some_and(|area| area.equals(&settings.area));
                self.add(if of_dgvl { "stop with the DGVL's area" } else { "stop's own area" });
            }
            Call::Indication(indication) if answer.reply == 0 => {
                self.of_indication(table, indication, answer)
            }
            Call::Request(request) if answer.reply == 0 => self.of_request(table, kind, request),
            _ => {}
        }
    }

    fn of_indication(&mut self, table: &Table, indication: &Indication, answer: Answer) {
        let on = if answer.link >= Some(2) { 2 } else { answer.link.unwrap() };
        self.add(format!("indication {} on {on}", indication.transport));
        let framed = answer.length != indication.packet.len();
        self.add(format!("frame {framed} on {on}"));
        if indication.transport != 1 || on != 2 {
            return;
        }
        let holds = |place: usize| {
            let address = indication.packet[place..place + 16].try_into().unwrap();
            table.stops.values().any(|stop| stop.prefixes.holds_address(&address))
        };
        self.add(format!("destination held {}, source held {}", holds(24), holds(8)));
    }

    fn of_request(&mut self, table: &Table, kind: u64, request: &Request) {
        let on = request.index.min(2);
        let sending = table.request(request).unwrap();
        let sort = match sending.destination {
            Destination::Mid(mid) if Some(mid) == request.neighbour => "given MID",
            Destination::Mid(_) => "derived MID",
            Destination::Area(_) => "area",
            Destination::Nothing => "nothing",
        };
        self.add(format!("kind {kind}: {} {sort} on {on}", sending.transport));
    }
}

fn situations() -> Situations {
    let mut situations = Situations::default();
    for number in 0..FILES {
        let bytes = day_file(1, number);
        let bytes = DAYLIST.up_to_the_limit(&bytes);
        let (mut replay, mut offset) = (Replay::new(DAYLIST), 0);
        while let Ok((call, behind)) = read_record(bytes, offset) {
            let before = replay.table().cloned();
            let answer = replay.call(&call);
            let kind = kind_of_record(bytes, offset).unwrap();
            match (before, call) {
                (Some(table), call) => situations.of_record(&table, kind, &call, answer),
                (None, Call::Start(settings)) => situations.of_start(&settings, answer.reply),
                (None, _) => {}
            }
            offset = behind;
        }
    }
    situations
}

fn wanted() -> Vec<String> {
    let mut wanted: Vec<String> = [
        "enabled within a gap",
        "stop with the DGVL's area",
        "destination held true, source held true",
        "destination held true, source held false",
        "destination held false, source held true",
        "second start that would be 30",
    ]
    .map(String::from)
    .to_vec();
    for retired in [[true, false], [false, true], [true, true]] {
        wanted.push(format!("start 30, kind 2 of TVL and DGVL {retired:?}"));
    }
    wanted.extend(VALUES_OF_START.map(|name| format!("start 1, kind 2 beside {name}")));
    wanted.extend([2, 3, 4, 5, 65].map(|maximum| format!("full {maximum}")));
    wanted.extend((1..=128).map(|length| format!("prefix length {length}")));
    for kind in [kind::OLD_ENABLE, kind::ENABLE] {
        let around_bytes = [1, 7, 8, 9, 15, 16, 17, 63, 64, 65, 120, 121, 127, 128];
        wanted.extend(around_bytes.map(|length| format!("kind {kind}: prefix length {length}")));
    }
    for transport in 1..TSB {
        wanted.extend([1, 2].map(|on| format!("indication {transport} on {on}")));
    }
    wanted.push(format!("indication {TSB} on 0"));
    for on in 0..=2 {
        wanted.extend([false, true].map(|framed| format!("frame {framed} on {on}")));
    }
    wanted.extend([kind::OLD_REQUEST, kind::REQUEST].into_iter().flat_map(wanted_of_requests));
    wanted
}

fn wanted_of_requests(kind: u64) -> Vec<String> {
    let mut wanted = vec![format!("kind {kind}: 4 nothing on 0")];
    wanted.extend([1, 2].map(|on| format!("kind {kind}: 3 area on {on}")));
    for on in 0..=2 {
        wanted
            .extend(["given", "derived"].map(|sort| format!("kind {kind}: 1 {sort} MID on {on}")));
    }
    wanted
}

#[test]
fn the_files_reach_the_situations_of_the_rules() {
    let situations = situations();
    let missing: Vec<String> =
        wanted().into_iter().filter(|one| !situations.0.contains_key(one)).collect();
    assert!(missing.is_empty(), "{missing:?}");
}

#[test]
fn the_files_reach_every_allowed_pair_and_no_other() {
    for seed in [1, 2, u64::MAX] {
        let mut seen = Seen::default();
        (0..FILES).for_each(|number| seen.add(&lines(DAYLIST, &day_file(seed, number))));
        let missing: Vec<_> =
            allowed_pairs().into_iter().filter(|&pair| seen.count(pair) == 0).collect();
        assert!(missing.is_empty(), "seed {seed}: {missing:?}");
        assert!(seen.not_allowed().is_empty());
    }
}

#[test]
fn the_files_reach_every_order_and_cause() {
    for seed in [1, 2, u64::MAX] {
        let mut counts = Counts::default();
        (0..FILES).for_each(|number| counts.add(DAYLIST, &day_file(seed, number)));
        for (situation, count) in counts.rows() {
            let (kind, name) = (situation.kind, situation.name());
            assert!(*count > 0, "seed {seed}, kind {kind}: {name}");
        }
    }
}

/// Whether a start is 30 on this day, the record behind it 16, and a later start 0.
fn goes_on_behind_30(lines: &[Line]) -> bool {
    let is_start = |line: &Line, reply: u8| {
        (line.kind, line.answer.reply) == (RecordKind::Known(kind::START), reply)
    };
    let refused = lines.iter().position(|line| is_start(line, 30));
    let behind = refused.map_or(&[][..], |place| &lines[place + 1..]);
    behind.first().is_some_and(|line| line.answer.reply == 16)
        && behind.iter().any(|line| is_start(line, 0))
}

#[test]
fn a_small_share_of_the_days_goes_on_behind_a_start_of_kind_2() {
    for seed in [1, 2, u64::MAX] {
        let days = (0..FILES).map(|number| lines(DAYLIST, &day_file(seed, number)));
        let count = days.filter(|lines| goes_on_behind_30(lines)).count() as u64;
        assert!((FILES / 25..=FILES / 8).contains(&count), "seed {seed}: {count}");
    }
}

/// One round is enough, since two of its files go through the ways one by one.
#[test]
fn the_files_reach_every_way_in_which_areas_are_alike() {
    for seed in [1, 2, 3, 7, 42, u64::MAX] {
        let mut counts = alike::Counts::default();
        for number in 0..FILES_OF_A_ROUND {
            let day = day_file(seed, number);
            counts.add(DAYLIST, &day, &lines(DAYLIST, &day));
        }
        for row in counts.rows() {
            let (caller, name) = (row.caller.name(), row.way.name());
            assert!(row.count > 0, "seed {seed}, {caller}: {name}");
        }
    }
}

/// As many as must be listed for each way in which a list can be broken.
#[test]
fn the_files_reach_all_that_several_prefixes_show() {
    for seed in [1, 2, 3, 7, 42, u64::MAX] {
        let mut counts = several::Counts::default();
        for number in 0..7 * FILES_OF_A_ROUND {
            let day = day_file(seed, number);
            counts.add(DAYLIST, &day, &lines(DAYLIST, &day));
        }
        for (kind, name, count) in counts.rows() {
            assert!(count > 0, "seed {seed}, kind {kind}: {name}");
        }
    }
}

#[test]
fn the_files_are_long() {
    let listed: usize = (0..FILES).map(|number| lines(DAYLIST, &day_file(1, number)).len()).sum();
    assert!(listed as u64 > 100 * FILES, "{listed}");
}
