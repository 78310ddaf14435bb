use super::*;
use crate::area::{CIRCLE, RECTANGLE};
use crate::mid::LARGEST_MID;
use crate::prefix::{Prefix, NO_PREFIX};
use crate::reply::Refusal::*;

const LAN: InterfaceNumbers = InterfaceNumbers { kind: 1, flag: 1 };
const RETIRED: InterfaceNumbers = InterfaceNumbers { kind: 2, flag: 1 };
const BAD_KIND: InterfaceNumbers = InterfaceNumbers { kind: 4, flag: 1 };
const BAD_FLAG: InterfaceNumbers = InterfaceNumbers { kind: 1, flag: 2 };
const RETIRED_WITH_BAD_FLAG: InterfaceNumbers = InterfaceNumbers { kind: 2, flag: 2 };

const START: StartSettings =
    StartSettings { own_mid: 0x0200_0000_0001, maximum: 65, tvl: LAN, dgvl: LAN };

fn table(maximum: u64) -> Table {
    let (answer, table) = Table::start(&StartSettings { maximum, ..START });
    assert_eq!(answer, Ok(()));
    table
}

fn area(latitude: i128) -> Area {
    Area { shape: RECTANGLE, latitude, longitude: 0, a: 10, b: 20, angle: 30 }
}

fn prefix(first: u8, second: u8, length: u64) -> Prefix {
    let mut bytes = [0; 16];
    bytes[0] = first;
    bytes[1] = second;
    Prefix { length, bytes }
}

/// With one prefix, or with none for length 0.
fn stop(latitude: i128, prefix: Prefix) -> StopSettings {
    let prefixes = PrefixList::of_one_or_none(prefix);
    StopSettings { area: area(latitude), prefixes, interface: LAN }
}

/// The call is refused with this number and leaves the table as it was.
fn assert_enable_refused(table: &mut Table, settings: &StopSettings, refusal: Refusal) {
    let before = table.clone();
    assert_eq!(table.enable(settings), Err(refusal));
    assert_eq!(*table, before);
}

#[test]
fn a_fresh_table() {
    let (answer, table) =
        Table::start(&StartSettings { dgvl: InterfaceNumbers { kind: 3, flag: 0 }, ..START });
    assert_eq!(answer, Ok(()));
    assert_eq!(table.own_mid, 0x0200_0000_0001);
    assert_eq!(table.tvl, Interface { kind: Kind::EthernetLan, resolve: true });
    assert_eq!(table.dgvl, Interface { kind: Kind::PointToPoint, resolve: false });
    assert_eq!((table.dgvl_area, table.stops.len()), (None, 0));
}

#[test]
fn maximum_1_and_66_are_refused_2_and_65_are_good() {
    for maximum in [0, 1, 66, 258, u64::MAX] {
        let (answer, _) = Table::start(&StartSettings { maximum, ..START });
        assert_eq!(answer, Err(ValueOutsideItsList));
    }
    for maximum in [2, 65] {
        assert_eq!(table(maximum).maximum, maximum);
    }
}

/// `run-maximum`.
#[test]
fn over_a_run_2_and_4093_are_good_1_and_4094_are_refused() {
    let start = |maximum| {
        Table::start_up_to(LARGEST_MAXIMUM_OVER_A_RUN, &StartSettings { maximum, ..START })
    };
    for maximum in [0, 1, 4_094, 4_095, 65_536 + 65, u64::MAX] {
        assert_eq!(start(maximum), Err(ValueOutsideItsList));
    }
    for maximum in [2, 65, 66, 4_092, 4_093] {
        assert_eq!(start(maximum).unwrap().maximum, maximum);
    }
    // `run-alike`.
    assert_eq!(start(65), Ok(table(65)));
    let retired = StartSettings { tvl: RETIRED, ..START };
    for (maximum, refusal) in [(4_093, RetiredKind), (4_094, ValueOutsideItsList)] {
        let settings = StartSettings { maximum, ..retired };
        assert_eq!(Table::start_up_to(LARGEST_MAXIMUM_OVER_A_RUN, &settings), Err(refusal));
    }
}

/// The start is refused with this number and returns the table that
/// `start-refused` names.
fn assert_start_refused(settings: &StartSettings, refusal: Refusal) {
    let named = StartSettings { own_mid: 0, maximum: 2, tvl: LAN, dgvl: LAN };
    assert_eq!(Table::start(settings), (Err(refusal), Table::start(&named).1), "{settings:?}");
}

#[test]
fn a_start_with_one_value_outside_its_list_is_1() {
    for settings in [
        StartSettings { own_mid: LARGEST_MID + 1, ..START },
        StartSettings { maximum: 66, ..START },
        StartSettings { tvl: BAD_KIND, ..START },
        StartSettings { tvl: BAD_FLAG, ..START },
        StartSettings { dgvl: BAD_KIND, ..START },
        StartSettings { dgvl: BAD_FLAG, ..START },
    ] {
        assert_start_refused(&settings, ValueOutsideItsList);
    }
}

/// `edge-retired`, starts.
#[test]
fn a_start_of_kind_2_is_30_and_1_with_another_value_outside_its_list() {
    for (tvl, dgvl) in [(RETIRED, LAN), (LAN, RETIRED), (RETIRED, RETIRED)] {
        let retired = StartSettings { tvl, dgvl, ..START };
        assert_start_refused(&retired, RetiredKind);
        assert_start_refused(&StartSettings { own_mid: u64::MAX, ..retired }, ValueOutsideItsList);
        assert_start_refused(&StartSettings { maximum: 66, ..retired }, ValueOutsideItsList);
    }
    for (one, other) in [(RETIRED, BAD_KIND), (RETIRED, BAD_FLAG), (RETIRED_WITH_BAD_FLAG, LAN)] {
        for (tvl, dgvl) in [(one, other), (other, one)] {
            assert_start_refused(&StartSettings { tvl, dgvl, ..START }, ValueOutsideItsList);
        }
    }
}

/// `edge-retired`, what is good.
#[test]
fn kinds_1_and_3_are_started_and_enabled() {
    for kind in [1, 3] {
        for flag in [0, 1] {
            let interface = InterfaceNumbers { kind, flag };
            let settings = StartSettings { tvl: interface, dgvl: interface, ..START };
            let (answer, mut table) = Table::start(&settings);
            assert_eq!(answer, Ok(()));
            let settings = StopSettings { interface, ..stop(0, NO_PREFIX) };
            assert_eq!(table.enable(&settings), Ok(2));
            for index in 0..=2 {
                assert_eq!(table.interface(index), interface.check());
            }
        }
    }
}

/// The second is reserved, and the third overlaps what 2000::/8 overlaps.
fn one_bad_of_three() -> PrefixList {
    PrefixList::of(&[prefix(0x30, 0, 8), prefix(0xFF, 0, 8), prefix(0x20, 0x80, 9)])
}

#[test]
fn refusals_of_enable_come_in_order() {
    let mut table = table(2);
    let first = stop(0, prefix(0x20, 0, 8));
    assert_eq!(table.enable(&first), Ok(2));

    // Each settings has every later fault too; the table is full as well.
    let overlapping = stop(1, prefix(0x20, 0x80, 9));
    let equal = StopSettings { area: area(0), ..overlapping };
    let bad_prefix = StopSettings { prefixes: one_bad_of_three(), ..equal };
    let too_many =
        StopSettings { prefixes: PrefixList { count: 5, ..one_bad_of_three() }, ..equal };
    let bad_area = StopSettings { area: Area { a: 0, ..area(0) }, ..too_many };
    let retired = StopSettings { interface: RETIRED, ..bad_area };
    let bad_flag = StopSettings { interface: RETIRED_WITH_BAD_FLAG, ..retired };
    assert_enable_refused(&mut table, &bad_flag, ValueOutsideItsList);
    assert_enable_refused(&mut table, &retired, RetiredKind);
    assert_enable_refused(&mut table, &bad_area, AreaNotGood);
    assert_enable_refused(&mut table, &too_many, TooManyPrefixes);
    assert_enable_refused(&mut table, &bad_prefix, PrefixNotGood);
    assert_enable_refused(&mut table, &equal, AreaEqualToAStops);
    assert_enable_refused(&mut table, &overlapping, PrefixOverlapsAnother);
    assert_enable_refused(&mut table, &stop(1, prefix(0x21, 0, 8)), NoIndexFree);
}

fn twice(prefix: Prefix) -> PrefixList {
    PrefixList::of(&[prefix, prefix])
}

/// With each later refusal kind 2 is 30 (`edge-retired`, enables).
#[test]
fn each_refusal_of_enable_alone_and_with_kind_2() {
    let mut table = table(3);
    assert_eq!(table.enable(&stop(0, prefix(0x20, 0, 8))), Ok(2));
    let good = stop(1, prefix(0x21, 0, 8));
    let of_kind_2 = |settings| StopSettings { interface: RETIRED, ..settings };
    let long_prefix = Prefix { length: 129, bytes: [0; 16] };
    for (settings, refusal) in [
        (StopSettings { interface: BAD_KIND, ..good }, ValueOutsideItsList),
        (StopSettings { interface: BAD_FLAG, ..good }, ValueOutsideItsList),
        (StopSettings { interface: RETIRED_WITH_BAD_FLAG, ..good }, ValueOutsideItsList),
        (of_kind_2(good), RetiredKind),
        (StopSettings { area: Area { angle: 360, ..area(1) }, ..good }, AreaNotGood),
        (
            StopSettings { prefixes: PrefixList { count: 5, ..good.prefixes }, ..good },
            TooManyPrefixes,
        ),
        (stop(1, long_prefix), PrefixNotGood),
        (stop(1, prefix(0x21, 1, 8)), PrefixNotGood),
        (StopSettings { prefixes: PrefixList::of(&[NO_PREFIX]), ..good }, PrefixNotGood),
        (StopSettings { area: area(0), ..good }, AreaEqualToAStops),
        (stop(1, prefix(0x20, 0, 7)), PrefixOverlapsAnother),
        (stop(1, prefix(0x20, 0, 8)), PrefixOverlapsAnother),
        (stop(1, prefix(0x20, 1, 16)), PrefixOverlapsAnother),
        (StopSettings { prefixes: twice(prefix(0x21, 0, 8)), ..good }, PrefixOverlapsAnother),
    ] {
        assert_enable_refused(&mut table, &settings, refusal);
        assert_enable_refused(&mut table, &of_kind_2(settings), RetiredKind);
    }
    assert_eq!(table.enable(&good), Ok(3));
    assert_enable_refused(&mut table, &stop(2, NO_PREFIX), NoIndexFree);
    assert_enable_refused(&mut table, &of_kind_2(stop(2, NO_PREFIX)), RetiredKind);
}

#[test]
fn a_stop_may_have_the_area_of_the_dgvl() {
    let mut table = table(3);
    assert_eq!(table.set_dgvl_area(Some(area(0))), Ok(()));
    assert_eq!(table.enable(&stop(0, NO_PREFIX)), Ok(2));
    assert_eq!(table.set_dgvl_area(Some(area(0))), Ok(()));
}

#[test]
fn the_next_enabled_gets_the_lowest_unused_index() {
    let mut table = table(65);
    for index in 2..=4 {
        assert_eq!(table.enable(&stop(index.into(), NO_PREFIX)), Ok(index));
    }
    assert_eq!(table.disable(3), Ok(()));
    assert_eq!(table.enable(&stop(100, NO_PREFIX)), Ok(3));
    assert_eq!(table.enable(&stop(101, NO_PREFIX)), Ok(5));
    assert_eq!(table.disable(2), Ok(()));
    assert_eq!(table.disable(5), Ok(()));
    assert_eq!(table.enable(&stop(102, NO_PREFIX)), Ok(2));
    assert_eq!(table.enable(&stop(103, NO_PREFIX)), Ok(5));
}

#[test]
fn at_most_maximum_minus_1_are_enabled() {
    for maximum in [2, 3, 64, 65] {
        let mut table = table(maximum);
        for index in 2..=maximum {
            assert_eq!(table.enable(&stop(index.into(), NO_PREFIX)), Ok(index));
        }
        assert_eq!(table.stops.len() as u64, maximum - 1);
        assert_enable_refused(&mut table, &stop(900, NO_PREFIX), NoIndexFree);
        assert_eq!(table.disable(maximum), Ok(()));
        assert_eq!(table.enable(&stop(900, NO_PREFIX)), Ok(maximum));
    }
}

/// The largest table that a run holds.
fn table_of_thousands() -> Table {
    let settings = StartSettings { maximum: 4_093, ..START };
    let mut table = Table::start_up_to(LARGEST_MAXIMUM_OVER_A_RUN, &settings).unwrap();
    for index in 2..=4_093 {
        let (first, second) = ((index >> 8) as u8, index as u8);
        let settings = stop(index.into(), prefix(0x20 + first, second, 16));
        assert_eq!(table.enable(&settings), Ok(index));
    }
    table
}

#[test]
fn thousands_of_stops() {
    let mut table = table_of_thousands();
    assert_eq!(table.stops.len(), 4_092);
    assert_enable_refused(&mut table, &stop(1, NO_PREFIX), NoIndexFree);
    // Against the last of them; 4 comes before 5, in whichever place the two stand.
    let of_last = stop(4_093, prefix(0x20, 2, 16));
    let by_last = stop(1, prefix(0x2F, 0xFD, 16));
    for refused in [&of_last, &StopSettings { area: area(2), ..by_last }] {
        assert_enable_refused(&mut table, refused, AreaEqualToAStops);
    }
    assert_enable_refused(&mut table, &by_last, PrefixOverlapsAnother);
    for index in [4_094, 4_096 + 2, 65_536 + 2, u64::MAX] {
        assert_eq!(table.disable(index), Err(NoEnabledLink));
        assert_eq!(table.interface(index), Err(NoEnabledLink));
    }
    // `link-lowest-index`.
    for index in [4_093, 2_047, 3_000, 2_048] {
        assert_eq!(table.disable(index), Ok(()));
    }
    for (place, index) in [(0, 2_047), (1, 2_048), (-2, 3_000), (4_093, 4_093)] {
        assert_eq!(table.enable(&stop(place, NO_PREFIX)), Ok(index));
    }
    assert_enable_refused(&mut table, &stop(-1, NO_PREFIX), NoIndexFree);
}

#[test]
fn disable_answers_15_before_7_and_changes_nothing() {
    let mut table = table(65);
    assert_eq!(table.enable(&stop(0, NO_PREFIX)), Ok(2));
    let before = table.clone();
    for index in [0, 1] {
        assert_eq!(table.disable(index), Err(IndexOfFixedLink));
    }
    for index in [3, 65, 66, 256, 258, u64::MAX] {
        assert_eq!(table.disable(index), Err(NoEnabledLink));
    }
    assert_eq!(table, before);
    assert_eq!(table.disable(2), Ok(()));
    assert_eq!(table.disable(2), Err(NoEnabledLink));
}

#[test]
fn a_disabled_stop_no_longer_counts() {
    let mut table = table(2);
    let settings = stop(0, prefix(0x20, 0, 8));
    assert_eq!(table.enable(&settings), Ok(2));
    assert_eq!(table.disable(2), Ok(()));
    assert_eq!(table.enable(&settings), Ok(2));
}

#[test]
fn the_dgvl_area_is_set_changed_and_cleared() {
    let mut table = table(2);
    let circle = Area { shape: CIRCLE, b: 0, ..area(1) };
    for wanted in [Some(area(0)), Some(circle), None, None] {
        assert_eq!(table.set_dgvl_area(wanted), Ok(()));
        assert_eq!(table.dgvl_area, wanted);
    }
    assert_eq!(table.set_dgvl_area(Some(circle)), Ok(()));
    let bad = Area { a: 65_536, ..circle };
    assert_eq!(table.set_dgvl_area(Some(bad)), Err(AreaNotGood));
    assert_eq!(table.dgvl_area, Some(circle));
}

#[test]
fn the_own_mid_changes_and_nothing_else() {
    let mut changed = table(5);
    changed.enable(&stop(0, NO_PREFIX)).unwrap();
    let before = changed.clone();
    assert_eq!(changed.set_own_mid(LARGEST_MID), Ok(()));
    assert_eq!(changed, Table { own_mid: LARGEST_MID, ..before });
    let before = changed.clone();
    assert_eq!(changed.set_own_mid(LARGEST_MID + 1), Err(ValueOutsideItsList));
    assert_eq!(changed, before);
}

#[test]
fn the_interface_address() {
    let mut table = table(65);
    table.enable(&stop(0, NO_PREFIX)).unwrap();
    let address = link_local_address(0x0200_0000_0001);
    for index in 0..=2 {
        let expected = InterfaceAddress { mid: 0x0200_0000_0001, address };
        assert_eq!(table.interface_address(index), Ok(expected));
    }
    for index in [3, 65, 66, 256, u64::MAX] {
        assert_eq!(table.interface_address(index), Err(NoEnabledLink));
    }
    table.set_own_mid(7).unwrap();
    let changed = table.interface_address(2).unwrap();
    assert_eq!((changed.mid, changed.address), (7, link_local_address(7)));
}
