//! Days whose start does not come first: records before it, starts that are refused
//! by 1, by 30 or by 1 over 30, and second starts.

use super::day::{Day, Weights};
use super::random::Random;
use super::values;
use crate::call::Call;
use crate::link::RETIRED_KIND;
use crate::table::StartSettings;

/// Records of every kind but starts: before a start each of them is 16.
pub const ALL_BUT_STARTS: Weights = [0, 1, 2, 2, 2, 2, 1, 2, 2];

pub fn starts(random: Random) -> Day {
    let mut day = Day::new(random, 20);
    refused_starts(&mut day);
    let maximum = day.maximum(0);
    day.good_start(maximum);
    day.any_records(60, &AMONG_SECOND_STARTS);
    day
}

pub const AMONG_SECOND_STARTS: Weights = [10, 10, 6, 5, 5, 20, 10, 15, 12];

/// What is 16 because no start has been good yet, and starts that are refused.
pub fn refused_starts(day: &mut Day) {
    let before = day.random.below(25);
    day.any_records(before, &ALL_BUT_STARTS);
    for _ in 0..day.random.between(1, 20) {
        refused_start(day);
        day.any_records(2, &ALL_BUT_STARTS);
    }
}

/// A start of the retired kind, with one value outside its list, with both, or with
/// any number of faults.
fn refused_start(day: &mut Day) {
    let largest = day.limits().largest_maximum;
    let random = &mut day.random;
    let settings = match random.below(10) {
        0 | 1 => retired(random, largest),
        2 | 3 => retired_and_one_outside(random, largest),
        4..=7 => {
            let good = good(random, largest);
            one_outside(random, largest, &good)
        }
        _ => {
            let maximum = day.maximum(50);
            day.start(maximum);
            return;
        }
    };
    day.add(&Call::Start(settings));
}

fn good(random: &mut Random, largest: u64) -> StartSettings {
    StartSettings {
        own_mid: values::mid(random, 0),
        maximum: values::maximum(random, largest, 0),
        tvl: values::interface(random, 0),
        dgvl: values::interface(random, 0),
    }
}

/// Good but for the kind: the TVL has the retired one, or the DGVL, or both.
pub fn retired(random: &mut Random, largest: u64) -> StartSettings {
    let mut settings = good(random, largest);
    let (of_tvl, of_dgvl) = random.pick(&[(true, false), (false, true), (true, true)]);
    if of_tvl {
        settings.tvl.kind = RETIRED_KIND;
    }
    if of_dgvl {
        settings.dgvl.kind = RETIRED_KIND;
    }
    settings
}

/// 1 over 30.
pub fn retired_and_one_outside(random: &mut Random, largest: u64) -> StartSettings {
    loop {
        let settings = retired(random, largest);
        let bad = one_outside(random, largest, &settings);
        // The one outside may have taken the place of the only retired kind.
        if has_retired_kind(&bad) {
            return bad;
        }
    }
}

fn has_retired_kind(settings: &StartSettings) -> bool {
    [settings.tvl, settings.dgvl].iter().any(|link| link.kind == RETIRED_KIND)
}

/// The settings with one value outside its list.
fn one_outside(random: &mut Random, largest: u64, settings: &StartSettings) -> StartSettings {
    let all = 100;
    let mut bad = *settings;
    match random.below(6) {
        0 => bad.own_mid = values::mid(random, all),
        1 => bad.maximum = values::maximum(random, largest, all),
        2 => bad.tvl.kind = values::kind_outside(random),
        3 => bad.tvl.flag = values::flag(random, all),
        4 => bad.dgvl.kind = values::kind_outside(random),
        _ => bad.dgvl.flag = values::flag(random, all),
    }
    bad
}

#[cfg(test)]
mod tests {
    use super::*;
    use crate::reply::Refusal::*;
    use crate::table::{Table, LARGEST_MAXIMUM, LARGEST_MAXIMUM_OVER_A_RUN};

    #[test]
    fn each_is_refused_as_it_is_meant() {
        for largest in [LARGEST_MAXIMUM, LARGEST_MAXIMUM_OVER_A_RUN] {
            let refusal = |settings| Table::start_up_to(largest, &settings).err();
            let mut random = Random::new(13);
            for _ in 0..500 {
                let good = good(&mut random, largest);
                assert_eq!(refusal(good), None);
                let outside = one_outside(&mut random, largest, &good);
                assert_eq!(refusal(outside), Some(ValueOutsideItsList));
                assert_eq!(refusal(retired(&mut random, largest)), Some(RetiredKind));
                let both = retired_and_one_outside(&mut random, largest);
                assert_eq!(refusal(both), Some(ValueOutsideItsList));
                assert!(has_retired_kind(&both));
            }
        }
    }
}
