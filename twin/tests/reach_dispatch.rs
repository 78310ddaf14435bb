//! What the generated day files for `dispatchlist` reach: in days of its own every
//! allowed pair and all that thousands of stops show; and in all days what `compare`
//! counts of `daylist` too.

use twin::alike;
use twin::call::Call;
use twin::compare::subject::Subject;
use twin::generate::dispatch::{day_file, LARGE, OWN_FILES};
use twin::limits::{DAYLIST, DISPATCHLIST};
use twin::listing::lines;
use twin::orders;
use twin::pairs::{allowed_pairs, Seen};
use twin::replay::for_each_call;
use twin::resolving;
use twin::several;
use twin::thousands::{self, both_take};

/// In one test, since to list thousands of stops takes its time.
#[test]
fn its_own_files_reach_every_allowed_pair_and_all_that_thousands_of_stops_show() {
    for seed in [1, u64::MAX] {
        let (mut seen, mut counts) = (Seen::default(), thousands::Counts::default());
        for number in 0..OWN_FILES {
            let day = day_file(seed, number);
            let lines = lines(DISPATCHLIST, &day);
            seen.add(&lines);
            counts.add(&day, &lines);
        }
        let missing: Vec<_> =
            allowed_pairs().into_iter().filter(|&pair| seen.count(pair) == 0).collect();
        assert!(missing.is_empty() && seen.not_allowed().is_empty(), "seed {seed}: {missing:?}");
        for (kind, name, count) in counts.rows() {
            assert!(count > 0, "seed {seed}, kind {kind}: {name}");
        }
        for (name, count) in counts.rows_of_days() {
            assert!(count > 0, "seed {seed}: {name}");
        }
    }
}

/// The large days are left out: they would take long, and are not made for this.
#[test]
fn the_files_reach_every_order_next_hop_likeness_and_list() {
    for seed in [1, 7, u64::MAX] {
        let mut orders = orders::Counts::default();
        let mut next_hops = resolving::Counts::default();
        let mut likenesses = alike::Counts::default();
        let mut several = several::Counts::default();
        for number in LARGE..Subject::Dispatchlist.files() {
            let day = day_file(seed, number);
            orders.add(DISPATCHLIST, &day);
            next_hops.add(DISPATCHLIST, &day);
            let lines = lines(DISPATCHLIST, &day);
            likenesses.add(DISPATCHLIST, &day, &lines);
            several.add(DISPATCHLIST, &day, &lines);
        }
        let orders = orders.rows().iter().map(|(one, count)| (one.name(), *count));
        let next_hops = next_hops.rows().iter().map(|(one, count)| (one.name(), *count));
        let likenesses = likenesses.rows().iter().map(|row| (row.way.name(), row.count));
        let several = several.rows().into_iter().map(|(_, name, count)| (name.to_string(), count));
        for (name, count) in orders.chain(next_hops).chain(likenesses).chain(several) {
            assert!(count > 0, "seed {seed}: {name}");
        }
    }
}

/// `run-alike`, over most of the days for `daylist`.
#[test]
fn what_both_programs_take_they_list_alike() {
    let (mut alike, mut otherwise) = (0, 0);
    for number in 0..400 {
        let day = twin::generate::day_file(1, number);
        let same = lines(DAYLIST, &day) == lines(DISPATCHLIST, &day);
        if both_take(&day) {
            assert!(same, "file {number}");
            alike += 1;
        } else {
            otherwise += u64::from(!same);
        }
    }
    assert!(alike > 300 && otherwise > 20, "{alike} alike, {otherwise} not");
}

#[test]
fn a_file_depends_on_seed_and_number_only() {
    for number in [5, 6, 14, LARGE, OWN_FILES] {
        assert_eq!(day_file(1, number), day_file(1, number));
        assert_ne!(day_file(1, number), day_file(2, number));
    }
    assert_eq!(day_file(1, OWN_FILES), twin::generate::day_file(1, 0));
}

/// The proved program is emulated on some machines, and compares each new stop, and
/// each packet, with every enabled stop: so many comparisons are well under a minute.
#[test]
fn the_large_days_are_not_too_large() {
    assert!((10..=20).contains(&LARGE));
    let mut compared = 0;
    for number in 0..LARGE {
        for_each_call(DISPATCHLIST, &day_file(1, number), |replay, _, call| {
            if let (Some(table), Call::Enable(_) | Call::Indication(_)) = (replay.table(), call) {
                compared += table.stops.len();
            }
        });
    }
    assert!((20_000_000..50_000_000).contains(&compared), "{compared} comparisons");
}
