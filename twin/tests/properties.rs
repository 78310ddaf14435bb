//! Properties over generated day files.

use twin::call::{kind, Call};
use twin::generate::enables::old_enable_pieces;
use twin::generate::random::Random;
use twin::generate::requests::old_request_pieces;
use twin::generate::themes;
use twin::generate::{day_file, FILES_OF_A_ROUND};
use twin::leaving::Request;
use twin::limits::DAYLIST;
use twin::link::Kind;
use twin::listing::{lines, listing, print};
use twin::prefix::Prefix;
use twin::read::read_record;
use twin::replay::{for_each_call, Replay};
use twin::reply::Refusal;
use twin::table::{StopSettings, Table};
use twin::write::{joined, record_bytes, write_record};

/// Every whole record of these bytes with its offset and end.
fn for_each_record(bytes: &[u8], mut look: impl FnMut(usize, usize)) -> usize {
    let mut offset = 0;
    while let Ok((_, behind)) = read_record(bytes, offset) {
        look(offset, behind);
        offset = behind;
    }
    offset
}

/// Kinds 2 and 7 aside, which are read alone (`record-list`, `record-hop`): there the
/// record is the one that is written but for its kind and its count or next hop.
#[test]
fn written_records_read_back_and_are_the_only_form() {
    for number in 0..200 {
        let bytes = day_file(11, number);
        for_each_record(&bytes, |offset, behind| {
            let (call, _) = read_record(&bytes, offset).unwrap();
            let written = record_bytes(&call).expect("a call that was read has a form");
            let form = match call {
                Call::Request(request) if bytes[offset] == 7 => {
                    joined(&old_request_pieces(&request))
                }
                Call::Enable(settings) if bytes[offset] == 2 => {
                    joined(&old_enable_pieces(&settings))
                }
                _ => written.clone(),
            };
            assert_eq!(form, bytes[offset..behind]);
            assert_eq!(read_record(&written, 0), Ok((call, written.len())));
        });
    }
}

#[test]
fn the_writer_without_room_writes_nothing() {
    let bytes = themes::mixed(Random::new(12)).into_bytes();
    for_each_record(&bytes, |offset, behind| {
        let (call, _) = read_record(&bytes, offset).unwrap();
        let mut buffer = vec![0x77; behind - offset - 1];
        assert_eq!(write_record(&call, &mut buffer), Err(Refusal::NoRoom));
        assert!(buffer.iter().all(|&byte| byte == 0x77));
    });
}

#[test]
fn days_of_whole_records_read_to_their_end() {
    for seed in 0..60 {
        let bytes = themes::any(Random::new(seed)).into_bytes();
        assert_eq!(for_each_record(&bytes, |_, _| ()), bytes.len());
    }
}

#[test]
fn refusals_change_nothing() {
    for number in 0..40 {
        let bytes = day_file(13, number);
        let mut replay = Replay::new(DAYLIST);
        for_each_record(&bytes, |offset, _| {
            let before = replay.clone();
            let (answer, _) = replay.record(&bytes, offset).unwrap();
            if answer.reply != 0 {
                assert_eq!(replay, before);
                assert_eq!((answer.link, answer.length), (None, 0));
            }
        });
    }
}

#[test]
fn tables_keep_what_the_rules_say_of_them() {
    for number in 0..40 {
        let bytes = day_file(14, number);
        let mut replay = Replay::new(DAYLIST);
        for_each_record(&bytes, |offset, _| {
            replay.record(&bytes, offset).unwrap();
            let Some(table) = replay.table() else { return };
            let stops: Vec<_> = table.stops.values().collect();
            assert!(table.stops.keys().all(|index| (2..=table.maximum).contains(index)));
            assert!(stops.iter().all(|stop| stop.area.is_good() && stop.prefixes.is_good()));
            assert!(stops.iter().all(|stop| stop.prefixes == stop.prefixes.kept()), "prefix-kept");
            assert!(stops.iter().all(|stop| !stop.prefixes.overlaps_itself()));
            let of_stops = stops.iter().map(|stop| stop.interface);
            let mut links = of_stops.chain([table.tvl, table.dgvl]);
            assert!(links.all(|link| link.kind != Kind::Nbma), "kind-retired");
            for (place, stop) in stops.iter().enumerate() {
                for other in &stops[place + 1..] {
                    assert!(!stop.area.equals(&other.area));
                    assert!(!stop.prefixes.overlaps(&other.prefixes));
                }
            }
        });
    }
}

/// The rule from before there were next hops: the packet's destination is resolved.
fn is_12_by_the_old_rule(table: &Table, request: &Request) -> bool {
    let unicast = request.packet[24] != 0xFF;
    let derived = table.interface(request.index).unwrap().derives_the_mid();
    let has_mid = match derived {
        true => request.packet[35..37] == [0xFF, 0xFE],
        false => request.neighbour.is_some(),
    };
    unicast && !has_mid
}

/// `record-hop`: a request of kind 7 answers as it did.
#[test]
fn requests_of_kind_7_answer_as_before_there_were_next_hops() {
    let (mut done, mut refused) = (0, 0);
    for number in 0..100 {
        for_each_call(DAYLIST, &day_file(18, number), |replay, kind, call| {
            let (Some(table), 7, Call::Request(request)) = (replay.table(), kind, call) else {
                return;
            };
            let is_12 = match table.request(request) {
                Ok(_) => false,
                Err(Refusal::NeighbourNotResolvable) => true,
                Err(_) => return,
            };
            assert_eq!(is_12, is_12_by_the_old_rule(table, request));
            (done, refused) = (done + u64::from(!is_12), refused + u64::from(is_12));
        });
    }
    assert!(done > 100 && refused > 100, "{done} done, {refused} refused");
}

/// The rule from before a stop could have several prefixes, of a table in which none has.
fn old_reply(table: &Table, settings: &StopSettings, prefix: &Prefix) -> u8 {
    let refusals = [
        (2, !settings.area.is_good()),
        (3, !prefix.is_good()),
        (4, table.stops.values().any(|stop| stop.area.equals(&settings.area))),
        (5, table.stops.values().any(|stop| stop.prefixes.places[0].overlaps(prefix))),
        (6, table.stops.len() as u64 == table.maximum - 1),
    ];
    refusals.into_iter().find(|(_, holds)| *holds).map_or(0, |(reply, _)| reply)
}

/// `record-list`: an enable of kind 2 answers as it did. A day is asked up to the first
/// stop with several prefixes.
#[test]
fn enables_of_kind_2_answer_as_before_there_were_several_prefixes() {
    let mut seen = [0; 7];
    for number in 0..200 {
        for_each_call(DAYLIST, &day_file(19, number), |replay, kind, call| {
            let (Some(table), kind::OLD_ENABLE, Call::Enable(settings)) =
                (replay.table(), kind, call)
            else {
                return;
            };
            let several = table.stops.values().any(|stop| stop.prefixes.count > 1);
            let interface = settings.interface;
            if several || ![1, 3].contains(&interface.kind) || interface.flag > 1 {
                return;
            }
            let reply = replay.clone().call(call).reply;
            assert_eq!(reply, old_reply(table, settings, &settings.prefixes.places[0]));
            seen[usize::from(reply)] += 1;
        });
    }
    assert!([0, 2, 3, 4, 5, 6].iter().all(|&reply| seen[reply] > 10), "{seen:?}");
}

/// `prefix-list`, `writer-back`: what stands in the places past the count changes neither
/// the record nor the answer nor the table.
#[test]
fn places_past_the_count_are_not_looked_at() {
    let mut random = Random::new(20);
    for number in 0..60 {
        for_each_call(DAYLIST, &day_file(20, number), |replay, _, call| {
            let Call::Enable(settings) = call else { return };
            let mut filled = *settings;
            for place in &mut filled.prefixes.places[usize::from(settings.prefixes.count)..] {
                *place = Prefix { length: random.below(300), bytes: random.bytes() };
            }
            let filled = Call::Enable(filled);
            assert_eq!(record_bytes(&filled), record_bytes(call));
            let (mut one, mut other) = (replay.clone(), replay.clone());
            assert_eq!(one.call(&filled), other.call(call));
            assert_eq!(one, other);
        });
    }
}

#[test]
fn the_listing_never_panics_on_random_bytes() {
    let mut random = Random::new(15);
    for _ in 0..3_000 {
        let length = random.below(400);
        let mask = random.pick(&[0xFF, 0x7F, 0x87, 0x07]);
        let bytes: Vec<u8> = (0..length).map(|_| random.byte() & mask).collect();
        let started = [&[1, 5, 65, 1, 0, 3, 1], &bytes[..]].concat();
        for input in [bytes, started] {
            let text = listing(DAYLIST, &input);
            assert!(text.starts_with("rec ans link n\n") && text.ends_with('\n'));
            assert!(lines(DAYLIST, &input).len() <= input.len());
        }
    }
}

#[test]
fn input_past_the_limit_counts_as_missing() {
    // The last of each round lies around the limit.
    for round in 1..30 {
        let bytes = day_file(16, round * FILES_OF_A_ROUND - 1);
        assert!(bytes.len() >= DAYLIST.most_input - 1);
        let read = DAYLIST.up_to_the_limit(&bytes);
        assert_eq!(listing(DAYLIST, &bytes), listing(DAYLIST, read));
        assert_eq!(print(&lines(DAYLIST, &bytes)), listing(DAYLIST, &bytes));
    }
}

#[test]
fn a_listing_ends_with_14_or_reaches_the_end() {
    for number in 0..200 {
        let bytes = day_file(17, number);
        let read = DAYLIST.up_to_the_limit(&bytes);
        let whole = for_each_record(read, |_, _| ());
        let last =
            lines(DAYLIST, &bytes).last().map(|line| (line.answer.reply, line.answer.length));
        if whole < read.len() {
            assert_eq!(last, Some((14, whole)));
        } else {
            assert!(last.is_none_or(|(reply, _)| reply != 14));
        }
    }
}

#[test]
fn a_file_depends_on_seed_and_number_only() {
    for number in 0..20 {
        assert_eq!(day_file(1, number), day_file(1, number));
    }
    assert_ne!(day_file(1, 0), day_file(2, 0));
}
