use super::*;
use crate::limits::{DAYLIST, DISPATCHLIST};

const BOTH: [Limits; 2] = [DAYLIST, DISPATCHLIST];

const START: [u8; 7] = [1, 5, 65, 1, 1, 1, 1];

/// What both programs print of these bytes.
fn listed(bytes: &[u8]) -> String {
    let [text, other] = BOTH.map(|limits| listing(limits, bytes));
    assert_eq!(text, other);
    text
}

/// A good start and own MID records up to this many bytes. Most of them have eight,
/// so that their number is far from the limit.
fn filled_to(length: usize) -> Vec<u8> {
    let mut bytes = START.to_vec();
    while bytes.len() + 10 < length {
        bytes.extend([5, 0x80, 0x80, 0x80, 0x80, 0x80, 0x80, 0x01]);
    }
    if (length - bytes.len()) % 2 == 1 {
        bytes.extend([5, 0x80, 0x01]);
    }
    while bytes.len() < length {
        bytes.extend([5, 1]);
    }
    assert_eq!(bytes.len(), length);
    bytes
}

fn last_line(text: &str) -> &str {
    text.lines().last().unwrap()
}

#[test]
fn the_limits_of_the_rules() {
    assert_eq!((DAYLIST.largest_maximum, DAYLIST.most_input), (65, 65_536));
    assert_eq!((DISPATCHLIST.largest_maximum, DISPATCHLIST.most_input), (4_093, 262_144));
    assert_eq!(DISPATCHLIST.most_records, 65_536);
}

#[test]
fn empty_input_prints_the_header() {
    assert_eq!(listed(&[]), "rec ans link n\n");
}

#[test]
fn a_broken_record_ends_the_listing_with_its_offset() {
    let text = listed(&[&START[..], &[3, 1, 3, 0x80, 0, 3, 1]].concat());
    assert_eq!(text, "rec ans link n\n1 0 - 0\n2 15 - 0\n3 14 - 9\n");
    assert_eq!(listed(&[0]), "rec ans link n\n1 14 - 0\n");
}

#[test]
fn records_before_the_start_go_on() {
    let text = listed(&[&[3, 0, 5, 1], &START[..], &[3, 0]].concat());
    assert_eq!(text, "rec ans link n\n1 16 - 0\n2 16 - 0\n3 0 - 0\n4 15 - 0\n");
}

#[test]
fn a_start_and_an_enable_of_kind_2_are_shown_and_the_listing_goes_on() {
    // Own MID 5, maximum 65, the TVL of kind 2; a circle without a prefix.
    let old_start = [1, 5, 65, 2, 1, 1, 1];
    let stop = |kind| [2, 0, 0, 0, 1, 0, 0, 0, kind, 1];
    let day = [&old_start[..], &[3, 0], &START, &stop(2), &stop(3), &[3, 2]].concat();
    let expected = "1 30 - 0\n2 16 - 0\n3 0 - 0\n4 30 - 0\n5 0 2 0\n6 0 - 0\n";
    assert_eq!(listed(&day), format!("{HEADER}\n{expected}"));
}

/// `link-maximum`, `run-maximum`.
#[test]
fn the_maximum_up_to_which_a_start_is_good() {
    for (maximum, by_daylist, by_dispatchlist) in [
        (&[1][..], 1, 1),
        (&[2], 0, 0),
        (&[65], 0, 0),
        (&[66], 1, 0),
        (&[0xFC, 0x1F], 1, 0),
        // 4,093, 4,094, and 65,536 + 65.
        (&[0xFD, 0x1F], 1, 0),
        (&[0xFE, 0x1F], 1, 1),
        (&[0xC1, 0x80, 0x04], 1, 1),
    ] {
        let day = [&[1, 5], maximum, &[1, 1, 1, 1]].concat();
        let replies = BOTH.map(|limits| lines(limits, &day)[0].answer.reply);
        assert_eq!(replies, [by_daylist, by_dispatchlist], "{maximum:x?}");
    }
}

#[test]
fn a_record_that_ends_exactly_at_the_limit() {
    for limits in BOTH {
        let bytes = filled_to(limits.most_input);
        let whole = listing(limits, &bytes);
        assert!(whole.ends_with(" 0 - 0\n") && !whole.contains(" 14 "));
        for behind in [&[5, 1][..], &[0], &[0xFF; 70_000]] {
            assert_eq!(listing(limits, &[&bytes, behind].concat()), whole);
        }
    }
}

#[test]
fn a_record_cut_by_the_limit_is_broken() {
    for limits in BOTH {
        for (before, behind) in [(1, vec![5, 1]), (3, vec![5, 0x80, 0x80, 1])] {
            let begin = limits.most_input - before;
            let mut bytes = filled_to(begin);
            bytes.extend(&behind);
            bytes.extend([5, 1]);
            let text = listing(limits, &bytes);
            assert!(last_line(&text).ends_with(&format!(" 14 - {begin}")));
        }
    }
}

#[test]
fn sizes_around_the_limit() {
    for limits in BOTH {
        let most = limits.most_input;
        for (size, broken) in [(most - 1, false), (most, false), (most + 1, true)] {
            let mut bytes = filled_to(size - 2);
            bytes.extend([5, 1]);
            assert_eq!(listing(limits, &bytes).contains(" 14 "), broken, "{size}");
        }
    }
}

/// `dispatch-list`: 65,536 records, whatever stands behind them.
#[test]
fn records_past_the_limit_count_as_missing() {
    let records = [3, 0].repeat(65_535);
    let text = listing(DISPATCHLIST, &records);
    assert_eq!(last_line(&text), "65535 16 - 0");
    for (last, line) in [([3, 1], "65536 16 - 0"), ([10, 0], "65536 14 - 131070")] {
        let most = [&records[..], &last].concat();
        let whole = listing(DISPATCHLIST, &most);
        assert_eq!(last_line(&whole), line);
        for behind in [&[3, 0][..], &[10], &[3], &[0xFF; 200_000]] {
            assert_eq!(listing(DISPATCHLIST, &[&most, behind].concat()), whole);
        }
    }
}

/// 65,536 records of four bytes each: the limits are met at once.
#[test]
fn both_limits_at_once() {
    let records = [3, 0x80, 0x80, 1].repeat(65_536);
    let whole = listing(DISPATCHLIST, &records);
    assert_eq!(last_line(&whole), "65536 16 - 0");
    assert_eq!(listing(DISPATCHLIST, &[&records[..], &[0]].concat()), whole);
    let cut = listing(DISPATCHLIST, &records[..262_143]);
    assert_eq!(last_line(&cut), "65536 14 - 262140");
}

#[test]
fn kinds_of_lines() {
    for (bytes, kind) in [
        (&[3, 1][..], RecordKind::Known(3)),
        (&[7], RecordKind::Known(7)),
        (&[0], RecordKind::Unknown),
        (&[8], RecordKind::Known(8)),
        (&[9], RecordKind::Known(9)),
        (&[10], RecordKind::Unknown),
        (&[0x83, 0], RecordKind::Unreadable),
        (&[0x83], RecordKind::Unreadable),
    ] {
        assert_eq!(lines(DAYLIST, bytes)[0].kind, kind);
    }
}
