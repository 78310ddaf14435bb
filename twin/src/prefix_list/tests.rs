use super::*;

/// 2001:db8:..., the two bytes behind, and a length.
fn prefix(third: u8, fourth: u8, length: u64) -> Prefix {
    let mut bytes = [0; 16];
    bytes[..8].copy_from_slice(&[0x20, 0x01, 0x0D, 0xB8, 0, third, 0, fourth]);
    Prefix { length, bytes }
}

/// Also with a bit less.
fn apart() -> [Prefix; MOST_PREFIXES] {
    [prefix(2, 0, 48), prefix(4, 0, 48), prefix(6, 0, 48), prefix(8, 0, 48)]
}

/// The prefixes with another one at this place.
fn with(place: usize, other: Prefix) -> PrefixList {
    let mut places = apart();
    places[place] = other;
    PrefixList::of(&places)
}

const RESERVED: Prefix =
    Prefix { length: 8, bytes: [0xFF, 0, 0, 0, 0, 0, 0, 0, 0, 0, 0, 0, 0, 0, 0, 0] };

#[test]
fn the_first_places_are_listed_as_many_as_the_count_says() {
    for count in 0..=u8::MAX {
        let list = PrefixList { count, places: apart() };
        assert_eq!(list.listed(), &apart()[..usize::from(count).min(4)]);
        assert_eq!(list.is_too_long(), count > 4);
    }
}

#[test]
fn a_list_of_one_or_none() {
    assert_eq!(PrefixList::of_one_or_none(NO_PREFIX), NO_PREFIXES);
    assert_eq!(PrefixList::of_one_or_none(apart()[0]).listed(), &apart()[..1]);
}

#[test]
fn each_listed_one_must_be_good_and_have_a_length() {
    assert!(NO_PREFIXES.is_good() && PrefixList::of(&apart()).is_good());
    assert!(!PrefixList::of(&[NO_PREFIX]).is_good());
    for place in 0..MOST_PREFIXES {
        let bit_past = prefix(9, 1, 48);
        for bad in [NO_PREFIX, RESERVED, bit_past, Prefix { length: 129, ..NO_PREFIX }] {
            assert!(!with(place, bad).is_good(), "{place} {bad:?}");
            // Where it is not listed nobody looks.
            let count = place as u8;
            assert!(PrefixList { count, ..with(place, bad) }.is_good());
        }
    }
}

#[test]
fn two_lists_overlap_at_any_two_places() {
    let inside = prefix(17, 7, 64);
    for place in 0..MOST_PREFIXES {
        for other_place in 0..MOST_PREFIXES {
            let mut other = PrefixList { places: apart().map(|one| beside(&one)), count: 4 };
            assert!(!with(place, inside).overlaps(&other));
            other.places[other_place] = prefix(17, 0, 48);
            assert!(with(place, inside).overlaps(&other));
            assert!(other.overlaps(&with(place, inside)));
            let shorter = PrefixList { count: other_place as u8, ..other };
            assert!(!with(place, inside).overlaps(&shorter));
        }
    }
    assert!(!NO_PREFIXES.overlaps(&NO_PREFIXES));
}

/// 2002:..., which none of the others overlaps.
fn beside(prefix: &Prefix) -> Prefix {
    let mut other = *prefix;
    other.bytes[1] = 0x02;
    other
}

#[test]
fn a_list_overlaps_itself_at_any_two_places() {
    assert!(!NO_PREFIXES.overlaps_itself() && !PrefixList::of(&apart()).overlaps_itself());
    for place in 0..MOST_PREFIXES {
        for other in (0..MOST_PREFIXES).filter(|&other| other != place) {
            let whole = apart()[other];
            let inside = Prefix { length: 64, ..whole };
            for overlapping in [whole, inside, Prefix { length: 47, ..whole }] {
                let list = with(place, overlapping);
                assert!(list.overlaps_itself(), "{place} {other}");
                let last = place.max(other) as u8;
                assert!(!PrefixList { count: last, ..list }.overlaps_itself());
            }
        }
    }
    // Length 0 overlaps nothing, and not itself either.
    assert!(!PrefixList::of(&[NO_PREFIX, NO_PREFIX]).overlaps_itself());
}

#[test]
fn each_listed_one_holds_addresses() {
    for place in 0..MOST_PREFIXES {
        let address = prefix(2 * place as u8 + 2, 9, 0).bytes;
        for count in 0..=4 {
            let list = PrefixList { count, places: apart() };
            assert_eq!(list.holds_address(&address), usize::from(count) > place);
        }
    }
}

#[test]
fn places_past_the_count_are_kept_blank() {
    for count in 0..=4 {
        let kept = PrefixList { count, places: apart() }.kept();
        assert_eq!(kept.listed(), &apart()[..usize::from(count)]);
        assert!(kept.places[usize::from(count)..].iter().all(|&place| place == NO_PREFIX));
    }
}
