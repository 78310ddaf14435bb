//! Lists of prefixes: good ones that lie apart, and lists in which one prefix is bad, has
//! length 0 or overlaps another.

use super::prefixes;
use super::random::Random;
use crate::prefix::{Prefix, NO_PREFIX};
use crate::prefix_list::MOST_PREFIXES;

/// So many good prefixes that lie apart.
pub fn fresh(random: &mut Random, count: usize) -> Vec<Prefix> {
    let mut list = Vec::new();
    while list.len() < count {
        let prefix = prefixes::fresh(random);
        if overlaps_none(&prefix, &list) {
            list.push(prefix);
        }
    }
    list
}

/// So many good prefixes that lie apart from each other and from those known. They have
/// 12 bits or more, and where the known ones have too there is always room for them.
pub fn apart(random: &mut Random, known: &[Prefix], count: usize) -> Vec<Prefix> {
    let mut list = Vec::new();
    while list.len() < count {
        let prefix = narrow(random);
        if overlaps_none(&prefix, &list) && overlaps_none(&prefix, known) {
            list.push(prefix);
        }
    }
    list
}

fn overlaps_none(prefix: &Prefix, others: &[Prefix]) -> bool {
    !others.iter().any(|other| other.overlaps(prefix))
}

/// A good prefix of 12 bits or more where real networks are.
pub fn narrow(random: &mut Random) -> Prefix {
    let mut address: [u8; 16] = random.bytes();
    address[0] = 0x20 | address[0] & 0x1F;
    prefixes::first_bits(&address, prefixes::length(random).max(12))
}

/// One in a reserved block, or around one.
pub fn reserved(random: &mut Random) -> Prefix {
    loop {
        let prefix = prefixes::around_the_forbidden(random);
        if !prefix.is_good() {
            return prefix;
        }
    }
}

/// Any list, given the prefixes that the table knows. So many percent of them are bad,
/// and in some a prefix is like a known one, or like another of the list.
pub fn any(random: &mut Random, known: &[Prefix], bad: u64) -> Vec<Prefix> {
    let count = random.pick(&[0, 1, 1, 2, 2, 2, 3, 3, MOST_PREFIXES]);
    let mut list = fresh(random, count);
    let other = match random.below(20) {
        _ if random.percent(bad) => bad_one(random),
        0..=2 if !known.is_empty() => {
            let of_stop = random.pick(known);
            prefixes::related(random, &of_stop)
        }
        3 if count > 0 => {
            let of_list = random.pick(&list);
            prefixes::related(random, &of_list)
        }
        4 => prefixes::around_the_forbidden(random),
        _ => return list,
    };
    if count > 0 {
        list[random.below(count as u64) as usize] = other;
    }
    list
}

fn bad_one(random: &mut Random) -> Prefix {
    let base = prefixes::fresh(random);
    match random.below(3) {
        0 => NO_PREFIX,
        1 => reserved(random),
        _ => prefixes::with_bit_past_length(random, &base),
    }
}

#[cfg(test)]
mod tests {
    use super::*;
    use crate::prefix_list::PrefixList;

    #[test]
    fn those_apart_are_good_together() {
        let mut random = Random::new(41);
        for _ in 0..300 {
            let known = apart(&mut random, &[], 4);
            let more = apart(&mut random, &known, 4);
            let (known, more) = (PrefixList::of(&known), PrefixList::of(&more));
            for list in [known, more, PrefixList::of(&fresh(&mut random, 4))] {
                assert!(list.is_good() && !list.overlaps_itself());
            }
            assert!(!known.overlaps(&more));
        }
    }

    #[test]
    fn any_list_is_good_or_bad_or_overlaps() {
        let mut random = Random::new(42);
        let known = apart(&mut random, &[], 4);
        let lists: Vec<PrefixList> =
            (0..2_000).map(|_| PrefixList::of(&any(&mut random, &known, 10))).collect();
        let count =
            |is_so: &dyn Fn(&PrefixList) -> bool| lists.iter().filter(|&one| is_so(one)).count();
        assert!(count(&|list| !list.is_good()) > 100);
        assert!(count(&|list| list.is_good() && list.overlaps_itself()) > 20);
        assert!(count(&|list| list.overlaps(&PrefixList::of(&known))) > 100);
        for length in 0..=4 {
            assert!(count(&|list| list.count == length) > 100);
        }
    }
}
