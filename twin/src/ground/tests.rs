//! The search against `area-normal`'s table, which is written here as a second
//! way, over ranges of values that hold every kind of case.

use std::cmp::Ordering::*;

use super::range::{areas, every_angle, ANGLES, CENTRES};
use super::*;
use crate::area::{EAST_END, WEST_END};

/// `area-normal`, its table.
fn normal(area: &Area) -> Area {
    let longitude = if area.longitude == EAST_END { WEST_END } else { area.longitude };
    let area = Area { longitude, ..*area };
    match (area.shape, area.a.cmp(&area.b)) {
        (CIRCLE, _) | (ELLIPSE, Equal) => Area { shape: CIRCLE, b: 0, angle: 0, ..area },
        (_, Equal) => Area { angle: area.angle % 90, ..area },
        (_, Less) => Area { angle: area.angle % 180, ..area },
        (_, Greater) => Area { a: area.b, b: area.a, angle: (area.angle + 90) % 180, ..area },
    }
}

/// `area-order`.
fn place_in_order(area: &Area) -> [i128; 6] {
    let Area { shape, latitude, longitude, a, b, angle } = *area;
    [shape.into(), latitude, longitude, a.into(), b.into(), angle.into()]
}

/// The search and the table agree on each pair, and no area that is equal to
/// another comes before the other's normal form.
fn assert_agreement(ones: &[Area], others: &[Area]) {
    for one in ones {
        let first = normal(one);
        for other in others {
            let equal = one.equals(other);
            assert_eq!(equal, first == normal(other), "{one:?} {other:?}");
            let before = place_in_order(other) < place_in_order(&first);
            assert!(!(equal && before), "{one:?} {other:?}");
        }
    }
}

#[test]
fn search_and_table_agree_at_every_angle() {
    let here = &[(0, 0)];
    assert_agreement(&areas(here, 2, &every_angle()), &areas(here, 2, &ANGLES));
}

#[test]
fn search_and_table_agree_at_every_centre() {
    let some = areas(&CENTRES, 2, &ANGLES[..8]);
    assert_agreement(&some, &some);
}

#[test]
fn an_area_equals_its_normal_form() {
    for area in areas(&CENTRES, 3, &every_angle()) {
        let first = normal(&area);
        assert!(area.equals(&first) && first.equals(&area), "{area:?}");
        assert!(place_in_order(&first) <= place_in_order(&area), "{area:?}");
        assert_eq!(normal(&first), first);
    }
}

#[test]
fn what_one_change_leads_to() {
    let goal = Area { shape: ELLIPSE, latitude: 9, longitude: 9, a: 8, b: 7, angle: 12 };
    let oblong =
        Area { shape: RECTANGLE, latitude: 0, longitude: WEST_END, a: 3, b: 5, angle: 300 };
    let circle = Area { shape: CIRCLE, b: 0, ..oblong };
    let disc = Area { shape: ELLIPSE, b: 3, ..oblong };
    let exchanged = Area { a: 5, b: 3, ..oblong };
    for (area, expected) in [
        (oblong, vec![(120, oblong), (30, exchanged), (210, exchanged)]),
        (circle, vec![(12, Area { b: 7, ..circle }), (12, disc)]),
        (disc, vec![(120, disc), (30, disc), (210, disc), (12, Area { b: 7, ..circle })]),
    ] {
        let mut expected: Vec<Area> =
            expected.into_iter().map(|(angle, area)| Area { angle, ..area }).collect();
        expected.push(Area { longitude: EAST_END, ..area });
        assert_eq!(one_change_away(&area, &goal).collect::<Vec<_>>(), expected);
    }
}

#[test]
fn an_area_that_is_not_good_equals_none() {
    let circle = Area { shape: CIRCLE, latitude: 0, longitude: 0, a: 5, b: 0, angle: 0 };
    for bad in [
        Area { b: 65_536, ..circle },
        Area { angle: 360, ..circle },
        Area { shape: ELLIPSE, ..circle },
        Area { shape: 3, angle: u64::MAX, ..circle },
    ] {
        for other in [circle, bad] {
            assert!(!bad.equals(&other) && !other.equals(&bad), "{bad:?}");
        }
    }
}
