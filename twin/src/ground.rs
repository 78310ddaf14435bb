//! Equal areas (`area-equal`). The chains of changes are searched as the rules
//! define them; no normal form is used.

use crate::area::{Area, CIRCLE, ELLIPSE, RECTANGLE};

/// What a change makes of an area, if it is one for such an area. The second area
/// is the one that the search is to reach.
type Change = fn(&Area, &Area) -> Option<Area>;

/// `area-changes`. Back and forth are the same for all but the exchange.
///
/// Where a rule allows any b or any angle, only the goal's are tried. No chain is
/// lost: the areas of all other choices are joined to that one, by `change-circle`
/// or by `change-disc` to the circle and back, and they are open to the same
/// changes. So a chain through another choice can go through this one as well.
const CHANGES: [Change; 6] = [circle, half_turn, exchange, exchange_back, disc, ends];

impl Area {
    /// `area-equal`: a chain of changes joins the two, and every area on the way
    /// is good.
    pub fn equals(&self, goal: &Area) -> bool {
        // No change names the latitude: without this a full table is slow to search.
        if self.latitude != goal.latitude {
            return false;
        }
        let mut reached = Vec::new();
        let mut next = vec![*self];
        while let Some(area) = next.pop() {
            if !area.is_good() || reached.contains(&area) {
                continue;
            }
            if area == *goal {
                return true;
            }
            reached.push(area);
            next.extend(one_change_away(&area, goal));
        }
        false
    }
}

/// The areas that one change joins to a good one. Where b or the angle is free,
/// they have that of the goal.
pub fn one_change_away<'a>(area: &'a Area, goal: &'a Area) -> impl Iterator<Item = Area> + 'a {
    CHANGES.iter().filter_map(|change| change(area, goal))
}

/// `change-circle`.
fn circle(area: &Area, goal: &Area) -> Option<Area> {
    (area.shape == CIRCLE).then_some(Area { b: goal.b, angle: goal.angle, ..*area })
}

/// `change-half-turn`.
fn half_turn(area: &Area, _goal: &Area) -> Option<Area> {
    has_two_axes(area).then(|| area.turned(180))
}

/// `change-exchange`.
fn exchange(area: &Area, _goal: &Area) -> Option<Area> {
    has_two_axes(area).then(|| area.exchanged().turned(90))
}

/// `change-exchange` in the other direction: 90 degrees taken off, modulo 360.
fn exchange_back(area: &Area, _goal: &Area) -> Option<Area> {
    has_two_axes(area).then(|| area.exchanged().turned(270))
}

fn has_two_axes(area: &Area) -> bool {
    [RECTANGLE, ELLIPSE].contains(&area.shape)
}

/// `change-disc`.
fn disc(area: &Area, goal: &Area) -> Option<Area> {
    match area.shape {
        CIRCLE => Some(Area { shape: ELLIPSE, b: area.a, angle: goal.angle, ..*area }),
        ELLIPSE if area.a == area.b => {
            Some(Area { shape: CIRCLE, b: goal.b, angle: goal.angle, ..*area })
        }
        _ => None,
    }
}

/// `change-ends`.
fn ends(area: &Area, _goal: &Area) -> Option<Area> {
    area.at_the_other_end()
}

#[cfg(test)]
pub mod range;
#[cfg(test)]
mod tests;
