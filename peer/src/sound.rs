//! The rules of a sound block, one function for each question of a file (4 to 8).
//!
//! Each function may assume the ones before it in the paper's order.

use crate::value::{Block, Label, Limits, Third, MAX_BLOCKS, MAX_POSITION};
use std::collections::BTreeSet;

/// What the layout of a file bounds already (question 3).
pub fn within_limits(block: &Block, limits: Limits) -> bool {
    usize::from(block.number) < MAX_BLOCKS
        && block.darts.len() <= limits.darts
        && !block.darts.contains_key(&0)
        && block.darts.values().all(|dart| match dart.third {
            Third::Critical { other, label } => {
                usize::from(other) < MAX_BLOCKS
                    && usize::from(label.maker) < MAX_BLOCKS
                    && label.position <= MAX_POSITION
            }
            _ => true,
        })
}

/// Question 4: coordinates finite.
pub fn coordinates_finite(block: &Block) -> bool {
    block.darts.values().all(|dart| dart.point.is_finite())
}

/// Question 5: next is a permutation; opposite is its own inverse and fixes no dart.
pub fn next_and_opposite_right(block: &Block) -> bool {
    let nexts: BTreeSet<u32> = block.darts.values().map(|dart| dart.next).collect();
    nexts.len() == block.darts.len()
        && nexts.iter().all(|serial| block.darts.contains_key(serial))
        && block.darts.iter().all(|(serial, dart)| {
            dart.opposite != *serial && block.darts.get(&dart.opposite).is_some_and(|back| back.opposite == *serial)
        })
}

/// Question 6: sewing is its own inverse, fixes no dart and turns faces round; each face is of one kind.
pub fn thirds_right(block: &Block) -> bool {
    block.darts.iter().all(|(serial, dart)| {
        let next = &block.darts[&dart.next];
        match (dart.third, next.third) {
            (Third::Free, Third::Free) => true,
            (Third::Critical { other, .. }, Third::Critical { other: also, .. }) => other == also,
            (Third::Sewn(partner), Third::Sewn(of_next)) => {
                // β3(next d) = previous(β3 d), said without previous.
                partner != *serial
                    && block.darts.get(&partner).is_some_and(|p| p.third == Third::Sewn(*serial))
                    && block.darts.get(&of_next).is_some_and(|p| p.next == partner)
            }
            _ => false,
        }
    })
}

/// Question 7: labels differ, no face is critical with its own block, own-made labels lie below the counter.
pub fn labels_right(block: &Block) -> bool {
    let mut seen: BTreeSet<Label> = BTreeSet::new();
    block.darts.values().all(|dart| match dart.third {
        Third::Critical { other, label } => {
            seen.insert(label) && other != block.number && (label.maker != block.number || label.number < block.counter)
        }
        _ => true,
    })
}

/// The least counter that a block's labels allow, one more than the greatest number of an own-made one; none where that is 2^32.
pub fn least_counter(block: &Block) -> Option<u32> {
    let labels = block.darts.values().filter_map(|dart| dart.label());
    let greatest = labels.filter(|label| label.maker == block.number).map(|label| label.number).max();
    greatest.map_or(Some(0), |number| number.checked_add(1))
}

/// Question 8: d and next(opposite d) have one point, and so do d and next(β3 d).
pub fn points_agree(block: &Block) -> bool {
    let point_after = |serial: u32| block.darts[&block.darts[&serial].next].point;
    block.darts.values().all(|dart| {
        dart.point == point_after(dart.opposite)
            && match dart.third {
                Third::Sewn(partner) => dart.point == point_after(partner),
                _ => true,
            }
    })
}

/// A sound block: all of the above, in the paper's order.
pub fn is_sound(block: &Block, limits: Limits) -> bool {
    within_limits(block, limits)
        && coordinates_finite(block)
        && next_and_opposite_right(block)
        && thirds_right(block)
        && labels_right(block)
        && points_agree(block)
}
