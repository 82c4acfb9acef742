//! The verdict on a selection, put together from the original's own functions: it judges none itself.

use crate::case::{Case, Mover};
use crate::walls::search::{WallSearch, probe};

/// In the order of docs/RULES.md, 7.7.
pub const NAMES: [&str; 7] = [
    "Slots",
    "Overlap",
    "EndCovered",
    "Open",
    "Spare",
    "Shut",
    "Wall",
];

/// The number of the first verdict that applies to a set of placements, from 1 on: its place in `NAMES`.
/// `block` is what baseline and set close to the blocked mover.
pub fn number(case: &Case, original: &WallSearch, set: &[u32], block: &[bool]) -> u32 {
    let used = |group: usize| {
        let same = |&&member: &&u32| case.placements[member as usize].group as usize == group;
        set.iter().filter(same).count()
    };
    if (0..case.groups.len()).any(|group| used(group) > case.groups[group] as usize) {
        return 1;
    }
    let overlaps =
        |(k, &a): (usize, &u32)| set[..k].iter().any(|&b| probe::overlap(original, a, b));
    if set.iter().enumerate().any(overlaps) {
        return 2;
    }
    match probe::ends_joined(case, block) {
        Ok(()) => return 4,
        Err(7 | 8) => return 3,
        Err(_) => {}
    }
    if !probe::is_minimal(original, set) {
        return 5;
    }
    if case.allow.is_some() && probe::route_past(original, Mover::Allow, set).is_none() {
        return 6;
    }
    7
}
