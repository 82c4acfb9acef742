//! Which calls are accepted: the checks of docs/RULES.md, 8, by number, as far as they look at inputs
//! and record.
//!
//! The originals make other checks (`validate_query`, `WallSearch::new`), so these are of our own.
//! Left out: 6, which looks at areas that the Rust does not have; 7 to 9, which `run` takes from the
//! original `prepare_mover` and `route`; cover and lift, which the Rust does not have.

use crate::case::{Bounds, Case, Reason, Rect, Snapshot};

pub const MAX_CELLS: u32 = 1_024;
pub const MAX_CENTRES: i64 = 1_048_576;
pub const MAX_BOUND: u32 = 256;
pub const MAX_OBSTACLES: usize = 4_096;
pub const MAX_STATES: u32 = 100_000;
pub const MAX_RESULTS: u32 = 32;
pub const MAX_PLACEMENTS: usize = 6_144;
pub const MAX_MEMBERS: usize = 6;
pub const MAX_POINTS: usize = 1_000_000;

type Accepted = Result<(), u32>;

fn unless(number: u32, holds: bool) -> Accepted {
    if holds { Ok(()) } else { Err(number) }
}

/// Prepare's checks 1 to 5.
pub fn prepare(case: &Case, bounds: Bounds) -> Accepted {
    let (width, height) = case.map;
    let axis = 1..=MAX_CELLS;
    unless(1, axis.contains(&width) && axis.contains(&height))?;
    unless(
        1,
        case.cells.len() as u64 == u64::from(width) * u64::from(height),
    )?;
    unless(1, case.cells.iter().all(|&cell| cell <= 1))?;
    window(case.window, i64::from(width) * 8, i64::from(height) * 8)?;
    ends(case)?;
    unless(4, bounds_fit(bounds))?;
    unless(5, case.obstacles.len() <= MAX_OBSTACLES)?;
    unless(5, case.obstacles.iter().all(|rect| !rect.is_empty()))
}

/// Begin's checks that come before 7 to 9: 10, 11, 12, 2, 3, 4.
pub fn begin_before_routes(case: &Case) -> Accepted {
    groups(case)?;
    unless(11, (1..=MAX_STATES).contains(&case.states))?;
    unless(12, (1..=MAX_RESULTS).contains(&case.results))?;
    window(case.window, 8_192, 8_192)?;
    ends(case)?;
    unless(
        4,
        bounds_fit(case.block) && case.allow.is_none_or(bounds_fit),
    )
}

/// Begin's checks that come after 7 to 9: 14 and 15.
pub fn begin_after_routes(case: &Case) -> Accepted {
    unless(14, case.placements.len() <= MAX_PLACEMENTS)?;
    unless(
        15,
        case.placements.iter().all(|place| {
            place.spec <= 5
                && (place.group as usize) < case.groups.len()
                && !place.footprint.is_empty()
                && !place.collision.is_empty()
                && case.window.contains(place.footprint)
        }),
    )
}

fn groups(case: &Case) -> Accepted {
    unless(10, case.groups.len() <= MAX_MEMBERS)?;
    unless(10, case.groups.iter().all(|count| (1..=6).contains(count)))?;
    unless(10, case.groups.iter().sum::<u32>() <= 6)
}

fn window(window: Rect, map_width: i64, map_height: i64) -> Accepted {
    unless(2, !window.is_empty() && window.left >= 0 && window.top >= 0)?;
    unless(
        2,
        i64::from(window.right) <= map_width && i64::from(window.bottom) <= map_height,
    )?;
    unless(2, window.width() * window.height() <= MAX_CENTRES)
}

fn ends(case: &Case) -> Accepted {
    let inside = |(x, y): (u32, u32)| {
        (i64::from(case.window.left)..i64::from(case.window.right)).contains(&i64::from(x))
            && (i64::from(case.window.top)..i64::from(case.window.bottom)).contains(&i64::from(y))
    };
    unless(3, inside(case.start) && inside(case.end))
}

fn bounds_fit(bounds: Bounds) -> bool {
    bounds.left <= MAX_BOUND
        && bounds.top <= MAX_BOUND
        && bounds.right <= MAX_BOUND
        && bounds.bottom <= MAX_BOUND
}

/// Check 16: whether step and reading take this record and its areas.
pub fn record(case: &Case, held: &Snapshot) -> Accepted {
    let running = held.reason == Reason::Running;
    let places = case.placements.len();
    unless(16, held.placements as usize == places)?;
    unless(16, held.evaluations as usize == held.visited.len())?;
    unless(16, held.evaluations <= case.states)?;
    let listed = held.layouts.len() as u64 + u64::from(running);
    unless(16, listed <= u64::from(case.results))?;
    let rows = held.layouts.iter().map(|layout| &layout.members);
    unless(
        16,
        rows.chain(&held.visited).all(|row| row_fits(row, places)),
    )?;
    let points = held.layouts.iter().map(|layout| layout.route.len());
    let longest = if case.allow.is_some() {
        case.centres()
    } else {
        0
    };
    unless(16, points.clone().all(|length| length <= longest))?;
    unless(16, points.sum::<usize>() <= MAX_POINTS)?;
    lists(case, held)
}

fn row_fits(row: &[u32], places: usize) -> bool {
    row.len() <= MAX_MEMBERS
        && row.windows(2).all(|pair| pair[0] < pair[1])
        && row.iter().all(|&member| (member as usize) < places)
}

fn lists(case: &Case, held: &Snapshot) -> Accepted {
    unless(16, held.lists.len() <= MAX_MEMBERS)?;
    let mut set: Vec<u32> = Vec::new();
    for (level, list) in held.lists.iter().enumerate() {
        unless(16, list.next as usize <= list.entries.len())?;
        unless(16, list.entries.len() <= case.placements.len())?;
        unless(
            16,
            list.entries
                .iter()
                .all(|&entry| may_join(case, &set, entry)),
        )?;
        let stood_on = level + 1 < held.lists.len() || held.pending.is_some();
        if stood_on {
            unless(16, list.next > 0)?;
            set.push(list.entries[list.next as usize - 1]);
            set.sort_unstable();
        }
    }
    unless(
        16,
        held.pending.as_ref().is_none_or(|pending| *pending == set),
    )
}

/// Whether a placement may join a set: no member, a free slot, no member's footprint overlapped.
pub fn may_join(case: &Case, set: &[u32], entry: u32) -> bool {
    let Some(place) = case.placements.get(entry as usize) else {
        return false;
    };
    let members = || set.iter().map(|&member| &case.placements[member as usize]);
    let used = members()
        .filter(|member| member.group == place.group)
        .count();
    !set.contains(&entry)
        && used < case.groups[place.group as usize] as usize
        && members().all(|member| !member.footprint.intersects(place.footprint))
}
