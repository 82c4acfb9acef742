//! Cover and lift, centre by centre: one more, or one less, at exactly the centres that the rectangle keeps the mover off, and the
//! refusals 2, 4, 6, 15 and 20 in this order. A rectangle keeps a mover off a centre where the pixels that the mover takes up there share
//! one with the rectangle. Nothing is clipped, and nothing is shared with `rules`.

use crate::values::Building;

#[derive(Debug, Clone, Copy, PartialEq, Eq)]
pub enum Change {
    Cover,
    Lift,
}

fn need(holds: bool, number: u32) -> Result<(), u32> {
    if holds { Ok(()) } else { Err(number) }
}

fn looked_at(building: &Building, length: usize) -> Result<(), u32> {
    let [left, top, right, bottom] = building.window.map(i64::from);
    need(left < right && top < bottom, 2)?;
    need(left >= 0 && top >= 0 && right <= 8_192 && bottom <= 8_192, 2)?;
    let centres = (right - left) * (bottom - top);
    need(centres <= 1_048_576, 2)?;
    need(building.mover.iter().all(|&bound| bound <= 256), 4)?;
    need(length as i64 >= centres, 6)?;
    let [left, top, right, bottom] = building.rect;
    need(left < right && top < bottom, 15)
}

/// The centres of an accepted window that the rectangle keeps the mover off, by number, row after row.
pub fn kept_off(building: &Building) -> Vec<usize> {
    let [window_left, window_top, window_right, window_bottom] = building.window.map(i64::from);
    let [mover_left, mover_top, mover_right, mover_bottom] = building.mover.map(i64::from);
    let [left, top, right, bottom] = building.rect.map(i64::from);
    let mut centres = Vec::new();
    for y in window_top..window_bottom {
        for x in window_left..window_right {
            let across = x - mover_left < right && left <= x + mover_right;
            let down = y - mover_top < bottom && top <= y + mover_bottom;
            if across && down {
                centres.push(((y - window_top) * (window_right - window_left) + x - window_left) as usize);
            }
        }
    }
    centres
}

/// What a baseline holds after the call, or the refusal.
pub fn after(change: Change, building: &Building, baseline: &[u8]) -> Result<Vec<u8>, u32> {
    looked_at(building, baseline.len())?;
    let mut counts = baseline.to_vec();
    for centre in kept_off(building) {
        let changed = match change {
            Change::Cover => counts[centre].checked_add(1),
            Change::Lift => counts[centre].checked_sub(1),
        };
        counts[centre] = changed.ok_or(20_u32)?;
    }
    Ok(counts)
}
