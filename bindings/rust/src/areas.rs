//! The areas that the calls are lent, and how long they must be.
//!
//! Where a window or a limit is one that the calls refuse, its areas are empty: the number of that refusal comes before the one for
//! an area that is too short. So no length overflows, and none is larger than an accepted call needs.

use crate::values::{Limits, Plan, Rect};

const MOST_CENTRES: u64 = 1_048_576;
const MOST_POINTS: usize = 1_000_000;
const MOST_STATES: u32 = 100_000;
const MOST_RESULTS: u32 = 32;

/// A search holds at most so many lists, and a set so many members.
const LISTS: usize = 6;
/// A row of visited or layouts: a length and six members.
pub(crate) const ROW: usize = 7;
/// The numbers of a search record.
pub(crate) const RECORD: usize = 50;

/// Width and height of a window that some map holds, otherwise zero.
fn size(window: Rect) -> (usize, usize) {
    let side = |from: i32, to: i32| u64::try_from(i64::from(to) - i64::from(from)).unwrap_or(0);
    let width = side(window.left, window.right);
    let height = side(window.top, window.bottom);
    let taken = window.left >= 0 && window.top >= 0 && width > 0 && height > 0;
    // both sides are below 2³², so the product fits
    if !taken || width * height > MOST_CENTRES {
        return (0, 0);
    }
    (width as usize, height as usize)
}

pub(crate) fn centres(window: Rect) -> usize {
    let (width, height) = size(window);
    width * height
}

/// The working areas: zero after each accepted call.
#[derive(Debug)]
pub(crate) struct Work {
    pub(crate) counts: Vec<i32>,
    pub(crate) map: Vec<u8>,
    pub(crate) queue: Vec<u32>,
    pub(crate) predecessors: Vec<u32>,
    pub(crate) route: Vec<u32>,
}

impl Work {
    pub(crate) fn new(window: Rect) -> Self {
        let (width, height) = size(window);
        let c = width * height;
        Self {
            counts: vec![0; (width + 1) * (height + 1)],
            map: vec![0; c],
            queue: vec![0; c],
            predecessors: vec![0; c],
            route: vec![0; c],
        }
    }
}

/// What a search holds beside its record.
#[derive(Clone, Debug)]
pub(crate) struct Store {
    pub(crate) lists: Vec<u16>,
    pub(crate) visited: Vec<u16>,
    pub(crate) layouts: Vec<u16>,
    pub(crate) points: Vec<u32>,
}

impl Store {
    pub(crate) fn new(plan: &Plan, limits: Limits) -> Self {
        let within = |limit: u32, most: u32| if limit <= most { limit as usize } else { 0 };
        let states = within(limits.states, MOST_STATES);
        let results = within(limits.results, MOST_RESULTS);
        let points = match plan.allow {
            Some(_) => MOST_POINTS.min(results * centres(plan.window)),
            None => 0,
        };
        Self {
            // an entry is smaller than a placement, of which a row is already held
            lists: vec![0; LISTS * plan.placements.len()],
            visited: vec![0; ROW * states],
            layouts: vec![0; ROW * results],
            points: vec![0; 2 * points],
        }
    }
}
