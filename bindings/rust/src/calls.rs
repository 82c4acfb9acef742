//! The calls over slices: the one module with unsafe code.
//!
//! # Why each call is sound
//!
//! A function of [`crate::raw`] asks that pointers be non-null and aligned, that each area be valid for its length, and that no
//! area it writes overlap another one. Here every pointer and length come from one slice or vector, which is never null and
//! is aligned even when empty; the areas that are written come from `&mut` borrows, so they are distinct from each other and
//! from everything that is read. A single number that is written is a local of its own. Numbers of any value are elements of
//! these types, and no function keeps a pointer after it returns. So nothing is asked of the callers of this module.

#![allow(unsafe_code)]

use std::ops::Range;

use crate::{
    answers::{Judgement, Verdict},
    areas::{Store, Work, RECORD},
    raw,
    refusal::Refusal,
    values::{Bounds, Limits, Plan, Rect, Site},
};

/// The inputs of the calls that take placements: a plan, its placements laid flat, its movers' baselines, and its steps laid flat,
/// which reading does not take.
pub(crate) struct Asked<'a> {
    pub(crate) plan: &'a Plan,
    pub(crate) numbers: &'a [u32],
    pub(crate) edges: &'a [i32],
    pub(crate) block_base: &'a [u8],
    pub(crate) allow_base: &'a [u8],
    pub(crate) steps: &'a [i32],
}

impl Asked<'_> {
    /// Whether there is an allowed mover, and its bounds.
    fn allow(&self) -> (u32, Bounds) {
        match self.plan.allow {
            Some(allow) => (1, allow),
            None => (0, Bounds::default()),
        }
    }
}

fn answer(number: u32, index: Option<u32>) -> Result<(), Refusal> {
    match number {
        0 => Ok(()),
        _ => Err(Refusal::numbered(number, index)),
    }
}

pub(crate) fn prepare(
    plan: &Plan,
    obstacles: &[i32],
    mover: Bounds,
    steps: &[i32],
    baseline: &mut [u8],
    work: &mut Work,
) -> Result<(), Refusal> {
    // SAFETY: see the head of this module.
    let number = unsafe {
        raw::hitrovzen_prepare(
            plan.map.across,
            plan.map.down,
            plan.map.cells.as_ptr(),
            plan.map.cells.len(),
            obstacles.as_ptr(),
            obstacles.len(),
            plan.window.left,
            plan.window.top,
            plan.window.right,
            plan.window.bottom,
            plan.start.x,
            plan.start.y,
            plan.end.x,
            plan.end.y,
            mover.left,
            mover.top,
            mover.right,
            mover.bottom,
            steps.as_ptr(),
            steps.len(),
            baseline.as_mut_ptr(),
            baseline.len(),
            work.counts.as_mut_ptr(),
            work.counts.len(),
            work.map.as_mut_ptr(),
            work.map.len(),
            work.queue.as_mut_ptr(),
            work.queue.len(),
            work.predecessors.as_mut_ptr(),
            work.predecessors.len(),
            work.route.as_mut_ptr(),
            work.route.len(),
        )
    };
    answer(number, None)
}

/// A call that alters a mover's baseline by a rectangle.
#[derive(Clone, Copy)]
pub(crate) enum Change {
    Cover,
    Lift,
}

pub(crate) fn change(
    change: Change,
    baseline: &mut [u8],
    window: Rect,
    mover: Bounds,
    building: Rect,
) -> Result<(), Refusal> {
    let call = match change {
        Change::Cover => raw::hitrovzen_cover,
        Change::Lift => raw::hitrovzen_lift,
    };
    // SAFETY: see the head of this module.
    let number = unsafe {
        call(
            window.left,
            window.top,
            window.right,
            window.bottom,
            mover.left,
            mover.top,
            mover.right,
            mover.bottom,
            building.left,
            building.top,
            building.right,
            building.bottom,
            baseline.as_mut_ptr(),
            baseline.len(),
        )
    };
    answer(number, None)
}

pub(crate) fn begin(
    asked: &Asked<'_>,
    limits: Limits,
    record: &mut [u32; RECORD],
    work: &mut Work,
    store: &mut Store,
) -> Result<(), Refusal> {
    let plan = asked.plan;
    let (allow_given, allow) = asked.allow();
    let mut index = 0;
    // SAFETY: see the head of this module.
    let number = unsafe {
        raw::hitrovzen_begin(
            plan.window.left,
            plan.window.top,
            plan.window.right,
            plan.window.bottom,
            plan.start.x,
            plan.start.y,
            plan.end.x,
            plan.end.y,
            plan.block.left,
            plan.block.top,
            plan.block.right,
            plan.block.bottom,
            allow_given,
            allow.left,
            allow.top,
            allow.right,
            allow.bottom,
            limits.states,
            limits.results,
            plan.groups.as_ptr(),
            plan.groups.len(),
            asked.numbers.as_ptr(),
            asked.numbers.len(),
            asked.edges.as_ptr(),
            asked.edges.len(),
            asked.block_base.as_ptr(),
            asked.block_base.len(),
            asked.allow_base.as_ptr(),
            asked.allow_base.len(),
            asked.steps.as_ptr(),
            asked.steps.len(),
            record.as_mut_ptr(),
            record.len(),
            work.counts.as_mut_ptr(),
            work.counts.len(),
            work.map.as_mut_ptr(),
            work.map.len(),
            work.queue.as_mut_ptr(),
            work.queue.len(),
            work.predecessors.as_mut_ptr(),
            work.predecessors.len(),
            work.route.as_mut_ptr(),
            work.route.len(),
            store.lists.as_mut_ptr(),
            store.lists.len(),
            store.visited.as_mut_ptr(),
            store.visited.len(),
            store.layouts.as_mut_ptr(),
            store.layouts.len(),
            store.points.as_mut_ptr(),
            store.points.len(),
            &mut index,
        )
    };
    answer(number, Some(index))
}

pub(crate) fn step(
    asked: &Asked<'_>,
    limits: Limits,
    record: &mut [u32; RECORD],
    n: u32,
    work: &mut Work,
    store: &mut Store,
) -> Result<(), Refusal> {
    let plan = asked.plan;
    let (allow_given, allow) = asked.allow();
    let mut index = 0;
    // SAFETY: see the head of this module.
    let number = unsafe {
        raw::hitrovzen_step(
            plan.window.left,
            plan.window.top,
            plan.window.right,
            plan.window.bottom,
            plan.start.x,
            plan.start.y,
            plan.end.x,
            plan.end.y,
            plan.block.left,
            plan.block.top,
            plan.block.right,
            plan.block.bottom,
            allow_given,
            allow.left,
            allow.top,
            allow.right,
            allow.bottom,
            limits.states,
            limits.results,
            plan.groups.as_ptr(),
            plan.groups.len(),
            asked.numbers.as_ptr(),
            asked.numbers.len(),
            asked.edges.as_ptr(),
            asked.edges.len(),
            asked.block_base.as_ptr(),
            asked.block_base.len(),
            asked.allow_base.as_ptr(),
            asked.allow_base.len(),
            asked.steps.as_ptr(),
            asked.steps.len(),
            record.as_mut_ptr(),
            record.len(),
            n,
            work.counts.as_mut_ptr(),
            work.counts.len(),
            work.map.as_mut_ptr(),
            work.map.len(),
            work.queue.as_mut_ptr(),
            work.queue.len(),
            work.predecessors.as_mut_ptr(),
            work.predecessors.len(),
            work.route.as_mut_ptr(),
            work.route.len(),
            store.lists.as_mut_ptr(),
            store.lists.len(),
            store.visited.as_mut_ptr(),
            store.visited.len(),
            store.layouts.as_mut_ptr(),
            store.layouts.len(),
            store.points.as_mut_ptr(),
            store.points.len(),
            &mut index,
        )
    };
    answer(number, Some(index))
}

/// The part of the points area that holds the route past layout `k`.
pub(crate) fn read(
    asked: &Asked<'_>,
    limits: Limits,
    record: &[u32; RECORD],
    k: u32,
    store: &Store,
) -> Result<Range<usize>, Refusal> {
    let plan = asked.plan;
    let (allow_given, allow) = asked.allow();
    let mut index = 0;
    let mut first = 0;
    let mut count = 0;
    // SAFETY: see the head of this module.
    let number = unsafe {
        raw::hitrovzen_read(
            plan.window.left,
            plan.window.top,
            plan.window.right,
            plan.window.bottom,
            plan.start.x,
            plan.start.y,
            plan.end.x,
            plan.end.y,
            plan.block.left,
            plan.block.top,
            plan.block.right,
            plan.block.bottom,
            allow_given,
            allow.left,
            allow.top,
            allow.right,
            allow.bottom,
            limits.states,
            limits.results,
            plan.groups.as_ptr(),
            plan.groups.len(),
            asked.numbers.as_ptr(),
            asked.numbers.len(),
            asked.edges.as_ptr(),
            asked.edges.len(),
            asked.block_base.as_ptr(),
            asked.block_base.len(),
            asked.allow_base.as_ptr(),
            asked.allow_base.len(),
            record.as_ptr(),
            record.len(),
            k,
            store.lists.as_ptr(),
            store.lists.len(),
            store.visited.as_ptr(),
            store.visited.len(),
            store.layouts.as_ptr(),
            store.layouts.len(),
            store.points.as_ptr(),
            store.points.len(),
            &mut index,
            &mut first,
            &mut count,
        )
    };
    answer(number, Some(index))?;
    // at most 1,000,000 points are kept
    let from = (first as usize).saturating_mul(2);
    Ok(from..from.saturating_add((count as usize).saturating_mul(2)))
}

pub(crate) fn judge(
    asked: &Asked<'_>,
    selection: &[u16],
    work: &mut Work,
) -> Result<Judgement, Refusal> {
    let plan = asked.plan;
    let (allow_given, allow) = asked.allow();
    let mut index = 0;
    let mut verdict = 0;
    let mut ground = 0;
    // SAFETY: see the head of this module.
    let number = unsafe {
        raw::hitrovzen_judge(
            plan.window.left,
            plan.window.top,
            plan.window.right,
            plan.window.bottom,
            plan.start.x,
            plan.start.y,
            plan.end.x,
            plan.end.y,
            plan.block.left,
            plan.block.top,
            plan.block.right,
            plan.block.bottom,
            allow_given,
            allow.left,
            allow.top,
            allow.right,
            allow.bottom,
            plan.groups.as_ptr(),
            plan.groups.len(),
            asked.numbers.as_ptr(),
            asked.numbers.len(),
            asked.edges.as_ptr(),
            asked.edges.len(),
            asked.block_base.as_ptr(),
            asked.block_base.len(),
            asked.allow_base.as_ptr(),
            asked.allow_base.len(),
            asked.steps.as_ptr(),
            asked.steps.len(),
            selection.as_ptr(),
            selection.len(),
            work.counts.as_mut_ptr(),
            work.counts.len(),
            work.map.as_mut_ptr(),
            work.map.len(),
            work.queue.as_mut_ptr(),
            work.queue.len(),
            work.predecessors.as_mut_ptr(),
            work.predecessors.len(),
            work.route.as_mut_ptr(),
            work.route.len(),
            &mut index,
            &mut verdict,
            &mut ground,
        )
    };
    answer(number, Some(index))?;
    let verdict = Verdict::numbered(verdict).ok_or(Refusal::UNNAMED)?;
    Ok(Judgement { verdict, ground })
}

/// Quotient, remainder and divisor; all 0 where there is no rank.
pub(crate) fn rank(
    across: u32,
    down: u32,
    site: Site,
    footprint: Rect,
) -> Result<[u64; 3], Refusal> {
    let mut quotient = 0;
    let mut remainder = 0;
    let mut divisor = 0;
    // SAFETY: see the head of this module.
    let number = unsafe {
        raw::hitrovzen_rank(
            across,
            down,
            site.first.x,
            site.first.y,
            site.second.x,
            site.second.y,
            site.radius,
            footprint.left,
            footprint.top,
            footprint.right,
            footprint.bottom,
            &mut quotient,
            &mut remainder,
            &mut divisor,
        )
    };
    answer(number, None)?;
    Ok([quotient, remainder, divisor])
}

/// Whether the first of two ranks is the closer one: quotient, remainder and divisor of each.
pub(crate) fn closer(a: [u64; 3], b: [u64; 3]) -> bool {
    // SAFETY: there is no pointer, and numbers of any value are answered.
    let is = unsafe { raw::hitrovzen_closer(a[0], a[1], a[2], b[0], b[1], b[2]) };
    is != 0
}
