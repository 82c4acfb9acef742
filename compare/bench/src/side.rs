//! What the driver asks of both searches.

use std::fmt;

use judge::{Layout, Reason, Rect, Snapshot, verdict};

/// What a call is timed by: the original or the port. Every timed call is made through these.
pub trait Side {
    /// The blocked mover's baseline, true where it is kept off.
    fn prepare(&mut self);

    /// A search over both baselines that holds no evaluated set.
    fn begin(&mut self);

    fn step(&mut self, evaluations: u32);

    fn is_running(&self) -> bool;

    /// Makes ready for a timed prepare or begin.
    fn forget(&mut self);

    /// Puts what `held` says in place of what begin left.
    fn hold(&mut self, held: &Snapshot);

    /// Sets what a call may find in the lent areas beside the used entries. The original lends none.
    fn lend(&mut self, buffers: Buffers);

    /// Makes ready for a timed drag: the ground with a building at `from`.
    fn stand(&mut self, from: Rect, to: Rect);

    /// The ground with the building at `to` in its place. The original has no cover and no lift: it prepares anew.
    fn drag(&mut self, from: Rect, to: Rect);

    /// Judges a selection. The original judges none and counts no ground: the verdict is put together from its functions, and it walks over
    /// the ground.
    fn judge(&mut self, selection: &[u16]);

    /// Ranks every placement's footprint by its distance from an entrance between the case's ends, up to this radius.
    fn rank(&mut self, radius: u32);

    fn baseline(&self) -> Vec<bool>;

    /// What the selection last judged comes to.
    fn judged(&self) -> Judged;

    /// The whole part of each rank last given, none beyond the radius.
    fn ranks(&self) -> &[Option<u64>];

    fn outcome(&self) -> Outcome;

    fn visited(&self) -> Vec<Vec<usize>>;
}

/// What the lent areas hold, beside the used entries, when the timed call begins.
#[derive(Debug, Copy, Clone, Eq, PartialEq)]
pub enum Buffers {
    /// What the call before left. The driver does nothing.
    AsLeft,
    /// Zero: cleared by the driver, outside the timed part.
    Cleared,
    /// Rubbish: written by the driver, outside the timed part.
    Rubbish,
}

impl Buffers {
    pub fn words(self) -> &'static str {
        match self {
            Self::AsLeft => "not cleared first",
            Self::Cleared => "cleared first",
            Self::Rubbish => "not cleared first, rubbish in them",
        }
    }
}

/// What both must agree in after a step.
#[derive(Debug, Clone, Eq, PartialEq)]
pub struct Outcome {
    pub reason: Reason,
    pub evaluations: u32,
    pub layouts: Vec<Layout>,
}

impl Outcome {
    pub fn of(held: &Snapshot) -> Self {
        Self {
            reason: held.reason,
            evaluations: held.evaluations,
            layouts: held.layouts.clone(),
        }
    }
}

impl fmt::Display for Outcome {
    fn fmt(&self, f: &mut fmt::Formatter<'_>) -> fmt::Result {
        let (reason, evaluations) = (self.reason, self.evaluations);
        write!(
            f,
            "{reason:?} {evaluations}, {} layouts",
            self.layouts.len()
        )
    }
}

/// What both must agree in after judging.
#[derive(Debug, Clone, Copy, Eq, PartialEq)]
pub struct Judged {
    /// The verdict's number, from 1 on.
    pub verdict: u32,
    pub ground: u32,
}

impl fmt::Display for Judged {
    fn fmt(&self, f: &mut fmt::Formatter<'_>) -> fmt::Result {
        let name = verdict::NAMES[self.verdict as usize - 1];
        write!(f, "{name}, ground {}", self.ground)
    }
}
