//! What the calls give.

use std::fmt;

/// Why a search stands where it stands.
#[derive(Clone, Copy, Debug, PartialEq, Eq, Hash)]
pub enum Reason {
    /// It can be stepped on.
    Running = 1,
    /// Every set was looked at: the layouts are exactly the walls.
    Exhausted = 2,
    /// The state limit was met. Whether a wall is left is not known.
    StateLimit = 3,
    /// The result limit was met, or a route did not fit among the 1,000,000 points that are kept.
    ResultLimit = 4,
}

impl Reason {
    pub(crate) fn numbered(number: u32) -> Option<Self> {
        [
            Self::Running,
            Self::Exhausted,
            Self::StateLimit,
            Self::ResultLimit,
        ]
        .into_iter()
        .find(|reason| *reason as u32 == number)
    }
}

impl fmt::Display for Reason {
    fn fmt(&self, f: &mut fmt::Formatter<'_>) -> fmt::Result {
        fmt::Debug::fmt(self, f)
    }
}

/// What a selection of placements comes to: the first of these that holds.
#[derive(Clone, Copy, Debug, PartialEq, Eq, Hash)]
pub enum Verdict {
    /// A group has more members than slots.
    Slots = 1,
    /// Two footprints overlap.
    Overlap = 2,
    /// An end is closed to the blocked mover.
    EndCovered = 3,
    /// The blocked mover has a route.
    Open = 4,
    /// With some member lifted, the blocked mover still has no route.
    Spare = 5,
    /// The allowed mover lacks an open end or a route.
    Shut = 6,
    /// It is a wall.
    Wall = 7,
}

impl Verdict {
    pub(crate) fn numbered(number: u32) -> Option<Self> {
        [
            Self::Slots,
            Self::Overlap,
            Self::EndCovered,
            Self::Open,
            Self::Spare,
            Self::Shut,
            Self::Wall,
        ]
        .into_iter()
        .find(|verdict| *verdict as u32 == number)
    }
}

impl fmt::Display for Verdict {
    fn fmt(&self, f: &mut fmt::Formatter<'_>) -> fmt::Result {
        fmt::Debug::fmt(self, f)
    }
}

/// The answer of [`Planner::judge`](crate::Planner::judge).
#[derive(Clone, Copy, Debug, PartialEq, Eq, Hash)]
pub struct Judgement {
    /// What the selection comes to.
    pub verdict: Verdict,
    /// The ground left, counted with every verdict: to how many centres the blocked mover has a route from the start past the
    /// selection, the start among them. 0 where the start is closed to the blocked mover, by its baseline or by a member.
    pub ground: u32,
}
