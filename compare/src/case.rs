//! What a search is given, and what it shows after a call. Plain numbers, in the rules' order.

/// Left, top, right, bottom; right and bottom are exclusive.
#[derive(Debug, Copy, Clone, Eq, PartialEq, Hash)]
pub struct Rect {
    pub left: i32,
    pub top: i32,
    pub right: i32,
    pub bottom: i32,
}

impl Rect {
    pub const fn new(left: i32, top: i32, right: i32, bottom: i32) -> Self {
        Self {
            left,
            top,
            right,
            bottom,
        }
    }

    pub const fn is_empty(self) -> bool {
        self.left >= self.right || self.top >= self.bottom
    }

    pub fn width(self) -> i64 {
        i64::from(self.right) - i64::from(self.left)
    }

    pub fn height(self) -> i64 {
        i64::from(self.bottom) - i64::from(self.top)
    }

    pub const fn contains(self, inner: Self) -> bool {
        self.left <= inner.left
            && self.top <= inner.top
            && inner.right <= self.right
            && inner.bottom <= self.bottom
    }

    pub const fn intersects(self, other: Self) -> bool {
        self.left < other.right
            && other.left < self.right
            && self.top < other.bottom
            && other.top < self.bottom
    }
}

/// How far a mover reaches from its centre: left, top, right, bottom.
#[derive(Debug, Copy, Clone, Eq, PartialEq, Hash)]
pub struct Bounds {
    pub left: u32,
    pub top: u32,
    pub right: u32,
    pub bottom: u32,
}

impl Bounds {
    pub const fn new(left: u32, top: u32, right: u32, bottom: u32) -> Self {
        Self {
            left,
            top,
            right,
            bottom,
        }
    }
}

/// One placement: what it carries along, its footprint and its collision rectangle.
#[derive(Debug, Copy, Clone, Eq, PartialEq, Hash)]
pub struct Placement {
    pub spec: u32,
    pub group: u32,
    pub tile: (u32, u32),
    pub footprint: Rect,
    pub collision: Rect,
}

impl Placement {
    /// A placement of spec 0, group 0 and tile 0 0 whose two rectangles are equal.
    pub const fn plain(rect: Rect) -> Self {
        Self {
            spec: 0,
            group: 0,
            tile: (0, 0),
            footprint: rect,
            collision: rect,
        }
    }
}

/// Which of the two movers a baseline belongs to.
#[derive(Debug, Copy, Clone, Eq, PartialEq, Hash)]
pub enum Mover {
    Block,
    Allow,
}

/// The inputs of prepare and begin.
#[derive(Debug, Clone, Eq, PartialEq)]
pub struct Case {
    pub map: (u32, u32),
    /// One byte a walk cell, row by row: 1 walkable, 0 not.
    pub cells: Vec<u8>,
    pub obstacles: Vec<Rect>,
    pub window: Rect,
    pub start: (u32, u32),
    pub end: (u32, u32),
    pub block: Bounds,
    pub allow: Option<Bounds>,
    pub states: u32,
    pub results: u32,
    /// Slot counts, one a group.
    pub groups: Vec<u32>,
    pub placements: Vec<Placement>,
}

impl Case {
    pub fn bounds(&self, mover: Mover) -> Option<Bounds> {
        match mover {
            Mover::Block => Some(self.block),
            Mover::Allow => self.allow,
        }
    }

    /// The number of centres of an accepted window.
    pub fn centres(&self) -> usize {
        usize::try_from(self.window.width() * self.window.height()).expect("accepted window")
    }
}

/// Why a search stopped, with the numbers of docs/RULES.md, 6.7.
#[derive(Debug, Copy, Clone, Eq, PartialEq, Hash)]
pub enum Reason {
    Running = 1,
    Exhausted = 2,
    StateLimit = 3,
    ResultLimit = 4,
}

/// A listed set and the allowed mover's route past it, in map pixels.
#[derive(Debug, Clone, Eq, PartialEq, Hash)]
pub struct Layout {
    pub members: Vec<u32>,
    pub route: Vec<(u32, u32)>,
}

/// A set's extensions and how many of them were taken.
#[derive(Debug, Clone, Eq, PartialEq, Hash)]
pub struct List {
    pub entries: Vec<u32>,
    pub next: u32,
}

/// Everything that a search keeps between two calls.
#[derive(Debug, Clone, Eq, PartialEq)]
pub struct Snapshot {
    pub reason: Reason,
    pub evaluations: u32,
    pub placements: u32,
    pub layouts: Vec<Layout>,
    /// From the empty set's list upwards.
    pub lists: Vec<List>,
    pub pending: Option<Vec<u32>>,
    /// The evaluated sets in order of entry.
    pub visited: Vec<Vec<u32>>,
}

impl Snapshot {
    /// What begin leaves: the empty set is pending.
    pub fn begun(placements: u32) -> Self {
        Self {
            reason: Reason::Running,
            evaluations: 0,
            placements,
            layouts: Vec::new(),
            lists: Vec::new(),
            pending: Some(Vec::new()),
            visited: Vec::new(),
        }
    }

    /// The set that list `level` extends: the placements last taken from the lists below.
    pub fn set_of_list(&self, level: usize) -> Vec<u32> {
        let mut set: Vec<u32> = self.lists[..level]
            .iter()
            .map(|list| list.entries[list.next as usize - 1])
            .collect();
        set.sort_unstable();
        set
    }
}
