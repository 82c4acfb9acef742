//! What a planner hands in. None of these values is checked here: a call refuses what it does not take.

/// A rectangle of pixels. Right and bottom are exclusive.
#[derive(Clone, Copy, Debug, PartialEq, Eq, Hash)]
pub struct Rect {
    /// First column.
    pub left: i32,
    /// First row.
    pub top: i32,
    /// One past the last column.
    pub right: i32,
    /// One past the last row.
    pub bottom: i32,
}

impl Rect {
    /// A rectangle of these edges.
    pub const fn new(left: i32, top: i32, right: i32, bottom: i32) -> Self {
        Self {
            left,
            top,
            right,
            bottom,
        }
    }

    pub(crate) const fn edges(self) -> [i32; 4] {
        [self.left, self.top, self.right, self.bottom]
    }
}

/// How far a mover reaches from its centre, 0 to 256 each way. All zero is a mover of one pixel.
#[derive(Clone, Copy, Debug, Default, PartialEq, Eq, Hash)]
pub struct Bounds {
    /// Pixels to the left of the centre.
    pub left: u32,
    /// Pixels above the centre.
    pub top: u32,
    /// Pixels to the right of the centre.
    pub right: u32,
    /// Pixels below the centre.
    pub bottom: u32,
}

impl Bounds {
    /// The bounds of these four reaches.
    pub const fn new(left: u32, top: u32, right: u32, bottom: u32) -> Self {
        Self {
            left,
            top,
            right,
            bottom,
        }
    }
}

/// A pixel of the map.
#[derive(Clone, Copy, Debug, Default, PartialEq, Eq, PartialOrd, Ord, Hash)]
pub struct Position {
    /// Column, from the map's left edge.
    pub x: u32,
    /// Row, from the map's top edge.
    pub y: u32,
}

impl Position {
    /// The pixel in column `x` and row `y`.
    pub const fn new(x: u32, y: u32) -> Self {
        Self { x, y }
    }
}

/// A tile of the map. It is carried along and read by no call.
#[derive(Clone, Copy, Debug, Default, PartialEq, Eq, Hash)]
pub struct Tile {
    /// Column.
    pub x: u32,
    /// Row.
    pub y: u32,
}

/// A building that may be placed. Placements are told apart by their index alone.
#[derive(Clone, Copy, Debug, PartialEq, Eq, Hash)]
pub struct Placement {
    /// Which kind of building this is, 0 to 5. Carried along.
    pub spec: u32,
    /// The group whose slots it takes.
    pub group: u32,
    /// Where the planner has it. Carried along.
    pub tile: Tile,
    /// The ground it needs: inside the window, and shared with no other building of a wall.
    pub footprint: Rect,
    /// What keeps movers off. It may lie anywhere.
    pub collision: Rect,
}

impl Placement {
    /// A building whose collision rectangle is its footprint, with spec and tile zero.
    pub const fn solid(group: u32, footprint: Rect) -> Self {
        Self {
            spec: 0,
            group,
            tile: Tile { x: 0, y: 0 },
            footprint,
            collision: footprint,
        }
    }
}

/// The terrain: walk cells of 8 × 8 pixels, and obstacles.
#[derive(Clone, Debug, PartialEq, Eq)]
pub struct Map {
    /// Cells from left to right, 1 to 1,024.
    pub across: u32,
    /// Cells from top to bottom, 1 to 1,024.
    pub down: u32,
    /// One byte a cell, row by row: 1 walkable, 0 not.
    pub cells: Vec<u8>,
    /// Rectangles that keep movers off, at most 4,096, none empty.
    pub obstacles: Vec<Rect>,
}

impl Map {
    /// A map of these cells, without obstacles.
    pub fn new(across: u32, down: u32, cells: Vec<u8>) -> Self {
        Self {
            across,
            down,
            cells,
            obstacles: Vec::new(),
        }
    }

    /// A map whose cells are all walkable. It has no cells, and is refused with 1, where a side is not 1 to 1,024.
    pub fn open(across: u32, down: u32) -> Self {
        let sides = 1..=1_024;
        let count = if sides.contains(&across) && sides.contains(&down) {
            across as usize * down as usize
        } else {
            0
        };
        Self::new(across, down, vec![1; count])
    }

    /// A map drawn in rows of equal length: `.` is a walkable cell, `#` one that is not. Any other character gives a cell that is
    /// refused with 1, as rows of unequal length are.
    ///
    /// ```
    /// use hitrovzen::Map;
    /// let map = Map::drawn(&["..#", "..."]);
    /// assert_eq!((map.across, map.down, map.cells), (3, 2, vec![1, 1, 0, 1, 1, 1]));
    /// ```
    pub fn drawn(rows: &[&str]) -> Self {
        let cell = |character| match character {
            '#' => 0,
            '.' => 1,
            _ => 2,
        };
        let across = rows.first().map_or(0, |row| row.chars().count());
        let cells = if rows.iter().all(|row| row.chars().count() == across) {
            rows.iter().flat_map(|row| row.chars().map(cell)).collect()
        } else {
            Vec::new()
        };
        let side = |count| u32::try_from(count).unwrap_or(u32::MAX);
        Self::new(side(across), side(rows.len()), cells)
    }
}

/// How far a search may go.
///
/// A search that a limit has stopped can be made again by the same planner with raised limits: once the new search has stopped, what
/// was listed before stands at the top of its list, in the same order, with the same routes, and it has evaluated no fewer sets.
///
/// ```
/// # use hitrovzen::{Bounds, Limits, Map, Placement, Plan, Planner, Position, Reason, Rect, Refusal};
/// # fn main() -> Result<(), Refusal> {
/// # let mut plan = Plan::new(Map::open(1, 1), Rect::new(0, 0, 5, 3), Position::new(0, 1), Position::new(4, 1), Bounds::new(0, 1, 0, 0));
/// # plan.allow = Some(Bounds::default());
/// # plan.groups = vec![1];
/// # plan.placements = [2, 1].map(|left| Placement::solid(0, Rect::new(left, 0, left + 1, 2))).to_vec();
/// # let planner = Planner::new(plan)?;
/// let mut short = planner.search(Limits { states: 100, results: 1 })?;
/// assert_eq!(short.run()?, Reason::ResultLimit);
/// let mut long = planner.search(Limits::WIDEST)?;
/// assert_eq!(long.run()?, Reason::Exhausted);
/// for (before, now) in short.layouts().zip(long.layouts()) {
///     assert_eq!(before.indexes(), now.indexes());
///     assert!(before.route()?.eq(now.route()?));
/// }
/// assert_eq!((short.layouts().len(), long.layouts().len()), (1, 2));
/// # Ok(())
/// # }
/// ```
#[derive(Clone, Copy, Debug, PartialEq, Eq, Hash)]
pub struct Limits {
    /// The most sets that may be evaluated, 1 to 100,000.
    pub states: u32,
    /// The most layouts that may be listed, 1 to 32.
    pub results: u32,
}

impl Limits {
    /// The widest limits there are: 100,000 states and 32 results.
    pub const WIDEST: Self = Self {
        states: 100_000,
        results: 32,
    };
}

/// The eight steps, x and y, in the order in which the original tries them: the straight ones before the diagonal ones.
///
/// A route tries them in the order of [`Plan::steps`], which may be any other order of the same eight. It has the fewest points that
/// any chain of steps over open centres has from start to end, and of all with as few it is the first in that order: where another one
/// first leaves it, the route's own step stands earlier in `steps`.
///
/// With another order a search may keep other routes, list its walls in another sequence and evaluate more sets or fewer, so that a
/// limit may stop it with other walls. But two searches alike except for steps and limits list the same walls where both stop
/// [`Exhausted`](crate::Reason::Exhausted); and baselines, verdicts and the ground left are the same with every order.
///
/// # Examples
///
/// A wall with a pixel left open below it, and the way past it, which turns upwards earlier where diagonal steps come first:
///
/// ```
/// use hitrovzen::{Bounds, Limits, Map, Placement, Plan, Planner, Position, Rect, Refusal, ORIGINAL_STEPS};
///
/// /// The walls, and the points of the way past the first.
/// fn found(plan: Plan) -> Result<(Vec<Vec<u16>>, Vec<(u32, u32)>), Refusal> {
///     let planner = Planner::new(plan)?;
///     let mut search = planner.search(Limits::WIDEST)?;
///     search.run()?;
///     let walls = search.layouts().map(|layout| layout.indexes().to_vec()).collect();
///     let way = search.route(0)?.map(|point| (point.x, point.y)).collect();
///     Ok((walls, way))
/// }
///
/// # fn main() -> Result<(), Refusal> {
/// let (start, end) = (Position::new(0, 1), Position::new(4, 1));
/// let mut plan = Plan::new(Map::open(1, 1), Rect::new(0, 0, 5, 3), start, end, Bounds::new(0, 1, 0, 0));
/// plan.allow = Some(Bounds::default());
/// plan.groups = vec![1];
/// plan.placements = vec![Placement::solid(0, Rect::new(1, 0, 2, 2))];
/// assert_eq!(plan.steps, ORIGINAL_STEPS);
/// let (walls, way) = found(plan.clone())?;
/// assert_eq!(walls, [[0]]);
/// assert_eq!(way, [(0, 1), (0, 2), (1, 2), (2, 2), (3, 2), (4, 1)]);
///
/// plan.steps = [(1, 1), (-1, 1), (-1, -1), (1, -1), (1, 0), (0, 1), (-1, 0), (0, -1)];
/// let (walls, way) = found(plan)?;
/// assert_eq!(walls, [[0]]);
/// assert_eq!(way, [(0, 1), (0, 2), (1, 2), (2, 2), (3, 1), (4, 1)]);
/// # Ok(())
/// # }
/// ```
pub const ORIGINAL_STEPS: [(i32, i32); 8] = [
    (1, 0),
    (0, 1),
    (-1, 0),
    (0, -1),
    (1, 1),
    (-1, 1),
    (-1, -1),
    (1, -1),
];

/// Where buildings are wanted: around an entrance, the line between two points.
///
/// [`rank`](crate::rank) tells how far a footprint lies from it. Which of the points is the first changes no answer.
#[derive(Clone, Copy, Debug, PartialEq, Eq, Hash)]
pub struct Site {
    /// One end of the entrance, in map pixels. It may lie on the map's right and lower edge.
    pub first: Position,
    /// The other end, at another point.
    pub second: Position,
    /// How far from the entrance a footprint's centre may lie, in pixels, 0 to 1,024.
    pub radius: u32,
}

impl Site {
    /// The site around the line between these points, as far as this radius.
    pub const fn new(first: Position, second: Position, radius: u32) -> Self {
        Self {
            first,
            second,
            radius,
        }
    }
}

/// All that a planner is asked about.
#[derive(Clone, Debug, PartialEq, Eq)]
pub struct Plan {
    /// The terrain.
    pub map: Map,
    /// The part of the map that is looked at, in pixels: at most 1,048,576 of them.
    pub window: Rect,
    /// Where movers start.
    pub start: Position,
    /// Where they want to go.
    pub end: Position,
    /// The mover that a wall keeps out.
    pub block: Bounds,
    /// The mover that a wall lets pass, if there is one.
    pub allow: Option<Bounds>,
    /// How many slots each group has: at most 6 groups, 1 to 6 slots each and at most 6 together.
    pub groups: Vec<u32>,
    /// The buildings that may be placed, at most 6,144.
    pub placements: Vec<Placement>,
    /// The order in which a route tries the eight steps from each centre: each of them exactly once, as x and y. [`Plan::new`] takes
    /// [`ORIGINAL_STEPS`], which tells what another order changes.
    pub steps: [(i32, i32); 8],
}

impl Plan {
    /// A plan with no allowed mover, no groups and no placements, and the original's order of steps.
    pub fn new(map: Map, window: Rect, start: Position, end: Position, block: Bounds) -> Self {
        Self {
            map,
            window,
            start,
            end,
            block,
            allow: None,
            groups: Vec::new(),
            placements: Vec::new(),
            steps: ORIGINAL_STEPS,
        }
    }

    /// The same plan from end to start. It has the same walls; the ground that a selection leaves is counted from the other end.
    ///
    /// ```
    /// use hitrovzen::{Bounds, Map, Plan, Position, Rect};
    ///
    /// let (start, end) = (Position::new(0, 1), Position::new(4, 1));
    /// let plan = Plan::new(Map::open(1, 1), Rect::new(0, 0, 5, 3), start, end, Bounds::default());
    /// let back = plan.clone().reversed();
    /// assert_eq!((back.start, back.end), (end, start));
    /// assert_eq!(back.reversed(), plan);
    /// ```
    pub fn reversed(self) -> Self {
        Self {
            start: self.end,
            end: self.start,
            ..self
        }
    }
}
