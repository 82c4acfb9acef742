//! A search, the layouts it has listed, and the routes past them.

use std::{
    iter::{Enumerate, FusedIterator, Take},
    slice,
};

use crate::{
    answers::Reason,
    areas::{Store, RECORD, ROW},
    calls,
    planner::Planner,
    refusal::Refusal,
    values::{Limits, Placement, Position},
};

const REASON: usize = 0;
const EVALUATIONS: usize = 1;
const LAYOUTS: usize = 3;

/// A search for the walls of a [`Planner`].
///
/// It evaluates sets of placements, in portions as large or small as the caller likes: a step by `a` and one by `b` leave what a
/// step by `a + b` leaves. What it lists can be read at any time. Every layout is a wall, none is listed twice, and once the reason
/// is [`Reason::Exhausted`] the layouts are exactly the walls.
///
/// ```
/// # use hitrovzen::{Bounds, Limits, Map, Placement, Plan, Planner, Position, Reason, Rect, Refusal};
/// # fn main() -> Result<(), Refusal> {
/// # let mut plan = Plan::new(Map::open(1, 1), Rect::new(0, 0, 5, 3), Position::new(0, 1), Position::new(4, 1), Bounds::default());
/// # plan.groups = vec![2];
/// # plan.placements = [(0, 3), (0, 2), (2, 3)].map(|(top, bottom)| Placement::solid(0, Rect::new(2, top, 3, bottom))).to_vec();
/// # let planner = Planner::new(plan)?;
/// let mut search = planner.search(Limits { states: 100, results: 32 })?;
/// while search.step(2)? == Reason::Running {
///     println!("{} sets evaluated, {} walls so far", search.evaluations(), search.layouts().len());
/// }
/// assert_eq!(search.reason(), Reason::Exhausted);
/// let walls: Vec<&[u16]> = search.layouts().map(|layout| layout.indexes()).collect();
/// assert_eq!(walls, [&[0][..], &[1, 2]]);
/// # Ok(())
/// # }
/// ```
#[derive(Clone, Debug)]
pub struct Search<'p> {
    planner: &'p Planner,
    limits: Limits,
    record: [u32; RECORD],
    store: Store,
    reason: Reason,
}

impl<'p> Search<'p> {
    pub(crate) fn begun(
        planner: &'p Planner,
        limits: Limits,
        record: [u32; RECORD],
        store: Store,
    ) -> Result<Self, Refusal> {
        let reason = Reason::numbered(record[REASON]).ok_or(Refusal::UNNAMED)?;
        Ok(Self {
            planner,
            limits,
            record,
            store,
            reason,
        })
    }

    /// Evaluates `n` sets more, or stops before. A search that has stopped stays as it is.
    ///
    /// # Errors
    ///
    /// None that a search can meet: its inputs and areas are its own.
    pub fn step(&mut self, n: u32) -> Result<Reason, Refusal> {
        calls::step(
            &self.planner.asked(),
            self.limits,
            &mut self.record,
            n,
            &mut self.planner.work(),
            &mut self.store,
        )?;
        self.reason = Reason::numbered(self.record[REASON]).ok_or(Refusal::UNNAMED)?;
        Ok(self.reason)
    }

    /// Steps until the search stops, which it does at its state limit at the latest.
    ///
    /// # Errors
    ///
    /// As for [`Search::step`].
    pub fn run(&mut self) -> Result<Reason, Refusal> {
        self.step(self.limits.states)
    }

    /// Why the search stands where it stands.
    pub fn reason(&self) -> Reason {
        self.reason
    }

    /// How many sets have been evaluated.
    pub fn evaluations(&self) -> u32 {
        self.record[EVALUATIONS]
    }

    /// The limits that it was begun with.
    pub fn limits(&self) -> Limits {
        self.limits
    }

    /// The planner that it was begun by.
    pub fn planner(&self) -> &'p Planner {
        self.planner
    }

    /// The layouts listed so far, in the order they were found.
    pub fn layouts(&self) -> Layouts<'_> {
        let listed = self.record[LAYOUTS] as usize;
        Layouts {
            search: self,
            rows: self
                .store
                .layouts
                .chunks_exact(ROW)
                .take(listed)
                .enumerate(),
        }
    }

    /// The allowed mover's route past the layout of this number, both ends included; empty where there is no allowed mover.
    ///
    /// # Errors
    ///
    /// Refusal 17 for a number that is not listed.
    pub fn route(&self, number: u32) -> Result<Route<'_>, Refusal> {
        let part = calls::read(
            &self.planner.asked(),
            self.limits,
            &self.record,
            number,
            &self.store,
        )?;
        let points = self.store.points.get(part).ok_or(Refusal::UNNAMED)?;
        Ok(Route {
            pairs: points.chunks_exact(2),
        })
    }
}

/// The layouts that a search has listed, in the order they were found. Made by [`Search::layouts`].
#[derive(Clone, Debug)]
pub struct Layouts<'s> {
    search: &'s Search<'s>,
    rows: Enumerate<Take<slice::ChunksExact<'s, u16>>>,
}

impl<'s> Layouts<'s> {
    fn layout(search: &'s Search<'s>, (number, row): (usize, &'s [u16])) -> Layout<'s> {
        let (length, members) = row.split_first().unwrap_or((&0, &[]));
        Layout {
            search,
            // at most 32 are listed
            number: number as u32,
            indexes: members.get(..usize::from(*length)).unwrap_or(members),
        }
    }
}

impl<'s> Iterator for Layouts<'s> {
    type Item = Layout<'s>;

    fn next(&mut self) -> Option<Self::Item> {
        self.rows.next().map(|row| Self::layout(self.search, row))
    }

    fn size_hint(&self) -> (usize, Option<usize>) {
        self.rows.size_hint()
    }
}

impl DoubleEndedIterator for Layouts<'_> {
    fn next_back(&mut self) -> Option<Self::Item> {
        self.rows
            .next_back()
            .map(|row| Self::layout(self.search, row))
    }
}

impl ExactSizeIterator for Layouts<'_> {}
impl FusedIterator for Layouts<'_> {}

/// A wall that a search has listed.
///
/// ```
/// use hitrovzen::{Bounds, Limits, Map, Placement, Plan, Planner, Position, Rect};
///
/// # fn main() -> Result<(), hitrovzen::Refusal> {
/// // a block with one pixel left open below it: the mover of three pixels is kept out, the one of a pixel passes
/// let window = Rect::new(0, 0, 7, 6);
/// let mut plan = Plan::new(Map::open(1, 1), window, Position::new(1, 2), Position::new(5, 2), Bounds::new(1, 1, 1, 1));
/// plan.allow = Some(Bounds::default());
/// plan.groups = vec![1];
/// plan.placements = vec![Placement::solid(0, Rect::new(3, 0, 4, 5))];
///
/// let planner = Planner::new(plan)?;
/// let mut search = planner.search(Limits::WIDEST)?;
/// search.run()?;
/// for layout in search.layouts() {
///     for placement in layout.members() {
///         assert_eq!(placement.footprint, Rect::new(3, 0, 4, 5));
///     }
///     let mut route = layout.route()?;
///     assert_eq!(route.next(), Some(Position::new(1, 2)));
///     assert_eq!(route.next_back(), Some(Position::new(5, 2)));
///     assert!(route.any(|point| point == Position::new(3, 5)));
/// }
/// # assert_eq!(search.layouts().len(), 1);
/// # Ok(())
/// # }
/// ```
#[derive(Clone, Copy, Debug)]
pub struct Layout<'s> {
    search: &'s Search<'s>,
    number: u32,
    indexes: &'s [u16],
}

impl<'s> Layout<'s> {
    /// Its number, from 0.
    pub fn number(&self) -> u32 {
        self.number
    }

    /// The indexes of its members among the plan's placements, ascending.
    pub fn indexes(&self) -> &'s [u16] {
        self.indexes
    }

    /// Its members.
    pub fn members(&self) -> Members<'s> {
        Members {
            placements: &self.search.planner.plan().placements,
            indexes: self.indexes.iter(),
        }
    }

    /// The allowed mover's route past it, both ends included; empty where there is no allowed mover.
    ///
    /// # Errors
    ///
    /// None that a listed layout can meet.
    pub fn route(&self) -> Result<Route<'s>, Refusal> {
        self.search.route(self.number)
    }
}

/// The placements of a layout. Made by [`Layout::members`].
#[derive(Clone, Debug)]
pub struct Members<'s> {
    placements: &'s [Placement],
    indexes: slice::Iter<'s, u16>,
}

impl<'s> Iterator for Members<'s> {
    type Item = &'s Placement;

    fn next(&mut self) -> Option<Self::Item> {
        let index = self.indexes.next()?;
        self.placements.get(usize::from(*index))
    }

    fn size_hint(&self) -> (usize, Option<usize>) {
        self.indexes.size_hint()
    }
}

impl DoubleEndedIterator for Members<'_> {
    fn next_back(&mut self) -> Option<Self::Item> {
        let index = self.indexes.next_back()?;
        self.placements.get(usize::from(*index))
    }
}

impl ExactSizeIterator for Members<'_> {}
impl FusedIterator for Members<'_> {}

/// The points of a route, in map pixels. Made by [`Layout::route`] and [`Search::route`].
#[derive(Clone, Debug)]
pub struct Route<'s> {
    pairs: slice::ChunksExact<'s, u32>,
}

impl Route<'_> {
    fn position(pair: &[u32]) -> Option<Position> {
        match pair {
            [x, y] => Some(Position::new(*x, *y)),
            _ => None,
        }
    }
}

impl Iterator for Route<'_> {
    type Item = Position;

    fn next(&mut self) -> Option<Self::Item> {
        self.pairs.next().and_then(Self::position)
    }

    fn size_hint(&self) -> (usize, Option<usize>) {
        self.pairs.size_hint()
    }
}

impl DoubleEndedIterator for Route<'_> {
    fn next_back(&mut self) -> Option<Self::Item> {
        self.pairs.next_back().and_then(Self::position)
    }
}

impl ExactSizeIterator for Route<'_> {}
impl FusedIterator for Route<'_> {}
