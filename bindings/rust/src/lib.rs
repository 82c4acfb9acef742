//! The wall search of a map planner, proved complete.
//!
//! Hand in a [`Plan`]: a window of a map, two ends, a mover to keep out, perhaps a mover to let pass, and the places where
//! buildings may stand. A [`Planner`] prepares the movers. It begins [searches](Planner::search), which list the
//! sets of buildings that wall the first mover off, and [judges](Planner::judge) selections of your own. Between searches a
//! building is dragged by [lifting](Planner::lift) it and [covering](Planner::cover) it elsewhere, without preparing anew.
//! Places are sorted by their distance from an entrance with [`rank`].
//!
//! A wall is a set of placements, within each group's slots and with no footprints overlapping, that leaves both ends open to
//! the blocked mover, leaves it no route, gives it one again when any single member is lifted, and leaves the allowed mover,
//! if there is one, open ends and a route.
//!
//! A route tries the eight steps in the order of [`Plan::steps`]. Another order may choose other routes, and has the same walls.
//!
//! The search is written in Rattle, where every function is proved to meet its contract: every layout listed is a wall, none is
//! listed twice, and after [`Reason::Exhausted`] the layouts are exactly the walls. This crate is a thin cover over its
//! C functions ([`raw`]); it is itself not proved.
//!
//! No function panics on any input: what is not taken is answered with a [`Refusal`], which carries a number and a sentence.
//!
//! ```
//! use hitrovzen::{Bounds, Limits, Map, Placement, Plan, Planner, Position, Reason, Rect};
//!
//! fn main() -> Result<(), hitrovzen::Refusal> {
//!     // one walkable cell, and in it a window of 5 × 3 centres
//!     let window = Rect::new(0, 0, 5, 3);
//!     let mut plan = Plan::new(Map::open(1, 1), window, Position::new(0, 1), Position::new(4, 1), Bounds::default());
//!     plan.groups = vec![2];
//!     plan.placements = vec![
//!         Placement::solid(0, Rect::new(2, 0, 3, 3)),
//!         Placement::solid(0, Rect::new(2, 0, 3, 2)),
//!         Placement::solid(0, Rect::new(2, 2, 3, 3)),
//!     ];
//!     let planner = Planner::new(plan)?;
//!     let mut search = planner.search(Limits { states: 100, results: 32 })?;
//!     assert_eq!(search.run()?, Reason::Exhausted);
//!     let walls: Vec<Vec<u16>> = search.layouts().map(|layout| layout.indexes().to_vec()).collect();
//!     assert_eq!(walls, [vec![0], vec![1, 2]]);
//!     Ok(())
//! }
//! ```

#![deny(unsafe_code)]
#![warn(missing_docs)]

pub mod raw;

mod answers;
mod areas;
mod calls;
mod planner;
mod ranks;
mod refusal;
mod search;
mod values;

pub use answers::{Judgement, Reason, Verdict};
pub use planner::Planner;
pub use ranks::{rank, Rank};
pub use refusal::{Kind, Mover, Refusal};
pub use search::{Layout, Layouts, Members, Route, Search};
pub use values::{
    Bounds, Limits, Map, Placement, Plan, Position, Rect, Site, Tile, ORIGINAL_STEPS,
};
