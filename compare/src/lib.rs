//! The original wall search as a judge: the answers that a port has to give.
//!
//! `walls` is the original `walls.rs` and `walls/search.rs`, laid out by the build script with one
//! line appended to the latter. That line names the module `probe` (its text is
//! `src/walls/search/probe.rs`), which sets and reads the search's private fields. `grid` holds
//! pieces of the original `lib.rs`. Everything else here is the judge's own: [`case`] says what a
//! search is given, [`domain`] which calls are accepted, [`run`] makes the calls, [`verdict`] and
//! [`ground`] judge a selection, [`order`] reads the rules for any order of steps, and [`directed`],
//! [`generate`] and [`list`] make the searches whose answers [`text`] writes.

pub mod case;
pub mod count;
pub mod directed;
pub mod domain;
pub mod generate;
pub mod ground;
pub mod list;
pub mod maps;
pub mod order;
pub mod run;
pub mod sha256;
pub mod sheet;
mod stand_ins;
pub mod stored;
pub mod text;
pub mod verdict;

pub use case::{Bounds, Case, Layout, List, Mover, Placement, Reason, Rect, Snapshot};
pub use run::{Baselines, Search, prepare};
pub use stand_ins::{DepotFootprint, PixelPosition, PixelRect, TilePosition};

/// Pieces of the original `lib.rs`: the terrain grid and what it needs.
mod grid {
    include!(concat!(env!("OUT_DIR"), "/grid.rs"));
}
pub use grid::{AnalysisError, Endpoint, TerrainCell, TerrainGrid, WalkPosition};

include!(concat!(env!("OUT_DIR"), "/modules.rs"));

/// The originals as the compiler reads them, and the one line that was appended.
pub mod compiled {
    pub const WALLS: &str = include_str!(concat!(env!("OUT_DIR"), "/walls.rs"));
    pub const SEARCH: &str = include_str!(concat!(env!("OUT_DIR"), "/walls/search.rs"));
    pub const APPENDED: &str = concat!(env!("APPENDED_LINE"), "\n");
}
