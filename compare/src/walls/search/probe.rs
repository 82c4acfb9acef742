//! Sets and reads the private fields of `WallSearch`, and calls its private functions.
//!
//! A placement's index goes along in `building.footprint.width_tiles`: `step` and what it calls copy
//! a candidate's `building` into the layout and read none of its fields.

use std::collections::HashSet;

use super::super::{intersects, local_index, route};
use super::{
    Candidate, CollisionBounds, PreparedMover, SearchError, SearchFrame, SearchMover,
    SearchPlacement, State, WallBuilding, WallEndpoint, WallError, WallLayout, WallPlacementSite,
    WallSearch, WallSearchQuery, WallSearchReason, WallSearchResult, candidate_touches_witness,
    footprint_center_distance_rank, prepare_mover, validate_placement_site,
};
use crate::case::{Bounds, Case, Layout, List, Mover, Placement, Reason, Rect, Snapshot};
use crate::{DepotFootprint, PixelPosition, PixelRect, TerrainCell, TerrainGrid, TilePosition};

/// The conversion that `#[from]` asks for.
impl From<WallError> for SearchError {
    fn from(error: WallError) -> Self {
        Self::Wall(error)
    }
}

pub fn rect(rect: Rect) -> PixelRect {
    PixelRect {
        left: rect.left,
        top: rect.top,
        right: rect.right,
        bottom: rect.bottom,
    }
}

pub fn bounds(bounds: Bounds) -> CollisionBounds {
    CollisionBounds {
        left: bounds.left,
        top: bounds.top,
        right: bounds.right,
        bottom: bounds.bottom,
    }
}

pub fn position((x, y): (u32, u32)) -> PixelPosition {
    PixelPosition { x, y }
}

pub fn terrain(case: &Case) -> TerrainGrid {
    let cells = case
        .cells
        .iter()
        .map(|&cell| TerrainCell {
            walkable: cell == 1,
            terrain_buildable: true,
            elevation: 0,
            ramp: false,
        })
        .collect();
    TerrainGrid::from_cells(case.map.0, case.map.1, cells).expect("accepted map")
}

/// `prepare_mover`: the baseline, or refusal 7, 8 or 9.
pub fn prepare(case: &Case, mover: Bounds) -> Result<Vec<bool>, u32> {
    let obstacles: Vec<PixelRect> = case.obstacles.iter().copied().map(rect).collect();
    prepare_on(&terrain(case), &obstacles, case, mover)
}

/// `prepare_mover` on the case's terrain and obstacles, made before: the baseline, or refusal 7, 8 or 9.
pub fn prepare_on(
    grid: &TerrainGrid,
    obstacles: &[PixelRect],
    case: &Case,
    mover: Bounds,
) -> Result<Vec<bool>, u32> {
    prepare_mover(
        grid,
        obstacles,
        rect(case.window),
        position(case.start),
        position(case.end),
        bounds(mover),
        SearchMover::Block,
    )
    .map(|prepared| prepared.baseline)
    .map_err(number)
}

fn number(error: SearchError) -> u32 {
    match error {
        SearchError::BaselineEndpointBlocked {
            endpoint: WallEndpoint::Start,
            ..
        } => 7,
        SearchError::BaselineEndpointBlocked {
            endpoint: WallEndpoint::End,
            ..
        } => 8,
        SearchError::BaselineDisconnected { .. } => 9,
        other => panic!("prepare_mover does not give {other:?}"),
    }
}

/// The looks of `prepare_mover` at a baseline: refusal 7, 8 or 9.
pub fn ends_joined(case: &Case, baseline: &[bool]) -> Result<(), u32> {
    let (width, height) = size(case);
    let start = local_index(position(case.start), rect(case.window), width);
    let end = local_index(position(case.end), rect(case.window), width);
    if baseline[start] {
        Err(7)
    } else if baseline[end] {
        Err(8)
    } else if route(baseline, width, height, start, end).is_none() {
        Err(9)
    } else {
        Ok(())
    }
}

fn size(case: &Case) -> (usize, usize) {
    let axis = |length: i64| usize::try_from(length).expect("accepted window");
    (axis(case.window.width()), axis(case.window.height()))
}

/// A search over the given baselines that holds what `held` says. `WallSearch::new` is not asked.
pub fn build(case: &Case, block: &[bool], allow: Option<&[bool]>, held: &Snapshot) -> WallSearch {
    let (width, height) = size(case);
    let prepared = |mover: Bounds, baseline: &[bool]| PreparedMover {
        bounds: bounds(mover),
        baseline: baseline.to_vec(),
    };
    WallSearch {
        query: query(case),
        width,
        height,
        block: prepared(case.block, block),
        allow: case
            .allow
            .map(|mover| prepared(mover, allow.expect("a second baseline"))),
        candidates: case.placements.iter().enumerate().map(candidate).collect(),
        group_counts: case.groups.iter().map(|&count| count as u8).collect(),
        stack: stack(case, held),
        visited: held.visited.iter().map(|set| wide(set)).collect(),
        result: WallSearchResult {
            reason: reason_of(held.reason),
            explored_states: held.evaluations,
            candidate_placements: held.placements as usize,
            layouts: held
                .layouts
                .iter()
                .map(|kept| layout_of(case, kept))
                .collect(),
        },
    }
}

/// `step` reads the window, the ends and the limits; the other fields are what only `new` reads.
fn query(case: &Case) -> WallSearchQuery {
    WallSearchQuery {
        window: rect(case.window),
        placement_area: rect(case.window),
        placement_elevation: None,
        placement_site: None,
        start: position(case.start),
        end: position(case.end),
        block: bounds(case.block),
        allow: case.allow.map(bounds),
        buildings: Vec::new(),
        max_states: case.states,
        max_results: case.results as usize,
    }
}

fn candidate((index, place): (usize, &Placement)) -> Candidate {
    Candidate {
        spec_index: place.spec as usize,
        spec_group: place.group as usize,
        building: building(index, place),
        footprint: rect(place.footprint),
        collision: rect(place.collision),
        site_distance_rank: 0,
    }
}

fn building(index: usize, place: &Placement) -> WallBuilding {
    WallBuilding {
        tile: TilePosition {
            x: place.tile.0,
            y: place.tile.1,
        },
        footprint: DepotFootprint {
            width_tiles: index as u32,
            height_tiles: 0,
        },
        collision: CollisionBounds {
            left: 0,
            top: 0,
            right: 0,
            bottom: 0,
        },
    }
}

fn wide(set: &[u32]) -> Vec<usize> {
    set.iter().map(|&member| member as usize).collect()
}

fn narrow(set: &[usize]) -> Vec<u32> {
    set.iter().map(|&member| member as u32).collect()
}

fn state(case: &Case, set: &[u32]) -> State {
    let mut used_groups = vec![0; case.groups.len()];
    for &member in set {
        used_groups[case.placements[member as usize].group as usize] += 1;
    }
    State {
        candidates: wide(set),
        used_groups,
    }
}

fn stack(case: &Case, held: &Snapshot) -> Vec<SearchFrame> {
    let extend = |(level, list): (usize, &List)| SearchFrame::Extend {
        state: state(case, &held.set_of_list(level)),
        candidates: wide(&list.entries),
        next: list.next as usize,
    };
    let evaluate = |set: &Vec<u32>| SearchFrame::Evaluate(state(case, set));
    held.lists
        .iter()
        .enumerate()
        .map(extend)
        .chain(held.pending.iter().map(evaluate))
        .collect()
}

fn reason_of(reason: Reason) -> WallSearchReason {
    match reason {
        Reason::Running => WallSearchReason::Running,
        Reason::Exhausted => WallSearchReason::Exhausted,
        Reason::StateLimit => WallSearchReason::StateLimit,
        Reason::ResultLimit => WallSearchReason::ResultLimit,
    }
}

fn layout_of(case: &Case, kept: &Layout) -> WallLayout {
    let place = |&member: &u32| {
        let place = &case.placements[member as usize];
        SearchPlacement {
            spec_index: place.spec as usize,
            building: building(member as usize, place),
        }
    };
    WallLayout {
        buildings: kept.members.iter().map(place).collect(),
        allow_route: kept.route.iter().copied().map(position).collect(),
    }
}

/// What the search holds, but for the order of the visited sets, which it does not keep: `visited`
/// is handed in. Each frame must hold the set that the lists below it give.
pub fn read(search: &WallSearch, case: &Case, visited: Vec<Vec<u32>>) -> Snapshot {
    let mut held = Snapshot {
        reason: match search.result.reason {
            WallSearchReason::Running => Reason::Running,
            WallSearchReason::Exhausted => Reason::Exhausted,
            WallSearchReason::StateLimit => Reason::StateLimit,
            WallSearchReason::ResultLimit => Reason::ResultLimit,
        },
        evaluations: search.result.explored_states,
        placements: search.result.candidate_placements as u32,
        layouts: search
            .result
            .layouts
            .iter()
            .map(|kept| read_layout(case, kept))
            .collect(),
        lists: Vec::new(),
        pending: None,
        visited,
    };
    for frame in &search.stack {
        assert!(held.pending.is_none(), "a frame stands on a pending set");
        let level = held.lists.len();
        let (found, list) = match frame {
            SearchFrame::Evaluate(found) => (found, None),
            SearchFrame::Extend {
                state,
                candidates,
                next,
            } => {
                let list = List {
                    entries: narrow(candidates),
                    next: *next as u32,
                };
                (state, Some(list))
            }
        };
        let expected = state(case, &held.set_of_list(level));
        assert_eq!(found.candidates, expected.candidates, "a frame's set");
        assert_eq!(found.used_groups, expected.used_groups, "a frame's slots");
        match list {
            Some(list) => held.lists.push(list),
            None => held.pending = Some(narrow(&found.candidates)),
        }
    }
    held
}

fn read_layout(case: &Case, kept: &WallLayout) -> Layout {
    let member = |chosen: &SearchPlacement| {
        let index = chosen.building.footprint.width_tiles;
        let place = &case.placements[index as usize];
        assert_eq!(
            chosen.spec_index, place.spec as usize,
            "a layout's spec index"
        );
        assert_eq!(
            chosen.building,
            building(index as usize, place),
            "a layout's building"
        );
        index
    };
    Layout {
        members: kept.buildings.iter().map(member).collect(),
        route: kept
            .allow_route
            .iter()
            .map(|point| (point.x, point.y))
            .collect(),
    }
}

pub fn visited(search: &WallSearch) -> &HashSet<Vec<usize>> {
    &search.visited
}

/// The set that a step by one has just evaluated: that of the list just made, else the one last
/// taken from the topmost list, else the empty set.
pub fn last_evaluated(search: &WallSearch) -> Vec<usize> {
    match search.stack.last() {
        None => Vec::new(),
        Some(SearchFrame::Extend { state, next: 0, .. }) => state.candidates.clone(),
        Some(SearchFrame::Extend {
            state,
            candidates,
            next,
        }) => {
            let mut set = state.candidates.clone();
            set.push(candidates[*next - 1]);
            set.sort_unstable();
            set
        }
        Some(SearchFrame::Evaluate(_)) => panic!("a step by one leaves no pending set"),
    }
}

/// The placements that `WallSearch::new` made and their groups' slot counts.
pub fn enumerated(search: &WallSearch) -> (Vec<Placement>, Vec<u32>) {
    let plain = |r: PixelRect| Rect::new(r.left, r.top, r.right, r.bottom);
    let place = |made: &Candidate| Placement {
        spec: made.spec_index as u32,
        group: made.spec_group as u32,
        tile: (made.building.tile.x, made.building.tile.y),
        footprint: plain(made.footprint),
        collision: plain(made.collision),
    };
    (
        search.candidates.iter().map(place).collect(),
        search
            .group_counts
            .iter()
            .map(|&count| u32::from(count))
            .collect(),
    )
}

/// `blocked_for`: the baseline with a set's collisions laid over it.
pub fn cover(search: &WallSearch, mover: Mover, set: &[u32]) -> Option<Vec<bool>> {
    let prepared = match mover {
        Mover::Block => Some(&search.block),
        Mover::Allow => search.allow.as_ref(),
    };
    prepared.map(|prepared| search.blocked_for(prepared, &wide(set)))
}

/// `route` over a set's cover, as centre numbers.
pub fn route_past(search: &WallSearch, mover: Mover, set: &[u32]) -> Option<Vec<usize>> {
    let (start, end) = ends(search);
    let blocked = cover(search, mover, set)?;
    route(&blocked, search.width, search.height, start, end)
}

fn ends(search: &WallSearch) -> (usize, usize) {
    (
        local_index(search.query.start, search.query.window, search.width),
        local_index(search.query.end, search.query.window, search.width),
    )
}

/// `is_minimal_block`: whether lifting any one member gives open ends and a route.
pub fn is_minimal(search: &WallSearch, set: &[u32]) -> bool {
    let (start, end) = ends(search);
    search.is_minimal_block(&wide(set), start, end)
}

/// `candidate_touches_witness`: whether a placement touches a route of the blocked mover.
pub fn touches(search: &WallSearch, index: u32, witness: &[usize]) -> bool {
    candidate_touches_witness(
        search.candidates[index as usize].collision,
        search.block.bounds,
        witness,
        search.query.window,
        search.width,
    )
}

/// Whether two placements' footprints share a pixel.
pub fn overlap(search: &WallSearch, a: u32, b: u32) -> bool {
    intersects(
        search.candidates[a as usize].footprint,
        search.candidates[b as usize].footprint,
    )
}

fn site(entrance: [(u32, u32); 2], radius: u32) -> WallPlacementSite {
    WallPlacementSite {
        entrance: entrance.map(position),
        max_distance_pixels: radius,
    }
}

/// `validate_placement_site`: whether an entrance and a radius are taken on a map of so many pixels.
pub fn site_fits(entrance: [(u32, u32); 2], radius: u32, (width, height): (i64, i64)) -> bool {
    validate_placement_site(site(entrance, radius), width, height).is_ok()
}

/// `footprint_center_distance_rank`: the whole part of the squared distance in pixels from the entrance
/// to the footprint's centre, none beyond the radius.
pub fn distance_rank(footprint: Rect, entrance: [(u32, u32); 2], radius: u32) -> Option<u128> {
    footprint_center_distance_rank(rect(footprint), site(entrance, radius))
}
