//! Where `WallSearch::new` takes other inputs than the calls do, each at its smallest difference, and
//! what no run of the original shows.

use judge::generate::Generator;
use judge::list::SEED;
use judge::walls::search::{
    BuildingSpec, SearchError, WallSearch, WallSearchQuery, WallSearchReason, probe,
};
use judge::walls::{CollisionBounds, WallEndpoint, WallError};
use judge::{
    Baselines, Bounds, Case, DepotFootprint, Mover, Reason, Rect, Search, directed, domain, prepare,
};

fn query(case: &Case) -> WallSearchQuery {
    WallSearchQuery {
        window: probe::rect(case.window),
        placement_area: probe::rect(case.window),
        placement_elevation: None,
        placement_site: None,
        start: probe::position(case.start),
        end: probe::position(case.end),
        block: probe::bounds(case.block),
        allow: case.allow.map(probe::bounds),
        buildings: Vec::new(),
        max_states: case.states,
        max_results: case.results as usize,
    }
}

fn new(case: &Case, query: WallSearchQuery) -> Result<WallSearch, SearchError> {
    let obstacles: Vec<_> = case.obstacles.iter().copied().map(probe::rect).collect();
    WallSearch::new(&probe::terrain(case), &obstacles, query)
}

fn by_new(case: &Case) -> Result<(), SearchError> {
    new(case, query(case)).map(|_| ())
}

/// Ground without places: P's map as wide and high as asked, all walkable.
fn ground(map: (u32, u32), window: Rect) -> Case {
    Case {
        map,
        cells: vec![1; (map.0 * map.1) as usize],
        window,
        start: (window.left as u32, window.top as u32),
        end: (window.right as u32 - 1, window.bottom as u32 - 1),
        groups: Vec::new(),
        placements: Vec::new(),
        ..directed::p()
    }
}

#[test]
fn new_takes_more_obstacles() {
    let far = Rect::new(-9, -9, -8, -8);
    let with = |count| Case {
        obstacles: vec![far; count],
        ..ground((1, 1), Rect::new(0, 0, 5, 3))
    };
    assert!(prepare(&with(4_096), Mover::Block).is_ok());
    assert_eq!(prepare(&with(4_097), Mover::Block), Err(5));
    assert_eq!(by_new(&with(4_097)), Ok(()));
    assert_eq!(by_new(&with(8_192)), Ok(()));
    let refused = WallError::TooManyObstacles { actual: 8_193 };
    assert_eq!(by_new(&with(8_193)), Err(SearchError::Wall(refused)));
}

#[test]
fn new_takes_larger_bounds() {
    let with = |left| Case {
        block: Bounds::new(left, 0, 0, 0),
        ..ground((1_024, 1), Rect::new(8_190, 0, 8_192, 1))
    };
    assert!(prepare(&with(256), Mover::Block).is_ok());
    assert_eq!(prepare(&with(257), Mover::Block), Err(4));
    assert_eq!(by_new(&with(257)), Ok(()));
    let blocked = by_new(&with(8_192));
    assert!(matches!(
        blocked,
        Err(SearchError::BaselineEndpointBlocked { .. })
    ));
    assert_eq!(
        by_new(&with(8_193)),
        Err(SearchError::Wall(WallError::MoverExtentTooLarge))
    );
}

#[test]
fn new_takes_no_axis_above_1024() {
    let wide = ground((129, 1), Rect::new(0, 0, 1_025, 1));
    assert!(Search::begin(&wide).is_ok());
    let refused = WallError::WindowTooLarge {
        width: 1_025,
        height: 1,
    };
    assert_eq!(by_new(&wide), Err(SearchError::Wall(refused)));
    let full = ground((128, 129), Rect::new(0, 0, 1_024, 1_024));
    assert_eq!(
        (domain::prepare(&full, full.block), by_new(&full)),
        (Ok(()), Ok(()))
    );
    let over = ground((128, 129), Rect::new(0, 0, 1_024, 1_025));
    assert_eq!(domain::prepare(&over, over.block), Err(2));
    assert!(by_new(&over).is_err());
}

#[test]
fn new_looks_in_another_order() {
    let empty = Rect::new(0, 0, 0, 0);
    let outside = Case {
        start: (7, 7),
        ..ground((1, 1), Rect::new(0, 0, 5, 3))
    };
    let both = Case {
        obstacles: vec![empty],
        ..outside.clone()
    };
    assert_eq!(prepare(&both, Mover::Block), Err(3));
    let refused = WallError::InvalidObstacle { index: 0 };
    assert_eq!(by_new(&both), Err(SearchError::Wall(refused)));
    let large = Case {
        block: Bounds::new(8_193, 0, 0, 0),
        ..outside
    };
    assert_eq!(prepare(&large, Mover::Block), Err(3));
    assert_eq!(
        by_new(&large),
        Err(SearchError::Wall(WallError::MoverExtentTooLarge))
    );
}

/// Two tiles side by side; the first one's building would cover the start, for either mover.
#[test]
fn new_drops_placements_that_cover_an_end() {
    let ground = Case {
        start: (0, 5),
        end: (8, 5),
        ..ground((8, 4), Rect::new(0, 0, 64, 32))
    };
    let made = |case: &Case| {
        let extents = CollisionBounds {
            left: 14,
            top: 14,
            right: 14,
            bottom: 14,
        };
        let footprint = DepotFootprint {
            width_tiles: 1,
            height_tiles: 1,
        };
        let buildings = vec![BuildingSpec {
            footprint,
            collision: extents,
        }];
        let search = new(
            case,
            WallSearchQuery {
                buildings,
                ..query(case)
            },
        )
        .expect("a query");
        let (places, groups) = probe::enumerated(&search);
        assert_eq!(groups, [1]);
        places
            .into_iter()
            .map(|place| place.tile)
            .collect::<Vec<_>>()
    };
    assert_eq!(made(&ground), [(1, 0)]);
    let away = Case {
        end: (0, 6),
        ..ground.clone()
    };
    assert_eq!(made(&away), [(0, 0), (1, 0)]);
    let allowing = Case {
        allow: Some(Bounds::new(0, 0, 2, 0)),
        ..away
    };
    assert_eq!(made(&allowing), [(1, 0)]);
}

/// A set that covers an end is evaluated: it counts and nothing follows.
#[test]
fn a_covered_end_is_an_evaluation() {
    let mut case = directed::p();
    case.placements = vec![judge::Placement::plain(Rect::new(0, 1, 1, 2))];
    let mut search = Search::begin(&case).expect("accepted");
    search.step(9);
    let held = search.snapshot();
    assert_eq!(
        (held.reason, held.evaluations, held.layouts.len()),
        (Reason::Exhausted, 2, 0)
    );
    assert_eq!(held.visited, [vec![], vec![0]]);
}

/// No list is ever empty, and so none is kept for a set of six; a set is pending after begin alone.
#[test]
fn no_list_is_empty_and_no_step_leaves_a_set_pending() {
    let mut generator = Generator::new(SEED + 2);
    let mut of_six = 0;
    for _ in 0..1_500 {
        let item = generator.item();
        let Ok(mut search) = Search::begin(&item.case) else {
            continue;
        };
        while search.original().result().reason == WallSearchReason::Running {
            search.step(1);
            let held = search.snapshot();
            assert!(held.lists.len() <= 6 && held.pending.is_none());
            assert!(held.lists.iter().all(|list| !list.entries.is_empty()));
            of_six += usize::from(held.visited.last().is_some_and(|set| set.len() == 6));
        }
    }
    assert!(of_six > 50, "{of_six} looks after a set of six");
}

/// Prepare's 7, 8 and 9 are these errors, for the blocked mover before the allowed one.
#[test]
fn refusals_by_name() {
    let named = |name: &str| {
        let items = directed::items();
        let item = items
            .into_iter()
            .find(|item| item.name == name)
            .expect("a directed case");
        let case = Case {
            groups: Vec::new(),
            placements: Vec::new(),
            ..item.case
        };
        (
            Baselines::prepare(&case).expect_err("refused"),
            by_new(&case).expect_err("refused"),
        )
    };
    for name in ["refused-7", "refused-allow-7"] {
        let (number, error) = named(name);
        let start = WallEndpoint::Start;
        assert_eq!(number, 7);
        assert!(
            matches!(error, SearchError::BaselineEndpointBlocked { endpoint, .. } if endpoint == start)
        );
    }
    for name in ["refused-8", "refused-allow-8"] {
        let (number, error) = named(name);
        let end = WallEndpoint::End;
        assert_eq!(number, 8);
        assert!(
            matches!(error, SearchError::BaselineEndpointBlocked { endpoint, .. } if endpoint == end)
        );
    }
    for name in ["refused-9", "refused-allow-9"] {
        let (number, error) = named(name);
        assert_eq!(number, 9);
        assert!(matches!(error, SearchError::BaselineDisconnected { .. }));
    }
}
