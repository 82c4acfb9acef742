//! What holds of every search of the list and of generated ones.

use judge::generate::{Generator, Rng};
use judge::list::{Item, SEED, first};
use judge::walls::CollisionBounds;
use judge::walls::search::{BuildingSpec, WallSearch, WallSearchQuery, probe};
use judge::{
    Baselines, Bounds, Case, DepotFootprint, Layout, Mover, Placement, Reason, Rect, Search,
    Snapshot, domain, text,
};

fn accepted(count: usize) -> Vec<(Item, Baselines)> {
    let mut generator = Generator::new(SEED + 1);
    let mut items = Vec::new();
    while items.len() < count {
        let item = generator.item();
        let baselines = item
            .given
            .clone()
            .map_or_else(|| Baselines::prepare(&item.case), Ok);
        if let Ok(baselines) = baselines {
            items.push((item, baselines));
        }
    }
    items
}

#[test]
fn the_kept_list_is_what_the_original_answers() {
    let kept = include_str!("../answers/first.txt");
    assert!(
        kept == text::list(SEED, &first()),
        "run the program answers again"
    );
}

#[test]
fn portions_add_up() {
    for (item, answers) in first() {
        let (Some(search), Some(last)) = (&answers.search, answers.snapshots.last()) else {
            continue;
        };
        let baselines = item
            .given
            .clone()
            .unwrap_or_else(|| Baselines::prepare(search.case()).expect("prepared before"));
        let mut whole =
            Search::set_on(&item.case, &baselines, &answers.snapshots[0]).expect("accepted before");
        whole.step(
            item.portions
                .iter()
                .fold(0, |sum, &n| u32::saturating_add(sum, n)),
        );
        assert_eq!(whole.snapshot(), *last, "{}", item.name);
    }
}

#[test]
fn a_step_evaluates_exactly_its_number_or_stops() {
    for (item, baselines) in accepted(300) {
        let mut search = Search::begin_on(&item.case, &baselines).expect("accepted");
        for portion in item.portions {
            let before = search.snapshot();
            search.step(portion);
            let after = search.snapshot();
            if portion == 0 || before.reason != Reason::Running {
                assert_eq!(before, after);
            } else {
                assert!(after.pending.is_none());
                let done = after.evaluations - before.evaluations;
                assert!(done == portion || after.reason != Reason::Running && done <= portion);
            }
        }
    }
}

/// What is read after a step can be set again, and the search goes on as before.
#[test]
fn a_snapshot_set_again_goes_on_alike() {
    let mut rng = Rng::new(SEED);
    for (item, baselines) in accepted(300) {
        let mut search = Search::begin_on(&item.case, &baselines).expect("accepted");
        for _ in 0..3 {
            search.step(rng.below(9));
            let held = search.snapshot();
            assert_eq!(domain::record(&item.case, &held), Ok(()));
            let mut other = Search::set_on(&item.case, &baselines, &held).expect("accepted");
            assert_eq!(other.snapshot(), held);
            let mut on = Search::set_on(&item.case, &baselines, &held).expect("accepted");
            on.step(5);
            other.step(2);
            other.step(3);
            assert_eq!(on.snapshot(), other.snapshot());
        }
    }
}

/// A wall, by the words of docs/RULES.md, 3.6, alone: chains are looked for by spreading from the start.
fn is_wall(case: &Case, baselines: &Baselines, set: &[u32]) -> bool {
    let within = |set: &[u32]| {
        set.iter().all(|&member| {
            let others: Vec<u32> = set
                .iter()
                .copied()
                .filter(|&other| other != member)
                .collect();
            domain::may_join(case, &others, member)
        })
    };
    let joined = |mover: Mover, set: &[u32]| {
        let open = open_centres(case, baselines, mover, set);
        let (start, end) = (centre(case, case.start), centre(case, case.end));
        (
            open[start] && open[end],
            open[start] && open[end] && spread(case, &open, start)[end],
        )
    };
    let lifted = |lift: &u32| -> Vec<u32> {
        set.iter()
            .copied()
            .filter(|member| member != lift)
            .collect()
    };
    within(set)
        && joined(Mover::Block, set) == (true, false)
        && set
            .iter()
            .all(|member| joined(Mover::Block, &lifted(member)).1)
        && (case.allow.is_none() || joined(Mover::Allow, set).1)
}

fn centre(case: &Case, (x, y): (u32, u32)) -> usize {
    let row = y as usize - case.window.top as usize;
    row * case.window.width() as usize + x as usize - case.window.left as usize
}

fn open_centres(case: &Case, baselines: &Baselines, mover: Mover, set: &[u32]) -> Vec<bool> {
    let bounds = case.bounds(mover).expect("a mover");
    let baseline = match mover {
        Mover::Block => &baselines.block,
        Mover::Allow => baselines.allow.as_ref().expect("a baseline"),
    };
    let keeps_off = |rect: Rect, x: i64, y: i64| {
        (i64::from(rect.left) - i64::from(bounds.right)
            ..i64::from(rect.right) + i64::from(bounds.left))
            .contains(&x)
            && (i64::from(rect.top) - i64::from(bounds.bottom)
                ..i64::from(rect.bottom) + i64::from(bounds.top))
                .contains(&y)
    };
    (0..case.centres())
        .map(|number| {
            let x = i64::from(case.window.left) + number as i64 % case.window.width();
            let y = i64::from(case.window.top) + number as i64 / case.window.width();
            let covered =
                |&member: &u32| keeps_off(case.placements[member as usize].collision, x, y);
            !baseline[number] && !set.iter().any(covered)
        })
        .collect()
}

fn spread(case: &Case, open: &[bool], start: usize) -> Vec<bool> {
    let (width, height) = (case.window.width(), case.window.height());
    let at = |x: i64, y: i64| {
        (0..width).contains(&x) && (0..height).contains(&y) && open[(y * width + x) as usize]
    };
    let mut reached = vec![false; open.len()];
    reached[start] = true;
    let mut left = vec![start as i64];
    while let Some(from) = left.pop() {
        let (x, y) = (from % width, from / width);
        for (dx, dy) in (-1..=1).flat_map(|dx| (-1..=1).map(move |dy| (dx, dy))) {
            let next = (y + dy) * width + x + dx;
            if at(x + dx, y + dy) && at(x + dx, y) && at(x, y + dy) && !reached[next as usize] {
                reached[next as usize] = true;
                left.push(next);
            }
        }
    }
    reached
}

#[test]
fn an_exhausted_search_lists_exactly_the_walls() {
    let (mut searches, mut walls) = (0, 0);
    for (item, baselines) in accepted(400) {
        let case = Case {
            states: 20_000,
            results: 32,
            ..item.case
        };
        if case.placements.len() > 9 {
            continue;
        }
        let mut search = Search::begin_on(&case, &baselines).expect("accepted");
        search.step(case.states);
        let held = search.snapshot();
        if held.reason != Reason::Exhausted {
            continue;
        }
        let subsets = (0_u32..1 << case.placements.len()).map(|bits| -> Vec<u32> {
            (0..case.placements.len() as u32)
                .filter(|member| bits >> member & 1 == 1)
                .collect()
        });
        let mut expected: Vec<Vec<u32>> = subsets
            .filter(|set| set.len() <= 6 && is_wall(&case, &baselines, set))
            .collect();
        let mut listed: Vec<Vec<u32>> = held.layouts.into_iter().map(|kept| kept.members).collect();
        expected.sort();
        listed.sort();
        assert_eq!(listed, expected);
        searches += 1;
        walls += listed.len();
    }
    assert!(
        searches > 200 && walls > 200,
        "{searches} searches, {walls} walls"
    );
}

/// What `WallSearch::new` sets up runs like the same values set by the probe.
#[test]
fn set_by_the_probe_or_by_new_runs_alike() {
    let spec = |width_tiles, height_tiles, extent| BuildingSpec {
        footprint: DepotFootprint {
            width_tiles,
            height_tiles,
        },
        collision: CollisionBounds {
            left: extent,
            top: extent,
            right: extent,
            bottom: extent,
        },
    };
    let buildings = vec![
        spec(1, 1, 14),
        spec(1, 1, 14),
        spec(2, 1, 15),
        spec(1, 1, 14),
    ];
    let mut case = Case {
        map: (20, 16),
        cells: (0..20 * 16)
            .map(|i| u8::from(!(8..12).contains(&(i % 20)) || i / 20 >= 4))
            .collect(),
        obstacles: vec![Rect::new(64, 112, 96, 128)],
        window: Rect::new(0, 0, 160, 128),
        start: (20, 60),
        end: (140, 60),
        block: Bounds::new(8, 8, 8, 8),
        allow: Some(Bounds::new(0, 0, 0, 0)),
        states: 300,
        results: 8,
        groups: Vec::new(),
        placements: Vec::new(),
    };
    let query = WallSearchQuery {
        window: probe::rect(case.window),
        placement_area: probe::rect(case.window),
        placement_elevation: None,
        placement_site: None,
        start: probe::position(case.start),
        end: probe::position(case.end),
        block: probe::bounds(case.block),
        allow: case.allow.map(probe::bounds),
        buildings,
        max_states: case.states,
        max_results: case.results as usize,
    };
    let obstacles: Vec<_> = case.obstacles.iter().copied().map(probe::rect).collect();
    let mut made = WallSearch::new(&probe::terrain(&case), &obstacles, query).expect("a query");
    (case.placements, case.groups) = probe::enumerated(&made);
    assert_eq!(case.groups, [3, 1]);
    let mut search = Search::begin(&case).expect("accepted");
    let mut walls = 0;
    for portion in [1, 2, 7, 40, 250] {
        made.step(portion);
        search.step(portion);
        let (new, set) = (made.result(), search.original().result());
        assert_eq!(
            (new.reason, new.explored_states),
            (set.reason, set.explored_states)
        );
        assert_eq!(new.candidate_placements, set.candidate_placements);
        assert_eq!(new.layouts.len(), set.layouts.len());
        for (a, b) in new.layouts.iter().zip(&set.layouts) {
            assert_eq!(a.allow_route, b.allow_route);
            let tiles = |layout: &judge::walls::search::WallLayout| -> Vec<_> {
                layout
                    .buildings
                    .iter()
                    .map(|one| (one.spec_index, one.building.tile))
                    .collect()
            };
            assert_eq!(tiles(a), tiles(b));
        }
        assert_eq!(probe::visited(&made), probe::visited(search.original()));
        walls = set.layouts.len();
    }
    assert!(walls > 0);
}

/// Kept routes leave just enough room for the next one, or one point too little: then the search
/// stops and the set is not listed.
#[test]
fn a_route_too_long_to_keep_stops_the_search() {
    let case = Case {
        map: (23, 23),
        cells: vec![1; 23 * 23],
        obstacles: vec![Rect::new(90, 2, 91, 184)],
        window: Rect::new(0, 0, 184, 184),
        start: (0, 1),
        end: (183, 1),
        block: Bounds::new(0, 1, 0, 0),
        allow: Some(Bounds::new(0, 0, 0, 0)),
        groups: vec![1],
        placements: vec![Placement::plain(Rect::new(90, 0, 91, 1))],
        ..judge::directed::p()
    };
    let baselines = Baselines::prepare(&case).expect("prepared");
    for (spare, reason, listed) in [(0, Reason::Exhausted, 31), (1, Reason::ResultLimit, 30)] {
        let last = domain::MAX_POINTS - 29 * case.centres() - 184 + spare;
        let mut held = Snapshot::begun(1);
        held.layouts = [[case.centres(); 29].as_slice(), &[last]]
            .concat()
            .into_iter()
            .map(|length| Layout {
                members: vec![0],
                route: vec![(0, 0); length],
            })
            .collect();
        let mut search = Search::set_on(&case, &baselines, &held).expect("accepted");
        search.step(9);
        let after = search.snapshot();
        assert_eq!((after.reason, after.evaluations), (reason, 2));
        assert_eq!(after.layouts.len(), listed);
    }
}

/// Step looks for no route before it runs: over closed ground it lists the empty set.
#[test]
fn closed_ground_lists_the_empty_set() {
    let case = judge::directed::p();
    let mut baselines = Baselines::prepare(&case).expect("prepared");
    for row in 0..3 {
        baselines.block[row * 5 + 2] = true;
    }
    assert_eq!(Search::begin_on(&case, &baselines).err(), Some(9));
    let mut search = Search::set_on(&case, &baselines, &Snapshot::begun(3)).expect("accepted");
    search.step(1);
    let held = search.snapshot();
    assert_eq!((held.reason, held.evaluations), (Reason::Exhausted, 1));
    assert_eq!(
        held.layouts,
        [Layout {
            members: vec![],
            route: vec![]
        }]
    );
}

/// Centres past 65,535 are told apart, and an axis may be longer than 1,024.
#[test]
fn large_windows_run() {
    for (width, height) in [(300, 260), (2_048, 40), (40, 2_048)] {
        let map = (width as u32 / 8 + 1, height as u32 / 8 + 1);
        let middle = width / 2;
        let case = Case {
            map,
            cells: vec![1; (map.0 * map.1) as usize],
            window: Rect::new(0, 0, width, height),
            start: (0, height as u32 - 1),
            end: (width as u32 - 1, height as u32 - 1),
            placements: vec![
                Placement::plain(Rect::new(middle, 0, middle + 1, height - 2)),
                Placement::plain(Rect::new(middle, height - 2, middle + 1, height)),
            ],
            ..judge::directed::p()
        };
        let mut search = Search::begin(&case).expect("accepted");
        search.step(100);
        let held = search.snapshot();
        assert_eq!((held.reason, held.layouts.len()), (Reason::Exhausted, 1));
        assert_eq!(held.layouts[0].members, [0, 1]);
    }
}
