//! The order of steps: which ways it chooses, in which sequence walls are listed, and what is the same with every order.

use std::collections::BTreeSet;

use hitrovzen::{
    Bounds, Limits, Map, Mover, Placement, Plan, Planner, Position, Reason, Rect, Search,
    ORIGINAL_STEPS,
};

const DIAGONALS_FIRST: [(i32, i32); 8] = [
    (1, 1),
    (-1, 1),
    (-1, -1),
    (1, -1),
    (1, 0),
    (0, 1),
    (-1, 0),
    (0, -1),
];

const LIMITS: Limits = Limits {
    states: 100,
    results: 32,
};

/// A column with a pixel left open below it, or above it, or in its midst. The mover of three pixels is kept out, the one of a pixel
/// passes.
fn columns() -> Plan {
    let mut plan = Plan::new(
        Map::open(1, 1),
        Rect::new(0, 0, 7, 6),
        Position::new(1, 2),
        Position::new(5, 2),
        Bounds::new(1, 1, 1, 1),
    );
    plan.allow = Some(Bounds::default());
    plan.groups = vec![2];
    plan.placements = [(0, 5), (1, 6), (0, 2), (3, 6)]
        .map(|(top, bottom)| Placement::solid(0, Rect::new(3, top, 4, bottom)))
        .to_vec();
    plan
}

/// One post closes the fourth column. The other two close the fourth but for its last centre, and the last centre of the third.
fn posts() -> Plan {
    let mut plan = Plan::new(
        Map::open(1, 1),
        Rect::new(0, 0, 5, 3),
        Position::new(0, 1),
        Position::new(4, 2),
        Bounds::default(),
    );
    plan.groups = vec![2];
    plan.placements = [(2, 2, 3), (3, 0, 3), (3, 0, 2)]
        .map(|(x, top, bottom)| Placement::solid(0, Rect::new(x, top, x + 1, bottom)))
        .to_vec();
    plan
}

fn planner(plan: Plan, steps: [(i32, i32); 8]) -> Planner {
    Planner::new(Plan { steps, ..plan }).unwrap()
}

fn walls(search: &Search<'_>) -> Vec<Vec<u16>> {
    search
        .layouts()
        .map(|layout| layout.indexes().to_vec())
        .collect()
}

#[test]
fn a_new_plan_has_the_original_order() {
    assert_eq!(columns().steps, ORIGINAL_STEPS);
    assert_eq!(columns().reversed().steps, ORIGINAL_STEPS);
}

#[test]
fn the_ways_past_the_same_walls() {
    let found = |steps| {
        let planner = planner(columns(), steps);
        let mut search = planner.search(LIMITS).unwrap();
        assert_eq!(search.run(), Ok(Reason::Exhausted));
        assert_eq!(walls(&search), [vec![0], vec![1], vec![2, 3]]);
        let ways = search.layouts().map(|layout| {
            let route = layout.route().unwrap();
            route.map(|point| (point.x, point.y)).collect::<Vec<_>>()
        });
        ways.collect::<Vec<_>>()
    };
    let through = vec![(1, 2), (2, 2), (3, 2), (4, 2), (5, 2)];
    assert_eq!(
        found(ORIGINAL_STEPS),
        [
            vec![
                (1, 2),
                (1, 3),
                (1, 4),
                (2, 5),
                (3, 5),
                (4, 5),
                (4, 4),
                (4, 3),
                (5, 2)
            ],
            vec![(1, 2), (1, 1), (2, 0), (3, 0), (4, 0), (4, 1), (5, 2)],
            through.clone(),
        ]
    );
    assert_eq!(
        found(DIAGONALS_FIRST),
        [
            vec![
                (1, 2),
                (2, 3),
                (1, 4),
                (2, 5),
                (3, 5),
                (4, 5),
                (5, 4),
                (4, 3),
                (5, 2)
            ],
            vec![(1, 2), (2, 1), (2, 0), (3, 0), (4, 0), (5, 1), (5, 2)],
            through,
        ]
    );
}

/// The route that the search tries to cut off is another, and so are the sets that it evaluates.
#[test]
fn the_sequence_of_the_list() {
    let straight = planner(posts(), ORIGINAL_STEPS);
    let mut search = straight.search(LIMITS).unwrap();
    assert_eq!(search.run(), Ok(Reason::Exhausted));
    assert_eq!(walls(&search), [vec![1], vec![0, 2]]);
    assert_eq!(search.evaluations(), 4);

    let diagonal = planner(posts(), DIAGONALS_FIRST);
    let mut search = diagonal.search(LIMITS).unwrap();
    assert_eq!(search.run(), Ok(Reason::Exhausted));
    assert_eq!(walls(&search), [vec![0, 2], vec![1]]);
    assert_eq!(search.evaluations(), 6);

    // a limit meets another wall first
    let one = Limits {
        states: 100,
        results: 1,
    };
    for (planner, first) in [(straight, vec![1]), (diagonal, vec![0, 2])] {
        let mut search = planner.search(one).unwrap();
        assert_eq!(search.run(), Ok(Reason::ResultLimit));
        assert_eq!(walls(&search), [first]);
    }
}

/// Every order of these, each once.
fn orders(steps: &[(i32, i32)]) -> Vec<Vec<(i32, i32)>> {
    if steps.is_empty() {
        return vec![Vec::new()];
    }
    let beginning = |at: usize| {
        let mut others = steps.to_vec();
        let first = others.remove(at);
        orders(&others).into_iter().map(move |mut order| {
            order.push(first);
            order
        })
    };
    (0..steps.len()).flat_map(beginning).collect()
}

/// All 40,320 orders: the same baseline, the same walls, the same judgements. Both sequences of the list are met.
#[test]
fn every_order_is_taken() {
    let selections = [&[][..], &[0], &[1], &[2], &[0, 1], &[0, 2], &[0, 1, 2]];
    let original = planner(posts(), ORIGINAL_STEPS);
    let judged = selections.map(|selection| original.judge(selection).unwrap());
    let mut lists = BTreeSet::new();
    let orders = orders(&ORIGINAL_STEPS);
    assert_eq!(orders.iter().collect::<BTreeSet<_>>().len(), 40_320);
    for order in orders {
        let planner = planner(posts(), order.try_into().unwrap());
        for mover in [Mover::Block, Mover::Allow] {
            assert_eq!(planner.baseline(mover), original.baseline(mover));
        }
        let mut search = planner.search(LIMITS).unwrap();
        assert_eq!(search.run(), Ok(Reason::Exhausted));
        lists.insert(walls(&search));
        let same = selections.map(|selection| planner.judge(selection).unwrap());
        assert_eq!(same, judged, "{:?}", planner.plan().steps);
    }
    let lists: Vec<_> = lists.into_iter().collect();
    assert_eq!(
        lists,
        [vec![vec![0, 2], vec![1]], vec![vec![1], vec![0, 2]]]
    );
}
