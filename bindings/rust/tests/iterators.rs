//! The iterators over layouts, members and routes: their lengths, both directions, and what they borrow.

use hitrovzen::{Bounds, Limits, Map, Placement, Plan, Planner, Position, Rect, Search};

/// A column with a pixel left open below it, or above it. The mover of three pixels is kept out, the one of a pixel passes.
fn plan() -> Plan {
    let mut plan = Plan::new(
        Map::open(1, 1),
        Rect::new(0, 0, 7, 6),
        Position::new(1, 2),
        Position::new(5, 2),
        Bounds::new(1, 1, 1, 1),
    );
    plan.allow = Some(Bounds::default());
    plan.groups = vec![2];
    plan.placements = [(0, 5), (1, 6), (0, 2), (3, 6)]
        .map(|(top, bottom)| Placement::solid(0, Rect::new(3, top, 4, bottom)))
        .to_vec();
    plan
}

#[test]
fn layouts_members_and_routes() {
    let planner = Planner::new(plan()).unwrap();
    let mut search = planner.search(Limits::WIDEST).unwrap();
    assert_eq!(search.layouts().len(), 0);
    search.run().unwrap();

    let walls: Vec<_> = search.layouts().map(|layout| layout.indexes()).collect();
    assert_eq!(walls, [&[0][..], &[1], &[2, 3]]);
    let backwards: Vec<_> = search.layouts().rev().map(|l| l.number()).collect();
    assert_eq!(backwards, [2, 1, 0]);
    assert_eq!(search.layouts().len(), 3);
    assert_eq!(search.layouts().nth(3).map(|layout| layout.number()), None);

    for layout in search.layouts() {
        let placements = &planner.plan().placements;
        let named = layout
            .indexes()
            .iter()
            .map(|i| &placements[usize::from(*i)]);
        assert!(layout.members().eq(named.clone()));
        assert!(layout.members().rev().eq(named.rev()));
        assert_eq!(layout.members().len(), layout.indexes().len());

        let route = layout.route().unwrap();
        let points: Vec<Position> = route.clone().collect();
        assert_eq!(points.len(), route.len());
        assert_eq!(points.first(), Some(&Position::new(1, 2)));
        assert_eq!(points.last(), Some(&Position::new(5, 2)));
        let mut back: Vec<Position> = route.rev().collect();
        back.reverse();
        assert_eq!(points, back);
        let kept_off = |p: &Position| {
            layout.members().any(|member| {
                let r = member.collision;
                let (x, y) = (p.x as i32, p.y as i32);
                r.left <= x && x < r.right && r.top <= y && y < r.bottom
            })
        };
        assert!(!points.iter().any(kept_off));
        assert_eq!(
            search.route(layout.number()).unwrap().collect::<Vec<_>>(),
            points
        );
    }
}

#[test]
fn without_an_allowed_mover_routes_are_empty() {
    let mut plan = plan();
    plan.allow = None;
    let planner = Planner::new(plan).unwrap();
    let mut search = planner.search(Limits::WIDEST).unwrap();
    search.run().unwrap();
    assert_eq!(search.layouts().len(), 3);
    for layout in search.layouts() {
        assert_eq!(layout.route().unwrap().next(), None);
    }
}

/// A search is a value: a copy goes its own way, and searches of one planner may run in threads of their own.
#[test]
fn searches_stand_side_by_side() {
    let planner = Planner::new(plan()).unwrap();
    let mut first = planner.search(Limits::WIDEST).unwrap();
    first.step(1).unwrap();
    let kept = first.clone();
    first.run().unwrap();
    assert_eq!((kept.evaluations(), kept.layouts().len()), (1, 0));

    let walls = |mut search: Search<'_>| -> Vec<Vec<u16>> {
        search.run().unwrap();
        let layouts = search.layouts();
        layouts.map(|layout| layout.indexes().to_vec()).collect()
    };
    let listed = walls(kept);
    std::thread::scope(|scope| {
        for _ in 0..2 {
            scope.spawn(|| assert_eq!(walls(planner.search(Limits::WIDEST).unwrap()), listed));
        }
    });
}
