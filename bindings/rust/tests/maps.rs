//! The two example maps: their walls are those that the examples tell of, in portions too, and the same from end to start and with
//! another order of steps.

use std::collections::BTreeSet;

use hitrovzen::{Limits, Plan, Planner, Reason, Search, Verdict};

#[allow(dead_code)]
#[path = "../examples/broad_valley.rs"]
mod broad_valley;
#[allow(dead_code)]
#[path = "../examples/narrow_ramp.rs"]
mod narrow_ramp;

type Walls = Vec<Vec<u16>>;

fn walls(search: &Search<'_>) -> Walls {
    search
        .layouts()
        .map(|layout| layout.indexes().to_vec())
        .collect()
}

/// The walls of an exhausted search, each of which the planner also judges to be one.
fn all(plan: Plan) -> Walls {
    let planner = Planner::new(plan).unwrap();
    let mut search = planner.search(Limits::WIDEST).unwrap();
    assert_eq!(search.run(), Ok(Reason::Exhausted));
    for wall in walls(&search) {
        assert_eq!(planner.judge(&wall).unwrap().verdict, Verdict::Wall);
    }
    walls(&search)
}

/// The plan from end to start.
fn back(plan: &Plan) -> Plan {
    let back = plan.clone().reversed();
    assert_ne!(plan.start, plan.end);
    assert_eq!((back.start, back.end), (plan.end, plan.start));
    back
}

/// Every set of at most two placements that the planner judges to be a wall.
fn judged(plan: Plan) -> BTreeSet<Vec<u16>> {
    let count = plan.placements.len() as u16;
    let planner = Planner::new(plan).unwrap();
    let pairs = (0..count).flat_map(|a| (a + 1..count).map(move |b| vec![a, b]));
    let sets = (0..count).map(|a| vec![a]).chain(pairs);
    sets.filter(|set| planner.judge(set).unwrap().verdict == Verdict::Wall)
        .collect()
}

fn sorted(walls: Walls) -> BTreeSet<Vec<u16>> {
    let count = walls.len();
    let set: BTreeSet<_> = walls.into_iter().collect();
    assert_eq!(set.len(), count, "none is listed twice");
    set
}

#[test]
fn the_narrow_ramp_has_four_walls_of_two_buildings() {
    let plan = narrow_ramp::plan();
    assert_eq!((plan.window.right, plan.window.bottom), (240, 200));
    let listed = sorted(all(plan.clone()));
    assert_eq!(listed.len(), 4);
    assert!(listed.iter().all(|wall| wall.len() == 2));
    assert_eq!(listed, sorted(all(back(&plan))));
    assert_eq!(listed, judged(plan));
}

#[test]
fn the_broad_valley_has_walls_on_both_sides_of_65535() {
    let plan = broad_valley::plan();
    assert_eq!((plan.window.right, plan.window.bottom), (300, 260));
    let listed = sorted(all(plan.clone()));
    let within = |wall: &&Vec<u16>, low: i32, high: i32| {
        wall.iter().all(|member| {
            let building = &plan.placements[usize::from(*member)];
            let (first, last) = broad_valley::centres(&plan, building);
            low <= first && last <= high
        })
    };
    let north = listed.iter().filter(|wall| within(wall, 0, 65_535));
    let south = listed.iter().filter(|wall| within(wall, 65_536, 77_999));
    assert_eq!((north.count(), south.count(), listed.len()), (2, 1, 3));
    assert_eq!(listed, sorted(all(back(&plan))));
    assert_eq!(listed, judged(plan));
}

/// The diagonal steps before the straight ones, from end to start too, and that order reversed.
#[test]
fn another_order_of_steps_has_the_same_walls() {
    for plan in [narrow_ramp::plan(), broad_valley::plan()] {
        let listed = sorted(all(plan.clone()));
        let mut other = plan;
        other.steps.rotate_left(4);
        assert_eq!(other.steps[..4], [(1, 1), (-1, 1), (-1, -1), (1, -1)]);
        assert_eq!(listed, sorted(all(other.clone())));
        assert_eq!(listed, sorted(all(back(&other))));
        other.steps.reverse();
        assert_eq!(listed, sorted(all(other)));
    }
}

/// Each route leads from start to end over neighbouring centres, by both gaps.
#[test]
fn the_allowed_mover_passes_the_walls_of_the_valley() {
    let plan = broad_valley::plan();
    let planner = Planner::new(plan).unwrap();
    let mut search = planner.search(Limits::WIDEST).unwrap();
    search.run().unwrap();
    for layout in search.layouts() {
        let points: Vec<_> = layout.route().unwrap().collect();
        assert_eq!(points.first(), Some(&planner.plan().start));
        assert_eq!(points.last(), Some(&planner.plan().end));
        let near = |a: u32, b: u32| a.abs_diff(b) <= 1;
        assert!(points
            .windows(2)
            .all(|two| near(two[0].x, two[1].x) && near(two[0].y, two[1].y)));
        assert!(points.iter().any(|p| p.y < 64), "by the northern gap");
        assert!(points.iter().any(|p| p.y >= 224), "by the southern gap");
    }
}

#[test]
fn portions_leave_what_one_step_leaves() {
    for plan in [narrow_ramp::plan(), broad_valley::plan()] {
        let planner = Planner::new(plan).unwrap();
        let mut whole = planner.search(Limits::WIDEST).unwrap();
        let mut ones = planner.search(Limits::WIDEST).unwrap();
        whole.run().unwrap();
        while ones.step(1).unwrap() == Reason::Running {
            let before = ones.evaluations();
            ones.step(0).unwrap();
            assert_eq!(ones.evaluations(), before);
            assert!(walls(&whole).starts_with(&walls(&ones)));
        }
        assert_eq!(ones.reason(), whole.reason());
        assert_eq!(ones.evaluations(), whole.evaluations());
        assert_eq!(walls(&ones), walls(&whole));
        for (one, other) in ones.layouts().zip(whole.layouts()) {
            assert!(one.route().unwrap().eq(other.route().unwrap()));
        }
        // a stopped search stays as it is
        assert_eq!(ones.step(u32::MAX), Ok(whole.reason()));
        assert_eq!(walls(&ones), walls(&whole));
    }
}
