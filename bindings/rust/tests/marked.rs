//! The marked cases (docs/RULES.md, 9.8): input P and its variants, every figure as the table has it.

use hitrovzen::{
    Bounds, Judgement, Limits, Map, Placement, Plan, Planner, Position, Reason, Rect, Search,
    Verdict,
};

const LIMITS: Limits = Limits {
    states: 100,
    results: 32,
};

fn p() -> Plan {
    let mut plan = Plan::new(
        Map::open(1, 1),
        Rect::new(0, 0, 5, 3),
        Position::new(0, 1),
        Position::new(4, 1),
        Bounds::default(),
    );
    plan.groups = vec![2];
    plan.placements = [(0, 3), (0, 2), (2, 3)]
        .map(|(top, bottom)| Placement::solid(0, Rect::new(2, top, 3, bottom)))
        .to_vec();
    plan
}

fn walls(search: &Search<'_>) -> Vec<Vec<u16>> {
    search
        .layouts()
        .map(|layout| layout.indexes().to_vec())
        .collect()
}

/// Runs the plan to its stop and compares reason, evaluations and walls.
fn gives(plan: Plan, limits: Limits, reason: Reason, evaluations: u32, listed: &[&[u16]]) {
    let planner = Planner::new(plan).unwrap();
    let mut search = planner.search(limits).unwrap();
    assert_eq!(
        (search.reason(), search.evaluations()),
        (Reason::Running, 0)
    );
    assert_eq!(search.run(), Ok(reason));
    assert_eq!(search.reason(), reason);
    assert_eq!(search.evaluations(), evaluations);
    assert_eq!(walls(&search), listed);
    // the walls of these cases have no mover to let pass
    for layout in search.layouts() {
        assert_eq!(layout.route().map(|route| route.len()), Ok(0));
    }
}

#[test]
fn p_is_exhausted_after_four() {
    gives(p(), LIMITS, Reason::Exhausted, 4, &[&[0], &[1, 2]]);
}

#[test]
fn p_by_four_is_running_with_both() {
    let planner = Planner::new(p()).unwrap();
    let mut search = planner.search(LIMITS).unwrap();
    assert_eq!(search.step(4), Ok(Reason::Running));
    assert_eq!(search.evaluations(), 4);
    assert_eq!(walls(&search), [vec![0], vec![1, 2]]);
    assert_eq!(search.step(1), Ok(Reason::Exhausted));
    assert_eq!(search.evaluations(), 4);
}

#[test]
fn state_limits() {
    let states = |states| Limits {
        states,
        results: 32,
    };
    gives(p(), states(4), Reason::StateLimit, 4, &[&[0], &[1, 2]]);
    gives(p(), states(3), Reason::StateLimit, 3, &[&[0]]);
}

#[test]
fn result_limits() {
    let results = |results| Limits {
        states: 100,
        results,
    };
    gives(p(), results(1), Reason::ResultLimit, 2, &[&[0]]);
    gives(p(), results(2), Reason::ResultLimit, 4, &[&[0], &[1, 2]]);
}

#[test]
fn one_slot() {
    let mut plan = p();
    plan.groups = vec![1];
    gives(plan, LIMITS, Reason::Exhausted, 3, &[&[0]]);
}

#[test]
fn an_allowed_mover_that_no_wall_lets_pass() {
    let mut plan = p();
    plan.allow = Some(Bounds::default());
    gives(plan, LIMITS, Reason::Exhausted, 4, &[]);
}

#[test]
fn nothing_to_place() {
    let mut plan = p();
    plan.groups.clear();
    plan.placements.clear();
    gives(plan, LIMITS, Reason::Exhausted, 1, &[]);
}

#[test]
fn equal_ends() {
    let mut plan = p();
    plan.end = plan.start;
    gives(plan, LIMITS, Reason::Exhausted, 1, &[]);
}

#[test]
fn judgements() {
    let planner = Planner::new(p()).unwrap();
    let judged = |verdict, ground| Ok(Judgement { verdict, ground });
    assert_eq!(planner.judge(&[]), judged(Verdict::Open, 15));
    assert_eq!(planner.judge(&[0]), judged(Verdict::Wall, 6));
    assert_eq!(planner.judge(&[0, 1]), judged(Verdict::Overlap, 6));
}

#[test]
fn opposite_corners() {
    let mut plan = Plan::new(
        Map::open(1, 1),
        Rect::new(0, 0, 2, 2),
        Position::new(0, 0),
        Position::new(1, 1),
        Bounds::default(),
    );
    plan.groups = vec![2];
    plan.placements = vec![
        Placement::solid(0, Rect::new(1, 0, 2, 1)),
        Placement::solid(0, Rect::new(0, 1, 1, 2)),
    ];
    let planner = Planner::new(plan).unwrap();
    let mut search = planner.search(LIMITS).unwrap();
    assert_eq!(search.step(4), Ok(Reason::Running));
    assert_eq!(search.evaluations(), 4);
    assert_eq!(search.step(1), Ok(Reason::Exhausted));
    assert_eq!(search.evaluations(), 4);
    assert_eq!(walls(&search), [vec![0, 1]]);
}

#[test]
fn the_largest_window() {
    let plan = |bottom| {
        Plan::new(
            Map::open(128, 129),
            Rect::new(0, 0, 1_024, bottom),
            Position::new(0, 0),
            Position::new(1_023, 1_023),
            Bounds::default(),
        )
    };
    gives(plan(1_024), LIMITS, Reason::Exhausted, 1, &[]);
    assert_eq!(Planner::new(plan(1_025)).unwrap_err().number(), 2);
}
