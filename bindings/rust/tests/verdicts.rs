//! Each verdict, with the ground left: the centres that the blocked mover can reach from the start.

use hitrovzen::{
    Bounds, Judgement, Map, Placement, Plan, Planner, Position, Rect, Refusal, Verdict,
};

/// Three posts of one group that close the middle column of 5 × 3 centres in two ways, and four of another: on the start, beside the
/// middle column, on the end, and at the lower right corner of post 1.
fn plan() -> Plan {
    let mut plan = Plan::new(
        Map::open(1, 1),
        Rect::new(0, 0, 5, 3),
        Position::new(0, 1),
        Position::new(4, 1),
        Bounds::default(),
    );
    plan.groups = vec![2, 1];
    plan.placements = vec![
        Placement::solid(0, Rect::new(2, 0, 3, 3)),
        Placement::solid(0, Rect::new(2, 0, 3, 2)),
        Placement::solid(0, Rect::new(2, 2, 3, 3)),
        Placement::solid(1, Rect::new(0, 1, 1, 2)),
        Placement::solid(1, Rect::new(3, 0, 4, 3)),
        Placement::solid(1, Rect::new(4, 1, 5, 2)),
        Placement::solid(1, Rect::new(3, 2, 4, 3)),
    ];
    plan
}

fn judged(verdict: Verdict, ground: u32) -> Result<Judgement, Refusal> {
    Ok(Judgement { verdict, ground })
}

#[test]
fn without_an_allowed_mover() {
    let planner = Planner::new(plan()).unwrap();
    assert_eq!(planner.judge(&[0, 1, 2]), judged(Verdict::Slots, 6));
    assert_eq!(planner.judge(&[0, 1]), judged(Verdict::Overlap, 6));
    assert_eq!(planner.judge(&[3]), judged(Verdict::EndCovered, 0));
    assert_eq!(planner.judge(&[1]), judged(Verdict::Open, 13));
    assert_eq!(planner.judge(&[0, 4]), judged(Verdict::Spare, 6));
    assert_eq!(planner.judge(&[0]), judged(Verdict::Wall, 6));
    assert_eq!(planner.judge(&[1, 2]), judged(Verdict::Wall, 6));
}

#[test]
fn with_an_allowed_mover_that_is_shut_out() {
    let mut plan = plan();
    plan.allow = Some(Bounds::default());
    let planner = Planner::new(plan).unwrap();
    assert_eq!(planner.judge(&[0]), judged(Verdict::Shut, 6));
    assert_eq!(planner.judge(&[0, 4]), judged(Verdict::Spare, 6));
}

#[test]
fn a_member_on_the_start_leaves_no_ground() {
    let planner = Planner::new(plan()).unwrap();
    assert_eq!(planner.judge(&[3]), judged(Verdict::EndCovered, 0));
    assert_eq!(planner.judge(&[0, 3]), judged(Verdict::EndCovered, 0));
    assert_eq!(planner.judge(&[0, 1, 3]), judged(Verdict::Overlap, 0));
    assert_eq!(planner.judge(&[3, 4]), judged(Verdict::Slots, 0));
}

/// Judging asks for no route beforehand, so a cover may have closed the start.
#[test]
fn a_cover_on_the_start_leaves_no_ground() {
    let mut planner = Planner::new(plan()).unwrap();
    let rock = Rect::new(0, 1, 1, 2);
    planner.cover(rock).unwrap();
    assert_eq!(planner.judge(&[]), judged(Verdict::EndCovered, 0));
    assert_eq!(planner.judge(&[0]), judged(Verdict::EndCovered, 0));
    assert_eq!(planner.judge(&[0, 1]), judged(Verdict::Overlap, 0));
    assert_eq!(planner.judge(&[0, 1, 2]), judged(Verdict::Slots, 0));
    planner.lift(rock).unwrap();
    assert_eq!(planner.judge(&[]), judged(Verdict::Open, 15));
}

/// The end alone is gone from all of the ground, from what post 1 leaves of it, and from the far side of post 0.
#[test]
fn a_member_on_the_end_leaves_the_ground_of_the_start() {
    let planner = Planner::new(plan()).unwrap();
    assert_eq!(planner.judge(&[5]), judged(Verdict::EndCovered, 14));
    assert_eq!(planner.judge(&[1, 5]), judged(Verdict::EndCovered, 12));
    assert_eq!(planner.judge(&[0, 5]), judged(Verdict::EndCovered, 6));
}

/// Three columns are before post 4 and one is behind it.
#[test]
fn the_ground_is_on_the_side_of_the_start() {
    let there = Planner::new(plan()).unwrap();
    let back = Planner::new(plan().reversed()).unwrap();
    assert_eq!(there.judge(&[4]), judged(Verdict::Wall, 9));
    assert_eq!(back.judge(&[4]), judged(Verdict::Wall, 3));
    assert_eq!(there.judge(&[0, 4]), judged(Verdict::Spare, 6));
    assert_eq!(back.judge(&[0, 4]), judged(Verdict::Spare, 3));
    assert_eq!(there.judge(&[3]), judged(Verdict::EndCovered, 0));
    assert_eq!(back.judge(&[3]), judged(Verdict::EndCovered, 14));
}

#[test]
fn no_step_leads_past_two_corners_that_meet() {
    // . . 1 . .
    // . . 1 . .
    // . . . 6 .
    let there = Planner::new(plan()).unwrap();
    let back = Planner::new(plan().reversed()).unwrap();
    assert_eq!(there.judge(&[1, 6]), judged(Verdict::Wall, 7));
    assert_eq!(back.judge(&[1, 6]), judged(Verdict::Wall, 5));
}

#[test]
fn an_open_centre_that_is_shut_in_is_not_counted() {
    // . 0 . 1 .
    // . . 2 . .
    // . . . . .
    let mut plan = plan();
    plan.groups = vec![3];
    plan.placements = [(1, 0), (3, 0), (2, 1)]
        .map(|(x, y)| Placement::solid(0, Rect::new(x, y, x + 1, y + 1)))
        .to_vec();
    let planner = Planner::new(plan.clone()).unwrap();
    assert_eq!(planner.judge(&[0, 1]), judged(Verdict::Open, 13));
    assert_eq!(planner.judge(&[0, 1, 2]), judged(Verdict::Open, 11));
    plan.start = Position::new(2, 0);
    let within = Planner::new(plan).unwrap();
    assert_eq!(within.judge(&[0, 1]), judged(Verdict::Open, 13));
    assert_eq!(within.judge(&[0, 1, 2]), judged(Verdict::Wall, 1));
}

/// The route is found at once, and the ground beyond it counts all the same.
#[test]
fn equal_ends_have_the_ground_around_them() {
    let mut plan = plan();
    plan.end = plan.start;
    let planner = Planner::new(plan).unwrap();
    assert_eq!(planner.judge(&[]), judged(Verdict::Open, 15));
    assert_eq!(planner.judge(&[0]), judged(Verdict::Open, 6));
    assert_eq!(planner.judge(&[3]), judged(Verdict::EndCovered, 0));
}

#[test]
fn the_largest_window_is_counted_whole() {
    let planner = Planner::new(Plan::new(
        Map::open(128, 128),
        Rect::new(0, 0, 1_024, 1_024),
        Position::new(0, 0),
        Position::new(1_023, 1_023),
        Bounds::default(),
    ));
    let judgement = planner.unwrap().judge(&[]);
    assert_eq!(judgement, judged(Verdict::Open, 1_048_576));
}

#[test]
fn verdicts_are_written_as_the_rules_have_them() {
    let names = [
        (Verdict::Slots, "Slots"),
        (Verdict::EndCovered, "EndCovered"),
        (Verdict::Wall, "Wall"),
    ];
    for (verdict, name) in names {
        assert_eq!(verdict.to_string(), name);
    }
}
