//! Each refusal: its number, its sentence, and the case that draws it. The order is the library's.

use hitrovzen::{
    Bounds, Kind, Limits, Map, Mover, Placement, Plan, Planner, Position, Rect, Refusal,
    ORIGINAL_STEPS,
};

const LIMITS: Limits = Limits {
    states: 100,
    results: 32,
};

fn plan() -> Plan {
    let mut plan = Plan::new(
        Map::open(1, 1),
        Rect::new(0, 0, 5, 3),
        Position::new(0, 1),
        Position::new(4, 1),
        Bounds::default(),
    );
    plan.groups = vec![2];
    plan.placements = vec![Placement::solid(0, Rect::new(2, 0, 3, 3))];
    plan
}

/// The refusal of a planner over the plan with one alteration.
fn prepared(alter: impl FnOnce(&mut Plan)) -> Refusal {
    let mut plan = plan();
    alter(&mut plan);
    Planner::new(plan).unwrap_err()
}

/// The refusal of a search and of a judgement over it, which must be the same.
fn begun(alter: impl FnOnce(&mut Plan)) -> Refusal {
    let mut plan = plan();
    alter(&mut plan);
    let planner = Planner::new(plan).unwrap();
    let refusal = planner.search(LIMITS).unwrap_err();
    assert_eq!(planner.judge(&[]), Err(refusal));
    refusal
}

fn limited(states: u32, results: u32) -> Result<(), u32> {
    let planner = Planner::new(plan()).unwrap();
    let search = planner.search(Limits { states, results });
    search.map(|_| ()).map_err(|refusal| refusal.number())
}

#[test]
fn map() {
    let refusal = prepared(|plan| plan.map = Map::open(0, 1));
    assert_eq!((refusal.kind(), refusal.number()), (Kind::MapInvalid, 1));
    assert_eq!(refusal.mover(), Some(Mover::Block));
    assert!(refusal
        .sentence()
        .starts_with("The map is not 1 to 1,024 cells each way"));
    for map in [
        Map::open(1_025, 1),
        Map::open(u32::MAX, u32::MAX),
        Map::new(1, 1, vec![]),
        Map::new(1, 1, vec![1, 1]),
        Map::new(1, 1, vec![2]),
        Map::new(u32::MAX, u32::MAX, vec![1]),
        Map::drawn(&[]),
        Map::drawn(&["x"]),
        Map::drawn(&["..", "."]),
    ] {
        assert_eq!(prepared(|plan| plan.map = map).number(), 1);
    }
}

#[test]
fn window() {
    for window in [
        Rect::new(0, 0, 0, 3),
        Rect::new(5, 0, 0, 3),
        Rect::new(-1, 0, 5, 3),
        Rect::new(0, -1, 5, 3),
        Rect::new(0, 0, 9, 3),
        Rect::new(0, 0, 5, 9),
        Rect::new(i32::MIN, i32::MIN, i32::MAX, i32::MAX),
        Rect::new(i32::MAX, i32::MAX, i32::MIN, i32::MIN),
        Rect::new(0, 0, i32::MAX, i32::MAX),
        Rect::new(i32::MAX - 1, i32::MAX - 1, i32::MAX, i32::MAX),
    ] {
        let refusal = prepared(|plan| plan.window = window);
        assert_eq!((refusal.kind(), refusal.number()), (Kind::WindowInvalid, 2));
        assert!(refusal.sentence().starts_with("The window is empty"));
    }
}

#[test]
fn ends() {
    for end in [
        Position::new(5, 1),
        Position::new(4, 3),
        Position::new(u32::MAX, u32::MAX),
    ] {
        let refusal = prepared(|plan| plan.end = end);
        assert_eq!((refusal.kind(), refusal.number()), (Kind::EndOutside, 3));
        assert_eq!(refusal, prepared(|plan| plan.start = end));
        assert_eq!(
            refusal.sentence(),
            "The start or the end lies outside the window."
        );
    }
}

#[test]
fn bounds() {
    let refusal = prepared(|plan| plan.block.left = 257);
    assert_eq!((refusal.kind(), refusal.number()), (Kind::BoundTooLarge, 4));
    assert_eq!(refusal.mover(), Some(Mover::Block));
    assert_eq!(refusal.sentence(), "A mover's bound is above 256.");
    let refusal = prepared(|plan| plan.allow = Some(Bounds::new(0, 0, 0, u32::MAX)));
    assert_eq!((refusal.mover(), refusal.number()), (Some(Mover::Allow), 4));
}

#[test]
fn obstacles() {
    let aside = Rect::new(6, 6, 7, 7);
    let refusal = prepared(|plan| plan.map.obstacles = vec![aside; 4_097]);
    assert_eq!(
        (refusal.kind(), refusal.number()),
        (Kind::ObstacleInvalid, 5)
    );
    assert!(refusal
        .sentence()
        .starts_with("There are more than 4,096 obstacles"));
    let empty = Rect::new(6, 6, 6, 7);
    assert_eq!(
        prepared(|plan| plan.map.obstacles = vec![aside, empty]),
        refusal
    );
    let mut most = plan();
    most.map.obstacles = vec![aside; 4_096];
    assert!(Planner::new(most).is_ok());
}

#[test]
fn movers_that_cannot_pass() {
    let refusal = prepared(|plan| plan.map.obstacles = vec![Rect::new(0, 1, 1, 2)]);
    assert_eq!((refusal.kind(), refusal.number()), (Kind::StartBlocked, 7));
    assert_eq!(
        refusal.to_string(),
        "refused with 7: The start is closed to the mover. It is the blocked mover."
    );
    let refusal = prepared(|plan| plan.map.obstacles = vec![Rect::new(4, 1, 5, 2)]);
    assert_eq!((refusal.kind(), refusal.number()), (Kind::EndBlocked, 8));
    assert_eq!(refusal.sentence(), "The end is closed to the mover.");
    let refusal = prepared(|plan| plan.map.obstacles = vec![Rect::new(1, 0, 2, 8)]);
    assert_eq!((refusal.kind(), refusal.number()), (Kind::NoRoute, 9));
    assert_eq!(
        refusal.sentence(),
        "The mover has no route from start to end."
    );
    let refusal = prepared(|plan| plan.allow = Some(Bounds::new(1, 0, 0, 0)));
    assert_eq!((refusal.mover(), refusal.number()), (Some(Mover::Allow), 7));
    assert!(refusal.to_string().ends_with("It is the allowed mover."));
}

#[test]
fn groups() {
    for groups in [vec![0], vec![7], vec![3, 4], vec![1; 7], vec![u32::MAX; 2]] {
        let refusal = begun(|plan| plan.groups = groups);
        assert_eq!(
            (refusal.kind(), refusal.number()),
            (Kind::GroupsInvalid, 10)
        );
        assert!(refusal
            .sentence()
            .starts_with("There are more than 6 groups"));
    }
}

#[test]
fn limits() {
    for states in [0, 100_001, u32::MAX] {
        assert_eq!(limited(states, 32), Err(11));
        assert_eq!(limited(states, 0), Err(11));
    }
    for results in [0, 33, u32::MAX] {
        assert_eq!(limited(100, results), Err(12));
    }
    assert_eq!(limited(1, 1), Ok(()));
    assert_eq!(limited(100_000, 32), Ok(()));
    let planner = Planner::new(plan()).unwrap();
    let sentence = |states, results| {
        let refusal = planner.search(Limits { states, results }).unwrap_err();
        refusal.sentence()
    };
    assert_eq!(sentence(0, 1), "The state limit is not 1 to 100,000.");
    assert_eq!(sentence(1, 0), "The result limit is not 1 to 32.");
}

#[test]
fn too_many_placements() {
    let refusal = begun(|plan| plan.placements = vec![plan.placements[0]; 6_145]);
    assert_eq!(
        (refusal.kind(), refusal.number()),
        (Kind::TooManyPlacements, 14)
    );
    assert_eq!(refusal.sentence(), "There are more than 6,144 placements.");
    assert_eq!(refusal.index(), None);
}

#[test]
fn placement() {
    let good = plan().placements[0];
    let beyond = Rect::new(2, 0, 3, 4);
    let empty = Rect::new(2, 0, 2, 3);
    for bad in [
        Placement { spec: 6, ..good },
        Placement { group: 1, ..good },
        Placement {
            footprint: empty,
            ..good
        },
        Placement {
            collision: empty,
            ..good
        },
        Placement {
            footprint: beyond,
            ..good
        },
    ] {
        let refusal = begun(|plan| plan.placements = vec![good, good, bad, bad]);
        assert_eq!(
            (refusal.kind(), refusal.number()),
            (Kind::PlacementInvalid, 15)
        );
        assert_eq!(refusal.index(), Some(2));
        assert!(refusal
            .sentence()
            .starts_with("A placement has a spec index above 5"));
        assert!(refusal.to_string().ends_with("It is placement 2."));
    }
}

#[test]
fn rectangles_that_are_empty() {
    let mut planner = Planner::new(plan()).unwrap();
    for building in [
        Rect::new(2, 0, 2, 3),
        Rect::new(2, 1, 3, 1),
        Rect::new(3, 0, 2, 3),
        Rect::new(2, 3, 3, 0),
        Rect::new(i32::MAX, i32::MAX, i32::MIN, i32::MIN),
    ] {
        let refusal = planner.cover(building).unwrap_err();
        assert_eq!(planner.lift(building), Err(refusal));
        assert_eq!(
            (refusal.kind(), refusal.number()),
            (Kind::PlacementInvalid, 15)
        );
        assert_eq!(refusal.index(), None);
        assert!(refusal
            .to_string()
            .contains("or the rectangle to cover or lift is empty;"));
    }
    assert_eq!(planner.baseline(Mover::Block), [0; 15]);
}

#[test]
fn steps() {
    let refusal = prepared(|plan| plan.steps[0] = (2, 0));
    assert_eq!((refusal.kind(), refusal.number()), (Kind::StepsInvalid, 19));
    assert_eq!(
        refusal.to_string(),
        "refused with 19: The table of steps is not 16 numbers, or does not hold each of the eight steps exactly once."
    );
    assert_eq!(
        (refusal.index(), refusal.mover()),
        (None, Some(Mover::Block))
    );
    for no_step in [
        (0, 0),
        (-2, 0),
        (0, 2),
        (2, 1),
        (1, -2),
        (i32::MIN, i32::MIN),
        (i32::MAX, i32::MAX),
    ] {
        for at in 0..8 {
            assert_eq!(prepared(|plan| plan.steps[at] = no_step), refusal);
        }
    }
    // one of the eight twice, another not at all
    for (at, own) in ORIGINAL_STEPS.into_iter().enumerate() {
        for other in ORIGINAL_STEPS.into_iter().filter(|step| *step != own) {
            assert_eq!(prepared(|plan| plan.steps[at] = other), refusal);
        }
    }
    for step in ORIGINAL_STEPS {
        assert_eq!(prepared(|plan| plan.steps = [step; 8]), refusal);
    }
}

#[test]
fn counts() {
    let mut planner = Planner::new(plan()).unwrap();
    let post = Rect::new(2, 1, 4, 3);
    let refusal = planner.lift(post).unwrap_err();
    assert_eq!(
        (refusal.kind(), refusal.number()),
        (Kind::CountOutOfRange, 20)
    );
    assert_eq!(
        refusal.to_string(),
        "refused with 20: A cover would take a count above 255, or a lift one below zero. It is a count of the blocked mover."
    );
    assert_eq!(
        (refusal.index(), refusal.mover()),
        (None, Some(Mover::Block))
    );
    assert_eq!(planner.baseline(Mover::Block), [0; 15]);

    // the last centre alone is ahead, so that every other one would be written before it
    planner.cover(Rect::new(3, 2, 4, 3)).unwrap();
    for _ in 0..254 {
        planner.cover(post).unwrap();
    }
    let before = planner.baseline(Mover::Block).to_vec();
    assert_eq!((before[7], before[13]), (254, 255));
    assert_eq!(planner.cover(post), Err(refusal));
    assert_eq!(planner.baseline(Mover::Block), before);
    planner.lift(Rect::new(3, 2, 4, 3)).unwrap();
    assert_eq!(planner.cover(post), Ok(()));
    assert_eq!(planner.cover(post), Err(refusal));

    // and now alone behind
    planner.lift(Rect::new(3, 2, 4, 3)).unwrap();
    for _ in 0..254 {
        planner.lift(post).unwrap();
    }
    let before = planner.baseline(Mover::Block).to_vec();
    assert_eq!((before[7], before[13]), (1, 0));
    assert_eq!(planner.lift(post), Err(refusal));
    assert_eq!(planner.baseline(Mover::Block), before);
}

#[test]
fn no_layout_and_no_selection() {
    let planner = Planner::new(plan()).unwrap();
    let mut search = planner.search(LIMITS).unwrap();
    assert_eq!(search.route(0).unwrap_err().number(), 17);
    search.run().unwrap();
    assert_eq!(search.layouts().len(), 1);
    assert!(search.route(0).is_ok());
    for number in [1, 32, u32::MAX] {
        let refusal = search.route(number).unwrap_err();
        assert_eq!(
            (refusal.kind(), refusal.number()),
            (Kind::SelectionInvalid, 17)
        );
        assert!(refusal.sentence().starts_with("No layout has this number"));
    }
    for selection in [&[1][..], &[0, 0], &[u16::MAX], &[0; 7], &[0; 70_000]] {
        assert_eq!(planner.judge(selection).unwrap_err().number(), 17);
    }
}

/// Also where several things are wrong at once, the order is that of docs/RULES.md, 8.1.
#[test]
fn the_first_of_several() {
    let all = |plan: &mut Plan| {
        plan.map.cells[0] = 2;
        plan.window = Rect::new(0, 0, 9, 9);
        plan.end = Position::new(9, 9);
        plan.block.top = 257;
        plan.groups = vec![0];
    };
    assert_eq!(prepared(all).number(), 1);
    let refusal = prepared(|plan| {
        all(plan);
        plan.map.across = 0;
        plan.map.obstacles = vec![Rect::new(6, 6, 6, 6)];
        plan.placements[0].spec = 6;
        plan.steps[7] = plan.steps[0];
    });
    assert_eq!(refusal.number(), 19);
    let mut most = plan();
    most.groups = vec![0];
    most.placements[0].spec = 6;
    let planner = Planner::new(most).unwrap();
    let none = Limits {
        states: 0,
        results: 0,
    };
    assert_eq!(planner.search(none).unwrap_err().number(), 10);
}
