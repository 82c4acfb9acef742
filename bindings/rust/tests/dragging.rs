//! Cover and lift: which counts they alter, for both movers or for neither, and what searches and judgements make of the counts.

use hitrovzen::{
    Bounds, Judgement, Kind, Limits, Map, Mover, Placement, Plan, Planner, Position, Rect, Refusal,
    Verdict,
};

const WINDOW: Rect = Rect::new(2, 1, 11, 8);

/// 9 × 7 centres inside the map, two movers that reach differently far to each side, and two posts that make a wall.
fn plan() -> Plan {
    let mut plan = Plan::new(
        Map::open(2, 2),
        WINDOW,
        Position::new(3, 4),
        Position::new(9, 4),
        Bounds::new(0, 2, 2, 0),
    );
    plan.allow = Some(Bounds::new(1, 0, 0, 1));
    plan.groups = vec![2];
    plan.placements = [(1, 5), (7, 8)]
        .map(|(top, bottom)| Placement::solid(0, Rect::new(6, top, 7, bottom)))
        .to_vec();
    plan
}

fn planner() -> Planner {
    Planner::new(plan()).unwrap()
}

fn counts(planner: &Planner) -> [Vec<u8>; 2] {
    [Mover::Block, Mover::Allow].map(|mover| planner.baseline(mover).to_vec())
}

/// The centres off which the rectangle keeps the mover, each as 1.
fn reached(r: Rect, mover: Bounds) -> Vec<u8> {
    let span = |from: i32, to: i32, before: u32, behind: u32| {
        i64::from(from) - i64::from(before)..i64::from(to) + i64::from(behind)
    };
    let across = span(r.left, r.right, mover.right, mover.left);
    let down = span(r.top, r.bottom, mover.bottom, mover.top);
    (WINDOW.top..WINDOW.bottom)
        .flat_map(|y| (WINDOW.left..WINDOW.right).map(move |x| (i64::from(x), i64::from(y))))
        .map(|(x, y)| u8::from(across.contains(&x) && down.contains(&y)))
        .collect()
}

fn sum(counts: &[u8], more: &[u8]) -> Vec<u8> {
    counts.iter().zip(more).map(|(a, b)| a + b).collect()
}

fn walls(planner: &Planner) -> Result<Vec<Vec<u16>>, Refusal> {
    let mut search = planner.search(Limits::WIDEST)?;
    search.run()?;
    let layouts = search.layouts();
    Ok(layouts.map(|layout| layout.indexes().to_vec()).collect())
}

/// Inside the window, over each of its edges, over all of it, beside it, and at the ends of the numbers.
#[test]
fn a_cover_adds_one_where_the_rectangle_keeps_the_mover_off() {
    let (low, high) = (i32::MIN, i32::MAX);
    let rects = [
        Rect::new(5, 3, 6, 4),
        Rect::new(4, 3, 8, 6),
        Rect::new(0, 0, 4, 3),
        Rect::new(9, 6, 16, 16),
        Rect::new(-9, 4, 99, 5),
        Rect::new(6, -9, 7, 99),
        Rect::new(2, 1, 11, 8),
        Rect::new(1, 3, 2, 4),
        Rect::new(0, 3, 1, 4),
        Rect::new(11, 3, 12, 4),
        Rect::new(13, 3, 14, 4),
        Rect::new(5, 0, 6, 1),
        Rect::new(5, 8, 6, 9),
        Rect::new(500, 500, 600, 600),
        Rect::new(low, low, low + 1, low + 1),
        Rect::new(high - 1, high - 1, high, high),
        Rect::new(low, low, high, high),
    ];
    let movers = [plan().block, plan().allow.unwrap()];
    for rect in rects {
        let mut planner = planner();
        let before = counts(&planner);
        let [block, allow] = movers.map(|mover| reached(rect, mover));
        planner.cover(rect).unwrap();
        let once = [sum(&before[0], &block), sum(&before[1], &allow)];
        assert_eq!(counts(&planner), once, "{rect:?}");
        planner.cover(rect).unwrap();
        let twice = [sum(&once[0], &block), sum(&once[1], &allow)];
        assert_eq!(counts(&planner), twice, "{rect:?}");
        planner.lift(rect).unwrap();
        assert_eq!(counts(&planner), once, "{rect:?}");
        planner.lift(rect).unwrap();
        assert_eq!(counts(&planner), before, "{rect:?}");
    }
}

#[test]
fn several_covers_are_lifted_in_any_order() {
    let rects =
        [(4, 3, 8, 6), (0, 0, 7, 5), (6, 4, 16, 5)].map(|(l, t, r, b)| Rect::new(l, t, r, b));
    for order in [
        [0, 1, 2],
        [0, 2, 1],
        [1, 0, 2],
        [1, 2, 0],
        [2, 0, 1],
        [2, 1, 0],
    ] {
        let mut planner = planner();
        let before = counts(&planner);
        for rect in rects {
            planner.cover(rect).unwrap();
        }
        assert_ne!(counts(&planner), before);
        for i in order {
            planner.lift(rects[i]).unwrap();
        }
        assert_eq!(counts(&planner), before, "{order:?}");
    }
}

#[test]
fn a_baseline_has_a_byte_a_centre() {
    let planner = planner();
    assert_eq!(counts(&planner).map(|counts| counts.len()), [63, 63]);
    let mut plan = plan();
    plan.allow = None;
    let planner = Planner::new(plan).unwrap();
    assert_eq!(counts(&planner).map(|counts| counts.len()), [63, 0]);
}

/// The allowed mover's count at the map's edge is one ahead, so its 255th cover is refused after the blocked mover's is accepted.
#[test]
fn a_cover_is_for_both_movers_or_for_neither() {
    let mut plan = Plan::new(
        Map::open(1, 1),
        Rect::new(0, 0, 5, 3),
        Position::new(0, 2),
        Position::new(4, 2),
        Bounds::default(),
    );
    plan.allow = Some(Bounds::new(0, 1, 0, 0));
    let mut planner = Planner::new(plan).unwrap();
    let post = Rect::new(2, 0, 3, 1);
    for _ in 0..254 {
        planner.cover(post).unwrap();
    }
    let before = counts(&planner);
    assert_eq!(before.each_ref().map(|counts| counts[2]), [254, 255]);
    let refusal = planner.cover(post).unwrap_err();
    assert_eq!(refusal.kind(), Kind::CountOutOfRange);
    assert_eq!(refusal.mover(), Some(Mover::Allow));
    assert_eq!(counts(&planner), before);
    for _ in 0..254 {
        planner.lift(post).unwrap();
    }
    assert_eq!(planner.baseline(Mover::Block), [0; 15]);
}

/// Two posts with a pixel between them, over which the blocked mover's counts close and the allowed mover's do not.
#[test]
fn a_lift_is_for_both_movers_or_for_neither() {
    let mut plan = Plan::new(
        Map::open(1, 1),
        Rect::new(0, 0, 7, 3),
        Position::new(1, 1),
        Position::new(6, 1),
        Bounds::new(1, 0, 0, 0),
    );
    plan.allow = Some(Bounds::default());
    let mut planner = Planner::new(plan).unwrap();
    planner.cover(Rect::new(2, 0, 3, 1)).unwrap();
    planner.cover(Rect::new(4, 0, 5, 1)).unwrap();
    let before = counts(&planner);
    assert_eq!(before[0][..7], [1, 0, 1, 1, 1, 1, 0]);
    assert_eq!(before[1][..7], [0, 0, 1, 0, 1, 0, 0]);
    let refusal = planner.lift(Rect::new(2, 0, 5, 1)).unwrap_err();
    assert_eq!(refusal.kind(), Kind::CountOutOfRange);
    assert_eq!(refusal.mover(), Some(Mover::Allow));
    assert_eq!(counts(&planner), before);
}

/// A rock beside the first post leaves the second nothing to close, however often it is covered.
#[test]
fn counts_above_one_are_searched_and_judged_as_one() {
    let mut planner = planner();
    let rock = Rect::new(4, 7, 6, 8);
    let selections = [&[][..], &[0], &[0, 1]];
    assert_eq!(walls(&planner).unwrap(), [[0, 1]]);
    planner.cover(rock).unwrap();
    assert_eq!(walls(&planner).unwrap(), [[0]]);
    let once = selections.map(|selection| planner.judge(selection));
    for _ in 1..255 {
        planner.cover(rock).unwrap();
    }
    assert_eq!(planner.baseline(Mover::Block).iter().max(), Some(&255));
    assert_eq!(planner.baseline(Mover::Allow).iter().max(), Some(&255));
    assert_eq!(walls(&planner).unwrap(), [[0]]);
    assert_eq!(selections.map(|selection| planner.judge(selection)), once);
}

/// A building on an end, or across the way, is met by the next search, and is gone once it is lifted. The blocked mover has six rows
/// of nine centres, for the map's edge keeps it off the first: the building on the end takes nine of them and parts none from the
/// others, the one across the way leaves the start two columns.
#[test]
fn a_search_begins_on_the_counts_as_they_are() {
    let mut planner = planner();
    let first = walls(&planner).unwrap();
    for (building, number, verdict, ground) in [
        (Rect::new(3, 4, 4, 5), 7, Verdict::EndCovered, 0),
        (Rect::new(9, 4, 10, 5), 8, Verdict::EndCovered, 45),
        (Rect::new(6, 0, 7, 16), 9, Verdict::Shut, 12),
    ] {
        planner.cover(building).unwrap();
        let refusal = walls(&planner).unwrap_err();
        assert_eq!((refusal.number(), refusal.mover()), (number, None));
        assert_eq!(planner.judge(&[]), Ok(Judgement { verdict, ground }));
        planner.lift(building).unwrap();
        assert_eq!(walls(&planner).as_ref(), Ok(&first));
    }
}
