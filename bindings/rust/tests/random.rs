//! Plans drawn at random: the walls listed are those found by judging every selection, the ground judged is what steps from the start
//! come to, raised limits leave the walls found before at the top, another order of steps leaves walls and judgements the same and
//! chooses the routes, rocks that are covered are as good as obstacles and are gone once they are lifted, and no input, however wild,
//! ends in anything but an answer.

use std::collections::{BTreeMap, BTreeSet, VecDeque};

use hitrovzen::{
    Bounds, Limits, Map, Mover, Placement, Plan, Planner, Position, Reason, Rect, Search, Tile,
    Verdict, ORIGINAL_STEPS,
};

mod dice;

use dice::Dice;

/// A window of at most 8 × 6 centres with at most six placements, most of them columns that stand in the way.
fn small(dice: &mut Dice) -> Plan {
    let (width, height) = (5 + dice.below(4) as i32, 3 + dice.below(4) as i32);
    let reach = |dice: &mut Dice| {
        let reach = dice.below(2) as u32;
        Bounds::new(reach, reach, reach, 0)
    };
    let mut plan = Plan::new(
        Map::open(2, 2),
        Rect::new(1, 1, 1 + width, 1 + height),
        Position::new(1, 1 + dice.below(height as u64) as u32),
        Position::new(width as u32, 1 + dice.below(height as u64) as u32),
        reach(dice),
    );
    if dice.below(3) == 0 {
        plan.allow = Some(reach(dice));
    }
    plan.groups = vec![1 + dice.below(3) as u32, 1 + dice.below(2) as u32];
    for _ in 0..2 + dice.below(5) {
        let left = 3 + dice.below(width as u64 - 3) as i32;
        let top = 1 + dice.below(height as u64) as i32;
        let bottom = top + 1 + dice.below((1 + height - top) as u64) as i32;
        let group = dice.below(2) as u32;
        plan.placements.push(Placement::solid(
            group,
            Rect::new(left, top, left + 1, bottom),
        ));
    }
    plan
}

/// Every set of the placements, of which there are at most six.
fn selections(planner: &Planner) -> impl Iterator<Item = Vec<u16>> {
    let count = planner.plan().placements.len() as u16;
    (0..1_u32 << count).map(move |set| (0..count).filter(|i| set >> i & 1 == 1).collect())
}

/// Every set of placements that the planner judges to be a wall.
fn judged(planner: &Planner) -> BTreeSet<Vec<u16>> {
    selections(planner)
        .filter(|set| planner.judge(set).unwrap().verdict == Verdict::Wall)
        .collect()
}

fn listed(planner: &Planner) -> (Reason, Vec<Vec<u16>>) {
    let mut search = planner.search(Limits::WIDEST).unwrap();
    let reason = search.run().unwrap();
    for layout in search.layouts() {
        let route: Vec<Position> = layout.route().unwrap().collect();
        let plan = planner.plan();
        let ends = plan.allow.map(|_| (plan.start, plan.end));
        assert_eq!(route.first().copied().zip(route.last().copied()), ends);
    }
    let layouts = search.layouts();
    let walls = layouts.map(|layout| layout.indexes().to_vec()).collect();
    (reason, walls)
}

#[test]
fn the_walls_listed_are_those_judged() {
    let mut dice = Dice(20_261_115);
    let (mut searches, mut walls, mut larger) = (0, 0, 0);
    for _ in 0..2_000 {
        let Ok(there) = Planner::new(small(&mut dice)) else {
            continue;
        };
        let (reason, list) = listed(&there);
        let set: BTreeSet<_> = list.iter().cloned().collect();
        assert_eq!(set.len(), list.len(), "none is listed twice");
        assert_eq!(reason, Reason::Exhausted);
        assert_eq!(set, judged(&there), "{:?}", there.plan());

        let plan = there.into_plan();
        let ends = (plan.end, plan.start);
        let back = Planner::new(plan.reversed()).unwrap();
        assert_eq!((back.plan().start, back.plan().end), ends);
        let (reason, list) = listed(&back);
        assert_eq!(reason, Reason::Exhausted);
        assert_eq!(list.into_iter().collect::<BTreeSet<_>>(), set);

        searches += 1;
        walls += set.len();
        larger += set.iter().filter(|wall| wall.len() > 1).count();
    }
    assert!(searches > 1_000, "{searches}");
    assert!(walls > 500, "{walls}");
    assert!(larger > 100, "{larger}");
}

type Centre = (i32, i32);

fn centre(position: Position) -> Centre {
    (position.x as i32, position.y as i32)
}

/// The centres that a selection leaves open to a mover.
fn open(planner: &Planner, mover: Mover, selection: &[u16]) -> BTreeSet<Centre> {
    let plan = planner.plan();
    let window = plan.window;
    let reach = match mover {
        Mover::Block => plan.block,
        Mover::Allow => plan.allow.unwrap(),
    };
    let off = |r: Rect, x: i32, y: i32| {
        (r.left - reach.right as i32..r.right + reach.left as i32).contains(&x)
            && (r.top - reach.bottom as i32..r.bottom + reach.top as i32).contains(&y)
    };
    let member_off = |x, y| {
        let mut members = selection.iter().map(|i| &plan.placements[usize::from(*i)]);
        members.any(|member| off(member.collision, x, y))
    };
    (window.top..window.bottom)
        .flat_map(|y| (window.left..window.right).map(move |x| (x, y)))
        .zip(planner.baseline(mover))
        .filter(|((x, y), count)| **count == 0 && !member_off(*x, *y))
        .map(|(centre, _)| centre)
        .collect()
}

/// Whether the step from one centre to the other may be taken. The side centres of a straight step are its own two.
fn taken(open: &BTreeSet<Centre>, (x, y): Centre, (to_x, to_y): Centre) -> bool {
    let needed = [(to_x, to_y), (to_x, y), (x, to_y)];
    needed.iter().all(|centre| open.contains(centre))
}

/// The open centres that steps lead to from this one, each with the least number of steps that it takes.
fn distances(from: Centre, open: &BTreeSet<Centre>) -> BTreeMap<Centre, usize> {
    let mut found = BTreeMap::new();
    let mut ahead = VecDeque::from([(from, 0)]);
    ahead.retain(|(from, _)| open.contains(from));
    while let Some((centre, distance)) = ahead.pop_front() {
        if found.contains_key(&centre) {
            continue;
        }
        found.insert(centre, distance);
        let (x, y) = centre;
        let around = (x - 1..=x + 1).flat_map(|to_x| (y - 1..=y + 1).map(move |to_y| (to_x, to_y)));
        let near = around.filter(|to| taken(open, centre, *to));
        ahead.extend(near.map(|to| (to, distance + 1)));
    }
    found
}

#[test]
fn the_ground_judged_is_what_the_start_reaches() {
    let mut dice = Dice(20_261_118);
    let (mut none, mut part, mut all) = (0, 0, 0);
    for _ in 0..500 {
        let (plan, rocks) = (small(&mut dice), rocks(&mut dice));
        let plan = dice.one_of(&[Plan::reversed, |plan| plan])(plan);
        let Ok(mut planner) = Planner::new(plan) else {
            continue;
        };
        for rock in &rocks {
            planner.cover(*rock).unwrap();
        }
        for selection in selections(&planner) {
            let open = open(&planner, Mover::Block, &selection);
            let ground = distances(centre(planner.plan().start), &open).len();
            let judgement = planner.judge(&selection).unwrap();
            let plan = planner.plan();
            assert_eq!(judgement.ground as usize, ground, "{selection:?} {plan:?}");
            none += usize::from(ground == 0);
            part += usize::from(0 < ground && ground < open.len());
            all += usize::from(ground == open.len());
        }
    }
    assert!(none > 1_000, "{none}");
    assert!(part > 1_000, "{part}");
    assert!(all > 1_000, "{all}");
}

/// The members of a layout and the route past it.
type Found = (Vec<u16>, Vec<Position>);

fn layouts(search: &Search<'_>) -> Vec<Found> {
    let layouts = search.layouts();
    layouts
        .map(|layout| (layout.indexes().to_vec(), layout.route().unwrap().collect()))
        .collect()
}

/// The sets evaluated and the layouts with their routes, once a search in portions has stopped.
fn found(planner: &Planner, limits: Limits, n: u32) -> (u32, Vec<Found>) {
    let mut search = planner.search(limits).unwrap();
    let mut before = Vec::new();
    loop {
        let reason = search.step(n).unwrap();
        let layouts = layouts(&search);
        assert!(layouts.starts_with(&before), "the list only grows");
        if reason != Reason::Running {
            return (search.evaluations(), layouts);
        }
        before = layouts;
    }
}

#[test]
fn raised_limits_extend_the_list() {
    let mut dice = Dice(20_261_116);
    let (mut cut, mut longer, mut routes) = (0, 0, 0);
    for _ in 0..8_000 {
        let Ok(planner) = Planner::new(small(&mut dice)) else {
            continue;
        };
        let low = Limits {
            states: 1 + dice.below(16) as u32,
            results: 1 + dice.below(3) as u32,
        };
        let high = Limits {
            states: low.states + dice.below(30) as u32,
            results: low.results + dice.below(6) as u32,
        };
        let (few, first) = found(&planner, low, 1 + dice.below(5) as u32);
        let (many, second) = found(&planner, high, 1 + dice.below(5) as u32);
        assert!(second.starts_with(&first), "{:?}", planner.plan());
        assert!(few <= many, "{:?}", planner.plan());
        cut += usize::from(few < many);
        longer += usize::from(!first.is_empty() && first.len() < second.len());
        routes += first.iter().filter(|(_, route)| !route.is_empty()).count();
    }
    assert!(cut > 500, "{cut}");
    assert!(longer > 100, "{longer}");
    assert!(routes > 100, "{routes}");
}

fn shuffled(dice: &mut Dice) -> [(i32, i32); 8] {
    let mut steps = ORIGINAL_STEPS;
    for last in 1..8 {
        steps.swap(last, dice.below(last as u64 + 1) as usize);
    }
    steps
}

/// Of the shortest ways from start to end the one that takes, at the first centre where they part, the step that comes first in the
/// plan's order.
fn first_way(plan: &Plan, open: &BTreeSet<Centre>) -> Vec<Position> {
    let left = distances(centre(plan.end), open);
    let mut way = vec![plan.start];
    while let Some(last) = way.last().filter(|last| **last != plan.end) {
        let at = centre(*last);
        let ahead = plan.steps.map(|(x, y)| (at.0 + x, at.1 + y));
        let mut nearer = ahead
            .iter()
            .filter(|to| taken(open, at, **to) && left[to] < left[&at]);
        let (x, y) = nearer.next().unwrap();
        way.push(Position::new(*x as u32, *y as u32));
    }
    way
}

/// The layouts of an exhausted search, with the routes that the plan's order of steps chooses.
fn exhausted(planner: &Planner) -> Vec<Found> {
    let limits = Limits {
        states: 1_000,
        results: 32,
    };
    let mut search = planner.search(limits).unwrap();
    assert_eq!(search.run(), Ok(Reason::Exhausted));
    let layouts = layouts(&search);
    let plan = planner.plan();
    for (wall, route) in &layouts {
        let way = plan
            .allow
            .map(|_| first_way(plan, &open(planner, Mover::Allow, wall)));
        assert_eq!(*route, way.unwrap_or_default(), "{plan:?}");
    }
    layouts
}

#[test]
fn another_order_has_the_same_walls() {
    let mut dice = Dice(20_261_119);
    let (mut walls, mut sequences, mut routes) = (0, 0, 0);
    for _ in 0..8_000 {
        let (plan, steps) = (small(&mut dice), shuffled(&mut dice));
        let Ok(original) = Planner::new(plan.clone()) else {
            continue;
        };
        let other = Planner::new(Plan { steps, ..plan }).unwrap();
        assert_eq!(counts(&other), counts(&original));
        for selection in selections(&original) {
            assert_eq!(other.judge(&selection), original.judge(&selection));
        }
        let [first, second] = [&original, &other].map(exhausted);
        let [one, two] = [&first, &second].map(|found| found.iter().map(|(wall, _)| wall));
        let same = one.clone().collect::<BTreeSet<_>>() == two.clone().collect();
        assert!(same && one.len() == two.len(), "{:?}", other.plan());
        walls += one.len();
        sequences += usize::from(!one.eq(two));
        routes += second.iter().filter(|found| !first.contains(found)).count();
    }
    assert!(walls > 2_000, "{walls}");
    assert!(sequences > 50, "{sequences}");
    assert!(routes > 100, "{routes}");
}

fn counts(planner: &Planner) -> [Vec<u8>; 2] {
    [Mover::Block, Mover::Allow].map(|mover| planner.baseline(mover).to_vec())
}

/// One to four rectangles over and around the windows of `small`.
fn rocks(dice: &mut Dice) -> Vec<Rect> {
    let count = 1 + dice.below(4);
    let rock = |_| {
        let (left, top) = (dice.below(9) as i32, dice.below(7) as i32);
        let (width, height) = (1 + dice.below(3) as i32, 1 + dice.below(3) as i32);
        Rect::new(left, top, left + width, top + height)
    };
    (0..count).map(rock).collect()
}

/// The planner answers as the one that was prepared with the same rocks as obstacles. Whether there is such a one.
fn as_prepared(planner: &Planner, mut plan: Plan, rocks: &[Rect]) -> bool {
    plan.map.obstacles = rocks.to_vec();
    let prepared = match Planner::new(plan) {
        Ok(prepared) => prepared,
        Err(refusal) => {
            let covered = planner.search(Limits::WIDEST).unwrap_err();
            assert_eq!(covered.number(), refusal.number());
            return false;
        }
    };
    let marks = |row: Vec<u8>| -> Vec<u8> { row.iter().map(|n| u8::from(*n != 0)).collect() };
    assert_eq!(counts(planner).map(marks), counts(&prepared));
    assert_eq!(listed(planner), listed(&prepared));
    assert_eq!(judged(planner), judged(&prepared));
    true
}

/// Lifts the rocks in an order drawn at random.
fn lift_all(planner: &mut Planner, mut rocks: Vec<Rect>, dice: &mut Dice) {
    while !rocks.is_empty() {
        let rock = rocks.swap_remove(dice.below(rocks.len() as u64) as usize);
        planner.lift(rock).unwrap();
    }
}

#[test]
fn rocks_that_are_covered_are_as_good_as_obstacles() {
    let mut dice = Dice(20_261_117);
    let (mut searches, mut altered) = (0, 0);
    for _ in 0..2_000 {
        let (plan, rocks) = (small(&mut dice), rocks(&mut dice));
        let Ok(mut planner) = Planner::new(plan.clone()) else {
            continue;
        };
        let (before, first) = (counts(&planner), listed(&planner));
        for rock in &rocks {
            planner.cover(*rock).unwrap();
        }
        if as_prepared(&planner, plan, &rocks) {
            searches += 1;
            altered += usize::from(listed(&planner) != first);
        }
        lift_all(&mut planner, rocks, &mut dice);
        assert_eq!((counts(&planner), listed(&planner)), (before, first));
    }
    assert!(searches > 300, "{searches}");
    assert!(altered > 100, "{altered}");
}

/// Edges at the ends of their type and around the bounds of the calls.
fn wild_rect(dice: &mut Dice) -> Rect {
    const EDGES: [i32; 11] = [i32::MIN, -1, 0, 1, 2, 3, 5, 8, 1_024, 8_192, i32::MAX];
    let edges = [(); 4].map(|()| dice.one_of(&EDGES));
    match dice.below(3) {
        0 => Rect::new(0, 0, 5, 3),
        1 => Rect::new(edges[0].min(4), edges[1].min(4), 5, 5),
        _ => Rect::new(edges[0], edges[1], edges[2], edges[3]),
    }
}

/// Fields at the ends of their types and around the bounds of the calls.
fn wild(dice: &mut Dice) -> Plan {
    const NUMBERS: [u32; 9] = [0, 1, 2, 4, 6, 7, 256, 257, u32::MAX];
    let rect = wild_rect;
    let bounds = |dice: &mut Dice| match dice.below(2) {
        0 => Bounds::default(),
        _ => Bounds::new(0, dice.one_of(&NUMBERS), 0, dice.one_of(&NUMBERS)),
    };
    let position = |dice: &mut Dice| match dice.below(4) {
        0 => Position::new(dice.one_of(&NUMBERS), dice.one_of(&NUMBERS)),
        _ => Position::new(dice.below(5) as u32, dice.below(3) as u32),
    };
    let map = match dice.below(4) {
        0 => Map::new(dice.one_of(&NUMBERS), dice.one_of(&NUMBERS), vec![1; 16]),
        1 => Map::new(4, 4, vec![dice.below(3) as u8; 16]),
        _ => Map::open(1, 1),
    };
    let mut plan = Plan::new(
        map,
        rect(dice),
        position(dice),
        position(dice),
        bounds(dice),
    );
    for _ in 0..dice.below(6).saturating_sub(4) {
        let obstacle = match dice.below(2) {
            0 => Rect::new(2, 0, 3, 8),
            _ => rect(dice),
        };
        plan.map.obstacles.push(obstacle);
    }
    if dice.below(3) == 0 {
        plan.allow = Some(bounds(dice));
    }
    for _ in 0..dice.below(3) {
        plan.groups.push(dice.one_of(&[1, 1, 2, 3, 0, 7, u32::MAX]));
    }
    for _ in 0..dice.below(4) {
        let number = |dice: &mut Dice| dice.one_of(&[0, 0, 0, 1, 6, u32::MAX]);
        plan.placements.push(Placement {
            spec: number(dice),
            group: number(dice),
            tile: Tile { x: u32::MAX, y: 0 },
            footprint: rect(dice),
            collision: rect(dice),
        });
    }
    if dice.below(16) == 0 {
        let at = dice.below(8) as usize;
        plan.steps[at] = dice.one_of(&[(1, 0), (0, 0), (2, 0), (-1, 1), (i32::MIN, i32::MAX)]);
    }
    plan
}

#[test]
fn every_call_is_answered() {
    let mut dice = Dice(65_535);
    let mut seen = BTreeSet::new();
    let mut note = |number: u32| {
        assert!((1..=12).chain(14..=17).chain(19..=20).any(|n| n == number));
        seen.insert(number);
    };
    for _ in 0..20_000 {
        let mut planner = match Planner::new(wild(&mut dice)) {
            Ok(planner) => planner,
            Err(refusal) => {
                note(refusal.number());
                continue;
            }
        };
        for change in [Planner::cover, Planner::lift] {
            if let Err(refusal) = change(&mut planner, wild_rect(&mut dice)) {
                note(refusal.number());
            }
        }
        let selection: Vec<u16> = (0..dice.below(8))
            .map(|i| dice.one_of(&[i as u16, 0, 1, u16::MAX]))
            .collect();
        if let Err(refusal) = planner.judge(&selection) {
            note(refusal.number());
        }
        let limits = Limits {
            states: dice.one_of(&[0, 1, 2, 100, 100_000, 100_001, u32::MAX]),
            results: dice.one_of(&[0, 1, 2, 32, 33, u32::MAX]),
        };
        let mut search = match planner.search(limits) {
            Ok(search) => search,
            Err(refusal) => {
                note(refusal.number());
                continue;
            }
        };
        for n in [0, 1, u32::MAX] {
            search.step(n).expect("a search that began can be stepped");
        }
        if let Err(refusal) = search.route(dice.one_of(&[0, 1, u32::MAX])) {
            note(refusal.number());
        }
    }
    for number in [1, 2, 3, 4, 5, 7, 8, 9, 10, 11, 12, 15, 17, 19, 20] {
        assert!(seen.contains(&number), "{number} was not met");
    }
}
