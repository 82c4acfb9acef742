//! Random searches larger than the judge's own: windows of up to 60 × 50 centres anywhere in the largest map, one to three
//! columns of places from edge to edge and up to twenty others, movers of up to 256.

use judge::generate::Rng;
use judge::list::Item;
use judge::walls::search::probe;
use judge::{Baselines, Bounds, Case, Placement, Rect};

fn pick<T: Copy>(from: &[T], rng: &mut Rng) -> T {
    from[rng.below(from.len() as u32) as usize]
}

/// The next one. Over terrain, prepare may refuse it; over drawn baselines the ends are joined.
pub fn item(rng: &mut Rng) -> Item {
    loop {
        let over_terrain = rng.chance(1, 2);
        let case = case(rng, over_terrain);
        let given = (!over_terrain).then(|| ground(rng, &case));
        let joined = |baseline: &Vec<bool>| probe::ends_joined(&case, baseline).is_ok();
        if given.as_ref().is_none_or(|given| joined(&given.block) && given.allow.as_ref().is_none_or(joined)) {
            let few = |rng: &mut Rng| pick(&[0, 1, 2, 5, 11, 30, 77], rng);
            let mut portions: Vec<u32> = (0..rng.below(4)).map(|_| few(rng)).collect();
            if rng.chance(5, 6) {
                portions.push(case.states);
            }
            return Item { name: "medium", case, given, held: None, portions };
        }
    }
}

fn case(rng: &mut Rng, over_terrain: bool) -> Case {
    let (width, height) = (rng.between(10, 60), rng.between(8, 50));
    let furthest = if over_terrain { 60 } else { 8_192 - 60 };
    let (left, top) = (rng.between(0, furthest), rng.between(0, furthest));
    let window = Rect::new(left, top, left + width, top + height);
    let most = if !over_terrain && rng.chance(1, 8) { 256 } else { pick(&[0, 1, 2, 4], rng) };
    let block = Bounds::new(rng.below(most + 1), rng.below(most + 1), rng.below(most + 1), rng.below(most + 1));
    let mut smaller = |bound: u32| bound - rng.below(bound + 1);
    let inside = Bounds::new(smaller(block.left), smaller(block.top), smaller(block.right), smaller(block.bottom));
    let groups = groups(rng);
    let mut placements = Vec::new();
    for _ in 0..rng.between(1, 3) {
        column(rng, window, block, &mut placements);
    }
    for _ in 0..rng.below(20) {
        placements.push(other(rng, window));
    }
    for place in &mut placements {
        place.spec = rng.below(6);
        place.group = rng.below(groups.len() as u32);
        place.tile = (rng.draw() as u32, rng.draw() as u32);
    }
    for last in (1..placements.len()).rev() {
        placements.swap(last, rng.below(last as u32 + 1) as usize);
    }
    let mut cells = |edge: i32| (edge as u32 + rng.below(12)).div_ceil(8);
    let map = if over_terrain { (cells(window.right), cells(window.bottom)) } else { (1, 1) };
    let count = (map.0 * map.1) as usize;
    Case {
        map,
        cells: (0..count).map(|_| u8::from(!rng.chance(1, 40))).collect(),
        obstacles: (0..rng.below(6)).map(|_| other(rng, window).collision).collect(),
        window,
        start: (left as u32 + rng.below(3), rng.between(top, window.bottom - 1) as u32),
        end: (window.right as u32 - 1 - rng.below(3), rng.between(top, window.bottom - 1) as u32),
        block,
        allow: rng.chance(2, 3).then_some(inside),
        states: rng.between(1, 150) as u32,
        results: pick(&[1, 2, 4, 32, 32], rng),
        groups,
        placements,
    }
}

/// Up to four groups with six slots at most.
fn groups(rng: &mut Rng) -> Vec<u32> {
    let mut counts = vec![1; 1 + rng.below(4) as usize];
    while counts.iter().sum::<u32>() < 6 && !rng.chance(1, 8) {
        let more = rng.below(counts.len() as u32) as usize;
        counts[more] += 1;
    }
    counts
}

/// One to six places from edge to edge, with gaps that the blocked mover mostly cannot pass.
fn column(rng: &mut Rng, window: Rect, block: Bounds, placements: &mut Vec<Placement>) {
    let count = rng.between(1, 6);
    let x = rng.between(window.left + 3, window.right - 7);
    for k in 0..count {
        let edge = |k: i32| window.top + (window.bottom - window.top) * k / count;
        let (top, bottom) = (edge(k), edge(k + 1));
        let most = ((block.top + block.bottom) as i32).min(bottom - top - 1);
        let gap = if k == 0 || most < 1 { 0 } else { rng.between(0, most) };
        let shift = rng.between(0, 2);
        placements.push(Placement {
            collision: Rect::new(x + shift, top + gap, x + shift + 2, bottom),
            ..Placement::plain(Rect::new(x + shift, top, x + shift + 2, bottom))
        });
    }
}

/// A place anywhere; its collision rectangle may be anywhere else.
fn other(rng: &mut Rng, window: Rect) -> Placement {
    let mut span = |low: i32, high: i32| {
        let length = rng.between(1, 8.min(high - low));
        let start = rng.between(low, high - length);
        (start, start + length)
    };
    let (left, right) = span(window.left, window.right);
    let (top, bottom) = span(window.top, window.bottom);
    let footprint = Rect::new(left, top, right, bottom);
    let far = 300 * i32::from(rng.chance(1, 10));
    let mut by = |edge: i32| edge + rng.between(-1 - far, 1 + far);
    let moved = Rect::new(by(left), by(top), by(right), by(bottom));
    Placement { collision: if moved.is_empty() { footprint } else { moved }, ..Placement::plain(footprint) }
}

/// Baselines with some centres closed, fewer of them to the allowed mover.
fn ground(rng: &mut Rng, case: &Case) -> Baselines {
    let of = pick(&[6, 12, 40, 1_000], rng);
    let block: Vec<bool> = (0..case.centres()).map(|_| rng.chance(1, of)).collect();
    let allow = case.allow.map(|_| block.iter().map(|&off| off && rng.chance(1, 2)).collect());
    Baselines { block, allow }
}
