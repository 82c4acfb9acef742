//! The 1,000,000 points at their edge. The allowed mover walks a winding way of chosen length, the blocked one a straight way
//! that single centres close. Two of the centres may lie on a short cut of the winding way: a wall there makes it two longer.

use judge::order::ORIGINAL_STEPS;
use judge::{Bounds, Case, Placement, Reason, Rect};

use crate::both;
use crate::counts::{Counts, READ, STEP};
use crate::values::{Inputs, ROUTE_LENGTHS, Store, Work};

const SIDE: usize = 1_024;
/// The far corner of the largest map.
const CORNER: i32 = 7_168;
/// The row of the short cut, and rows that a place on the straight way may take.
const SHORT_CUT: usize = 11;

pub fn run(counts: &mut Counts) -> Result<(), String> {
    exact("four routes of 250,000", 250_000, &[1, 5, 9, 13], 1_000_000, Reason::Exhausted, counts)?;
    exact("four routes of 250,000, and no room for a fifth", 250_000, &[1, 5, 9, 13, 17], 1_000_000, Reason::ResultLimit, counts)?;
    exact("333,332, then twice 333,334", 333_332, &[1, SHORT_CUT, SHORT_CUT], 1_000_000, Reason::Exhausted, counts)?;
    exact("333,333 twice, and one too few for 333,335", 333_333, &[1, 5, SHORT_CUT], 666_666, Reason::ResultLimit, counts)
}

/// The winding way from the corner: row after row, to and fro.
fn winding() -> Vec<(usize, usize)> {
    let mut way = Vec::new();
    for row in 0..SIDE / 2 {
        let across = |k: usize| if row % 2 == 0 { k } else { SIDE - 1 - k };
        way.extend((0..SIDE).map(|k| (across(k), 2 * row)));
        way.push((across(SIDE - 1), 2 * row + 1));
    }
    way
}

/// A search whose allowed route has `length` points, with places on the straight way in `rows`.
fn inputs(length: usize, rows: &[usize]) -> Inputs {
    let way = winding();
    let cut = rows.contains(&SHORT_CUT);
    let (x, y) = way[length - 1 + if cut { 2 } else { 0 }];
    let mut allow = vec![true; SIDE * SIDE];
    for &(x, y) in &way {
        allow[y * SIDE + x] = false;
    }
    allow[SHORT_CUT * SIDE + 1] = !cut;
    let mut block = vec![true; SIDE * SIDE];
    block[0] = false;
    for down in 0..=y {
        block[down * SIDE + 1] = false;
    }
    for across in x.min(1)..=x.max(1) {
        block[y * SIDE + across] = false;
    }
    let pixel = |at: usize| at as i32 + CORNER;
    let place = |&row: &usize| Placement::plain(Rect::new(pixel(1), pixel(row), pixel(2), pixel(row) + 1));
    let far = CORNER + SIDE as i32;
    let case = Case {
        map: (1_024, 1_024),
        cells: Vec::new(),
        obstacles: Vec::new(),
        window: Rect::new(CORNER, CORNER, far, far),
        start: (CORNER as u32, CORNER as u32),
        end: (pixel(x) as u32, pixel(y) as u32),
        block: Bounds::new(0, 0, 0, 0),
        allow: Some(Bounds::new(0, 0, 0, 0)),
        states: 100,
        results: 32,
        groups: vec![1],
        placements: rows.iter().map(place).collect(),
    };
    Inputs::of(&case, &block, Some(&allow), &ORIGINAL_STEPS)
}

/// Runs it in portions, and holds it to the points kept and the reason; then the record with one point more is refused.
fn exact(name: &str, length: usize, rows: &[usize], kept: usize, reason: Reason, counts: &mut Counts) -> Result<(), String> {
    let told = |difference: String| format!("DIFFERENCE {difference}\n1,000,000 points: {name}");
    let inputs = inputs(length, rows);
    let mut work = Work::clean(&inputs.query);
    let mut store = Store::clean(inputs.needs());
    let begun = both::begin(&inputs, &mut store, &mut work).map_err(told)?;
    let mut search = begun.map_err(|number| format!("{name}: begin refuses it with {number}"))?;
    for portion in [2, 1, 0, 100] {
        both::step(&inputs, &mut store, portion, &mut work, Some(&mut search)).map_err(told)?.map_err(|number| told(number.to_string()))?;
    }
    let held = search.snapshot();
    let lengths: Vec<usize> = held.layouts.iter().map(|layout| layout.route.len()).collect();
    println!("1,000,000 points: {name}: {:?} after {} evaluations, routes {lengths:?}", held.reason, held.evaluations);
    if lengths.iter().sum::<usize>() != kept || held.reason != reason {
        return Err(format!("{name}: not the case that was meant"));
    }
    for k in 0..=held.layouts.len() as u32 {
        let number = both::read(&inputs, &store, k).map_err(told)?;
        counts.answer(READ, number);
    }
    let spare = (1_000_000 - kept) as u32;
    for more in [0, 1] {
        let mut altered = store.clone();
        altered.record[ROUTE_LENGTHS] += spare + more;
        let stepped = both::step(&inputs, &mut altered, 1, &mut work, None).map_err(told)?;
        counts.answer(STEP, stepped.as_ref().err().copied().unwrap_or(0));
        if stepped.err() != (more == 1).then_some(16) {
            return Err(format!("{name}: a record of {} points is not answered as meant", 1_000_000 + more));
        }
    }
    Ok(())
}
