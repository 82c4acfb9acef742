//! Prepare on random terrain and obstacles: maps of up to 14 cells each way, and a few of 160 with 4,096 obstacles.

use judge::generate::Rng;
use judge::order::ORIGINAL_STEPS;

use crate::both;
use crate::counts::{Counts, PREPARE};
use crate::values::{Query, Terrain, Work, clean, soil};

pub fn run(seed: u64, times: u64, counts: &mut Counts) -> Result<(), String> {
    let mut rng = Rng::new(seed.rotate_left(17));
    let before = counts.answers[PREPARE];
    for _ in 0..times {
        let terrain = terrain(&mut rng, 14, 8);
        let size = 1 + rng.below(60) as i32;
        one(&terrain, size, &mut rng, counts)?;
    }
    for _ in 0..times.div_ceil(10_000) {
        let terrain = terrain(&mut rng, 160, 4_096);
        one(&terrain, 1_024, &mut rng, counts)?;
    }
    let found: Vec<u64> = [0, 7, 8, 9].iter().map(|&number| counts.answers[PREPARE][number] - before[number]).collect();
    println!("random terrain: accepted {}, 7: {}, 8: {}, 9: {}", found[0], found[1], found[2], found[3]);
    match found.iter().min() {
        Some(&least) if least < (times / 100).min(1_000) => Err("random terrain: an answer has too few cases".to_string()),
        _ => Ok(()),
    }
}

fn terrain(rng: &mut Rng, most: u32, obstacles: u32) -> Terrain {
    let (across, down) = (1 + rng.below(most), 1 + rng.below(most));
    let closed = [0, 2, 8, 25][rng.below(4) as usize];
    let cells = (0..across * down).map(|_| u8::from(!rng.chance(closed, 100))).collect();
    let few = if rng.chance(1, 3) { 0 } else { rng.below(obstacles + 1) };
    let longest = if obstacles > 100 { 6 } else { 12 };
    let mut row = Vec::new();
    for _ in 0..few {
        let (left, right) = span(rng, across as i32 * 8, longest);
        let (top, bottom) = span(rng, down as i32 * 8, longest);
        // A few reach from edge to edge, but not far the other way.
        row.extend(match rng.below(if obstacles > 100 { 10_000 } else { 12 }) {
            0 => [left, -1, left.saturating_add(1), down as i32 * 8],
            1 => [-1, top, across as i32 * 8, top.saturating_add(1)],
            _ => [left, top, right, bottom],
        });
    }
    Terrain { across, down, cells, obstacles: row }
}

/// Two edges, mostly near the map, at times at the ends of 32 bits.
fn span(rng: &mut Rng, size: i32, longest: i32) -> (i32, i32) {
    let low = rng.between(-longest, size + longest);
    match rng.below(400) {
        0 => (i32::MIN, if rng.chance(1, 2) { i32::MIN + 1 } else { rng.between(-3, 2) }),
        1 => (rng.between(size - 2, size + 9), i32::MAX),
        2 => (i32::MAX - 1, i32::MAX),
        _ => (low, low + rng.between(1, longest)),
    }
}

fn one(terrain: &Terrain, size: i32, rng: &mut Rng, counts: &mut Counts) -> Result<(), String> {
    let mut axis = |pixels: i32| {
        let length = rng.between(1, size.min(pixels));
        let low = rng.between(0, pixels - length);
        (low, low + length)
    };
    let (left, right) = axis(terrain.across as i32 * 8);
    let (top, bottom) = axis(terrain.down as i32 * 8);
    let mut centre = || [rng.between(left, right - 1) as u32, rng.between(top, bottom - 1) as u32];
    let (start, end) = (centre(), centre());
    let most = [0, 1, 3, 9, 256][rng.below(5) as usize];
    let mut mover = [0; 4];
    mover.fill_with(|| if rng.chance(1, 2) { 0 } else { rng.below(most + 1) });
    let query = Query { window: [left, top, right, bottom], start, end, block: mover, allow_given: 0, allow: [0; 4] };
    let centres = ((right - left) * (bottom - top)) as usize;
    let mut baseline = clean(centres);
    soil(&mut baseline, centres, rng);
    let mut work = Work::clean(&query);
    if rng.chance(1, 2) {
        work.soil(rng);
        counts.dirty_calls += 1;
    }
    let number = both::prepare(terrain, &query, mover, &ORIGINAL_STEPS, &mut baseline, &mut work)
        .map_err(|difference| format!("DIFFERENCE {difference}\n{terrain:?}\n{query:?}"))?;
    counts.answer(PREPARE, number);
    Ok(())
}
