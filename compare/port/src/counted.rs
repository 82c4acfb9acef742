//! Searches and judgings over baselines with counts above 1: drawn in place of ones, and left by cover calls. The original is given 1
//! for every count. Where prepare made the baselines, it is also asked to prepare them with the covered buildings as obstacles.

use judge::generate::{Generator, Rng};
use judge::list::Item;
use judge::order::ORIGINAL_STEPS;
use judge::{Mover, Rect};

use crate::both::{self, Difference};
use crate::counts::{BEGIN, COVER, Counts, JUDGE, LIFT};
use crate::covers::Change;
use crate::large;
use crate::medium;
use crate::refusals::close;
use crate::searches;
use crate::shrink;
use crate::values::{Building, Inputs, Query, Work, rect};

#[derive(Debug, Default)]
struct Reached {
    /// The calls over counts above 1, and the covers and lifts before them.
    calls: Counts,
    /// Searches begun over what covers left.
    over_covers: u64,
    /// Baselines that covers left, found to be those of obstacles.
    as_obstacles: u64,
}

/// Runs until so many searches are begun.
pub fn run(seed: u64, searches: u64, counts: &mut Counts, progress: &dyn Fn(&str)) -> Result<(), String> {
    let mut generator = Generator::new(seed.rotate_left(23));
    let mut rng = Rng::new(seed.rotate_left(31));
    let mut reached = Reached::default();
    let mut number = 0;
    while reached.calls.begun < searches {
        number += 1;
        let item = if number % 10 == 0 { medium::item(&mut rng) } else { generator.item() };
        one(&item, seed ^ (number << 20), &mut reached)?;
    }
    progress("searches over counts done");
    let item = large::barrier((60, 50), Rect::new(97, 55, 397, 315), seed);
    one_large(&item, seed, &mut reached)?;
    progress("300 × 260 over counts done");
    counts.add_calls(&reached.calls);
    told(&reached, searches)
}

/// Prints what was reached, and what it falls short of.
fn told(reached: &Reached, searches: u64) -> Result<(), String> {
    let Reached { calls, over_covers, as_obstacles } = reached;
    let [sevens, eights, nines] = [7, 8, 9].map(|number| calls.answers[BEGIN][number]);
    let judgings = calls.answers[JUDGE][0];
    let begun = calls.begun;
    println!("over counts above 1: searches begun {begun}, {over_covers} of them over what covers left; judgings {judgings}");
    println!("  evaluations {}, searches that list a wall {}, kept routes {}", calls.evaluations, calls.listing, calls.routes);
    println!("  begin refused with 7: {sevens}, 8: {eights}, 9: {nines}; covered baselines that are those of obstacles {as_obstacles}");
    let kinds = [
        ("searches", begun, searches),
        ("judgings", judgings, searches),
        ("searches over what covers left", *over_covers, searches / 5),
        ("searches that list a wall", calls.listing, searches / 10),
        ("begin's 7", sevens, searches / 100),
        ("begin's 8", eights, searches / 100),
        ("begin's 9", nines, searches / 100),
        ("covered baselines beside obstacles", *as_obstacles, searches / 5),
    ];
    let short = |(what, found, least): &(&str, u64, u64)| format!("over counts above 1: {what} {found}, held to {least}");
    let short: Vec<String> = kinds.iter().filter(|(_, found, least)| found < least).map(short).collect();
    if short.is_empty() { Ok(()) } else { Err(short.join("\n")) }
}

fn one(item: &Item, seed: u64, reached: &mut Reached) -> Result<(), String> {
    search(item, seed, reached).map_err(|difference| {
        let differs = |item: &Item| search(item, seed, &mut Reached::default()).err();
        let (item, difference) = shrink::shrink(item, difference, &differs);
        format!("DIFFERENCE {difference}\nover counts above 1, seed of the areas {seed}\n{item:#?}")
    })
}

/// One search over counts; it is left out where no count is above 1.
fn search(item: &Item, seed: u64, reached: &mut Reached) -> Result<(), Difference> {
    let mut rng = Rng::new(seed);
    let mut work = Work::clean(&Query::of(&item.case));
    let Some(mut inputs) = searches::inputs(item, &ORIGINAL_STEPS, &mut work, &mut rng, &mut reached.calls)? else {
        return Ok(());
    };
    let covers = rng.chance(3, 5);
    let prepared = if covers { covered(item, &mut inputs, &mut rng, reached)? } else { drawn(&mut inputs, &mut rng) };
    if !above_one(&mut inputs) {
        return Ok(());
    }
    let searched = searches::search(item, &inputs, &mut work, &mut rng, &mut reached.calls)?;
    if let Some(number) = prepared {
        both::same(
            "begin's answer beside prepare's with the buildings as obstacles",
            &number,
            &searched.as_ref().err().copied().unwrap_or(0),
        )?;
    }
    if searched.is_ok() {
        reached.over_covers += u64::from(covers);
        return Ok(());
    }
    let selections = (0..2).map(|_| searches::drawn(inputs.places() as u32, &mut rng)).collect();
    searches::judge(&inputs, None, selections, &mut work, &mut rng, &mut reached.calls)
}

fn above_one(inputs: &mut Inputs) -> bool {
    let (width, height) = inputs.query.size();
    inputs.grounds().iter().any(|(_, counts)| counts[..width * height].iter().any(|&count| count > 1))
}

fn pick<T: Copy>(from: &[T], rng: &mut Rng) -> T {
    from[rng.below(from.len() as u32) as usize]
}

/// Mostly a count of any size, often the least, the greatest, or one with a high bit alone.
fn count(rng: &mut Rng) -> u8 {
    let any = rng.between(2, 255) as u8;
    pick(&[2, 128, 255, 254, any, any, any, any], rng)
}

/// Counts in place of all ones or of some, at a few centres that were open, and at times over an end or across the way.
fn drawn(inputs: &mut Inputs, rng: &mut Rng) -> Option<u32> {
    let query = inputs.query.clone();
    let (width, height) = query.size();
    let staying = pick(&[0, 0, 1, 3], rng);
    for (_, counts) in inputs.grounds() {
        for byte in &mut counts[..width * height] {
            if *byte == 1 && !rng.chance(staying, 4) {
                *byte = count(rng);
            }
        }
        for _ in 0..rng.below(2) {
            counts[rng.below((width * height) as u32) as usize] = count(rng);
        }
        if rng.chance(1, 20) {
            close(&query, counts, rng.below(4), count(rng));
        }
    }
    None
}

/// Covers a few buildings over each baseline, some of them several times, and lifts one at times. What the original's prepare answers
/// with those that stay as obstacles; nothing where prepare did not make the baselines.
fn covered(item: &Item, inputs: &mut Inputs, rng: &mut Rng, reached: &mut Reached) -> Result<Option<u32>, Difference> {
    let query = inputs.query.clone();
    let buildings: Vec<([i32; 4], u32)> = (0..=rng.below(3)).map(|_| (site(&query, rng), times(rng))).collect();
    let lifted = rng.below(3 * buildings.len() as u32) as usize;
    let mut answers = Vec::new();
    for ((mover, counts), which) in inputs.grounds().into_iter().zip([Mover::Block, Mover::Allow]) {
        let mut standing = Vec::new();
        for (k, &(rect, times)) in buildings.iter().enumerate() {
            let building = Building { window: query.window, mover, rect };
            let stands = cover(&building, times, counts, &mut reached.calls)?;
            if k == lifted {
                lift(&building, stands, counts, &mut reached.calls)?;
            } else if stands > 0 {
                standing.push(rect);
            }
        }
        if item.given.is_none() {
            answers.push(as_obstacles(item, which, &standing, counts, reached)?);
        }
    }
    Ok((!answers.is_empty()).then(|| answers.into_iter().find(|&number| number != 0).unwrap_or(0)))
}

/// A rectangle on the window or at its edge that leaves much of it open, at times over an end or across the way.
fn site(query: &Query, rng: &mut Rng) -> [i32; 4] {
    let [left, top, right, bottom] = query.window;
    let pixel = |[x, y]: [u32; 2]| [x as i32, y as i32, x as i32 + 1, y as i32 + 1];
    let mut axis = |low: i32, high: i32| {
        let start = rng.between(low - 2, high + 1);
        (start, start + rng.between(1, 1 + (high - low) / 8))
    };
    let ((x, to_x), (y, to_y)) = (axis(left, right), axis(top, bottom));
    match rng.below(40) {
        0 => pixel(query.start),
        1 => pixel(query.end),
        2 => [x, i32::MIN, to_x, i32::MAX],
        3 => [left - 300, y, right + 300, to_y],
        _ => [x, y, to_x, to_y],
    }
}

fn times(rng: &mut Rng) -> u32 {
    if rng.chance(1, 60) { 255 } else { pick(&[1, 1, 2, 2, 3, 7], rng) }
}

/// How many of so many covers are accepted.
fn cover(building: &Building, times: u32, counts: &mut [u8], calls: &mut Counts) -> Result<u32, Difference> {
    let mut stands = 0;
    for _ in 0..times {
        let number = both::alter(Change::Cover, building, counts)?;
        calls.answer(COVER, number);
        stands += u32::from(number == 0);
    }
    Ok(stands)
}

fn lift(building: &Building, times: u32, counts: &mut [u8], calls: &mut Counts) -> Result<(), Difference> {
    for _ in 0..times {
        let number = both::alter(Change::Lift, building, counts)?;
        calls.answer(LIFT, number);
        both::same("the lift of a building that stands", &0, &number)?;
    }
    Ok(())
}

/// The original's prepare with these rectangles as further obstacles: its refusal, or 0 where it marks what the counts close.
fn as_obstacles(item: &Item, mover: Mover, rects: &[[i32; 4]], counts: &[u8], reached: &mut Reached) -> Result<u32, Difference> {
    let mut case = item.case.clone();
    case.obstacles.extend(rects.iter().map(|edges| rect(edges)));
    let marked = match judge::prepare(&case, mover) {
        Ok(marked) => marked,
        Err(number) => return Ok(number),
    };
    let closed: Vec<bool> = counts[..marked.len()].iter().map(|&count| count != 0).collect();
    both::same_area("cover", "the ground beside that of obstacles", &marked, &closed)?;
    reached.as_obstacles += 1;
    Ok(0)
}

/// A large search with a count above 1 for every 1.
fn one_large(item: &Item, seed: u64, reached: &mut Reached) -> Result<(), String> {
    let told = |difference: String| format!("DIFFERENCE {difference}\n300 × 260 over counts above 1");
    let mut rng = Rng::new(seed);
    let mut work = Work::clean(&Query::of(&item.case));
    let made = searches::inputs(item, &ORIGINAL_STEPS, &mut work, &mut rng, &mut reached.calls).map_err(told)?;
    let mut inputs = made.ok_or("300 × 260 over counts above 1: prepare refuses it")?;
    let (width, height) = inputs.query.size();
    for (_, counts) in inputs.grounds() {
        counts[..width * height].iter_mut().filter(|byte| **byte == 1).for_each(|byte| *byte = count(&mut rng));
    }
    if !above_one(&mut inputs) {
        return Err("300 × 260 over counts above 1: there is none".to_string());
    }
    let searched = searches::search(item, &inputs, &mut work, &mut rng, &mut reached.calls).map_err(told)?;
    let last = searched.map_err(|number| told(format!("begin refuses it with {number}")))?;
    println!("300 × 260 over counts above 1: {:?} after {} evaluations, {} walls", last.reason, last.evaluations, last.layouts.len());
    Ok(())
}
