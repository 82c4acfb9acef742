//! One search, from prepare to the last portion: every call to both sides, everything compared after each. Areas are dirty
//! before some calls, and unused entries of the store before some steps.

use judge::generate::Rng;
use judge::list::Item;
use judge::{Mover, Snapshot};

use crate::both::{self, Difference, Held};
use crate::counts::{BEGIN, Counts, PREPARE, READ, STEP};
use crate::values::{Inputs, Query, Store, Terrain, Work, clean, soil};

/// Runs an item in an order of steps; what is drawn comes from `seed`. What the search holds at last, or nothing where prepare refuses.
pub fn run(item: &Item, steps: &[i32], seed: u64, counts: &mut Counts) -> Result<Option<Snapshot>, Difference> {
    let mut rng = Rng::new(seed);
    let mut work = Work::clean(&Query::of(&item.case));
    let Some(inputs) = inputs(item, steps, &mut work, &mut rng, counts)? else {
        return Ok(None);
    };
    let searched = search(item, &inputs, &mut work, &mut rng, counts)?;
    searched.map(Some).map_err(|number| format!("begin refuses a search of the list with {number}"))
}

/// An item's inputs over the baselines given, or over those that both sides make; nothing where both refuse to.
pub fn inputs(item: &Item, steps: &[i32], work: &mut Work, rng: &mut Rng, counts: &mut Counts) -> Result<Option<Inputs>, Difference> {
    if let Some(given) = &item.given {
        return Ok(Some(Inputs::of(&item.case, &given.block, given.allow.as_deref(), steps)));
    }
    let block = prepared(item, Mover::Block, steps, work, rng, counts)?;
    let allow = match item.case.allow {
        Some(_) => Some(prepared(item, Mover::Allow, steps, work, rng, counts)?),
        None => None,
    };
    let (Some(block), Some(allow)) = (block, allow.map_or(Some(None), |made| made.map(Some))) else {
        counts.refused += 1;
        return Ok(None);
    };
    Ok(Some(Inputs::of(&item.case, &block, allow.as_deref(), steps)))
}

/// The baseline that both sides make, or nothing where both refuse.
fn prepared(
    item: &Item,
    mover: Mover,
    steps: &[i32],
    work: &mut Work,
    rng: &mut Rng,
    counts: &mut Counts,
) -> Result<Option<Vec<bool>>, Difference> {
    let bounds = item.case.bounds(mover).expect("a mover of the case");
    let mover = [bounds.left, bounds.top, bounds.right, bounds.bottom];
    let mut baseline = clean(item.case.centres());
    soil(&mut baseline, item.case.centres(), rng);
    dirty(work, rng, counts);
    let number = both::prepare(&Terrain::of(&item.case), &Query::of(&item.case), mover, steps, &mut baseline, work)?;
    counts.answer(PREPARE, number);
    let marked = baseline[..item.case.centres()].iter().map(|&byte| byte == 1).collect();
    Ok((number == 0).then_some(marked))
}

fn dirty(work: &mut Work, rng: &mut Rng, counts: &mut Counts) {
    if rng.chance(1, 3) {
        work.soil(rng);
        counts.dirty_calls += 1;
    }
}

/// Begins, steps, reads and judges. What the search holds at last, or begin's refusal.
pub fn search(
    item: &Item,
    inputs: &Inputs,
    work: &mut Work,
    rng: &mut Rng,
    counts: &mut Counts,
) -> Result<Result<Snapshot, u32>, Difference> {
    let needs = inputs.needs();
    let mut store = Store::clean(needs);
    store.soil(needs, rng);
    let mut search = match &item.held {
        Some(held) => {
            store.lay(held, needs);
            counts.set += 1;
            both::set(inputs, &store)?
        }
        None => {
            dirty(work, rng, counts);
            let begun = both::begin(inputs, &mut store, work)?;
            counts.answer(BEGIN, begun.as_ref().err().copied().unwrap_or(0));
            match begun {
                Ok(search) => search,
                Err(number) => return Ok(Err(number)),
            }
        }
    };
    let mut last = search.snapshot();
    for &portion in &item.portions {
        dirty(work, rng, counts);
        if rng.chance(1, 4) {
            store.soil_unused(&last, needs, rng);
        }
        let stepped = both::step(inputs, &mut store, portion, work, Some(&mut search))?;
        counts.answer(STEP, stepped.as_ref().err().copied().unwrap_or(0));
        last = stepped.map_err(|number| format!("step refuses a search of the list with {number}"))?;
        read(inputs, &store, &last, rng, counts)?;
    }
    judge(inputs, Some(&search), selections(inputs, &last, rng), work, rng, counts)?;
    if item.held.is_none() {
        counts.search(&search, &last);
    }
    Ok(Ok(last))
}

/// Reads up to three layouts, the last one always, and at times one that is not listed.
fn read(inputs: &Inputs, store: &Store, last: &Snapshot, rng: &mut Rng, counts: &mut Counts) -> Result<(), Difference> {
    let listed = last.layouts.len() as u32;
    let mut numbers: Vec<u32> = (0..2).filter(|_| listed > 1).map(|_| rng.below(listed - 1)).collect();
    numbers.extend(listed.checked_sub(1));
    if rng.chance(1, 4) {
        numbers.push(listed);
    }
    for k in numbers {
        let number = both::read(inputs, store, k)?;
        counts.answer(READ, number);
    }
    Ok(())
}

/// A drawn selection, an evaluated set, and a wall with and without one more member.
fn selections(inputs: &Inputs, last: &Snapshot, rng: &mut Rng) -> Vec<Vec<u16>> {
    let places = inputs.places() as u32;
    let mut selections = vec![drawn(places, rng)];
    if !last.visited.is_empty() {
        selections.push(narrow(&last.visited[rng.below(last.visited.len() as u32) as usize]));
    }
    if !last.layouts.is_empty() {
        let wall = narrow(&last.layouts[rng.below(last.layouts.len() as u32) as usize].members);
        let mut more = wall.clone();
        more.push(rng.below(places.max(1)) as u16);
        more.sort_unstable();
        selections.extend([wall, more]);
    }
    selections
}

/// Judges them; `search` is what the port's is held to, made from the inputs where there is none at hand.
pub fn judge(
    inputs: &Inputs,
    search: Option<&Held>,
    selections: Vec<Vec<u16>>,
    work: &mut Work,
    rng: &mut Rng,
    counts: &mut Counts,
) -> Result<(), Difference> {
    for selection in selections {
        dirty(work, rng, counts);
        counts.judged(both::judge(inputs, &selection, work, search)?);
    }
    Ok(())
}

/// A drawn selection, ascending.
pub fn drawn(places: u32, rng: &mut Rng) -> Vec<u16> {
    let most = 1 + rng.below(6);
    let mut members: Vec<u16> = (0..most).filter(|_| places > 0).map(|_| rng.below(places) as u16).collect();
    members.sort_unstable();
    members.dedup();
    members
}

fn narrow(set: &[u32]) -> Vec<u16> {
    set.iter().map(|&member| member as u16).collect()
}
