//! One call made to both sides from the same values, and everything it leaves compared. The expected answer of a refusal is
//! `rules`'; what an accepted call leaves is the original's, and in another order of steps than the original's that of the judge's `order`.
//! A rank's quotient is the original's, and so is what it is refused with 22 for; the rest of it, 1, 15 and which of two is closer are
//! read by `distances`.

use judge::order::{ORIGINAL_STEPS, Ordered};
use judge::walls::search::probe;
use judge::{Baselines, Case, Mover, Search, Snapshot, count};

use crate::covers::{self, Change};
use crate::distances::{self, Measured};
use crate::port;
use crate::rules::{self, Judged};
use crate::values::{Asked, Building, Inputs, Query, Rank, Store, Terrain, Word, Work, rect};

/// What differs, in words.
pub type Difference = String;

pub fn same<T: PartialEq + std::fmt::Debug>(what: &str, expected: &T, found: &T) -> Result<(), Difference> {
    if expected == found {
        return Ok(());
    }
    Err(format!("{what}: expected {}, the port has {}", short(expected), short(found)))
}

fn short<T: std::fmt::Debug>(value: &T) -> String {
    let text = format!("{value:?}");
    if text.len() <= 600 { text } else { text.chars().take(600).chain(" ..".chars()).collect() }
}

pub fn same_area<T: PartialEq + std::fmt::Debug>(call: &str, what: &str, expected: &[T], found: &[T]) -> Result<(), Difference> {
    if expected == found {
        return Ok(());
    }
    let at = expected.iter().zip(found).position(|(a, b)| a != b).unwrap_or(expected.len().min(found.len()));
    Err(format!("{call}: {what}[{at}] expected {:?}, the port has {:?}", expected.get(at), found.get(at)))
}

fn same_work(call: &str, expected: &Work, found: &Work) -> Result<(), Difference> {
    same_area(call, "counts", &expected.counts, &found.counts)?;
    same_area(call, "map", &expected.map, &found.map)?;
    same_area(call, "queue", &expected.queue, &found.queue)?;
    same_area(call, "predecessors", &expected.predecessors, &found.predecessors)?;
    same_area(call, "route", &expected.route, &found.route)
}

fn same_store(call: &str, expected: &Store, found: &Store) -> Result<(), Difference> {
    same_area(call, "record", &expected.record, &found.record)?;
    same_area(call, "lists", &expected.lists, &found.lists)?;
    same_area(call, "visited", &expected.visited, &found.visited)?;
    same_area(call, "layouts", &expected.layouts, &found.layouts)?;
    same_area(call, "points", &expected.points, &found.points)
}

/// Prepares a mover. The answer's number, once both agree. What prepare leaves is the original's in every order of steps.
pub fn prepare(
    terrain: &Terrain,
    query: &Query,
    mover: [u32; 4],
    steps: &[i32],
    baseline: &mut [u8],
    work: &mut Work,
) -> Result<u32, Difference> {
    let early = rules::prepare(terrain, query, mover, steps, baseline, work);
    let (before, work_before) = (baseline.to_vec(), work.clone());
    let answer = port::prepare(terrain, query, mover, steps, baseline, work);
    if let Err((number, _)) = early {
        same("prepare's answer", &number, &answer)?;
        same_area("prepare", "baseline", &before, baseline)?;
        same_work("prepare", &work_before, work)?;
        return Ok(number);
    }
    let case = Case {
        map: (terrain.across, terrain.down),
        cells: terrain.cells.clone(),
        obstacles: terrain.obstacles.chunks(4).map(rect).collect(),
        block: judge::Bounds::new(mover[0], mover[1], mover[2], mover[3]),
        ..bare(query)
    };
    let (number, marked) = match judge::prepare(&case, Mover::Block) {
        Ok(marked) => (0, marked),
        Err(number) if number >= 7 => (number, vec![false; case.centres()]),
        Err(number) => return Err(format!("prepare: the two readings of the rules differ: accepted, and {number}")),
    };
    same("prepare's answer", &number, &answer)?;
    let mut expected = before;
    for (byte, &off) in expected.iter_mut().zip(&marked) {
        *byte = u8::from(off);
    }
    same_area("prepare", "baseline", &expected, baseline)?;
    same_work("prepare", &work_before.cleared(query), work)?;
    Ok(number)
}

fn bare(query: &Query) -> Case {
    Inputs {
        query: query.clone(),
        states: 1,
        results: 1,
        groups: Vec::new(),
        numbers: Vec::new(),
        edges: Vec::new(),
        block_base: Vec::new(),
        allow_base: Vec::new(),
        steps: Vec::new(),
    }
    .case()
}

/// The search that the port's is held to: the original in its own order of steps, the judge's reading in another.
#[derive(Debug)]
pub enum Held {
    Original(Box<Search>),
    Reading(Box<Ordered>),
}

impl Held {
    /// A search that begin started.
    fn begin(inputs: &Inputs) -> Result<Self, u32> {
        let (case, baselines) = (inputs.case(), inputs.baselines());
        if inputs.steps == ORIGINAL_STEPS {
            return Search::begin_on(&case, &baselines).map(Box::new).map(Self::Original);
        }
        Ordered::begin_on(&case, &baselines, &inputs.steps).map(Box::new).map(Self::Reading)
    }

    /// One with a record that passes 16.
    fn set(inputs: &Inputs, held: &Snapshot) -> Result<Self, u32> {
        let (case, baselines) = (inputs.case(), inputs.baselines());
        if inputs.steps == ORIGINAL_STEPS {
            return Search::set_on(&case, &baselines, held).map(Box::new).map(Self::Original);
        }
        Ordered::set_on(&case, &baselines, &inputs.steps, held).map(Box::new).map(Self::Reading)
    }

    fn step(&mut self, n: u32) {
        match self {
            Self::Original(search) => search.step(n),
            Self::Reading(search) => search.step(n),
        }
    }

    pub fn snapshot(&self) -> Snapshot {
        match self {
            Self::Original(search) => search.snapshot(),
            Self::Reading(search) => search.snapshot(),
        }
    }

    pub fn case(&self) -> &Case {
        match self {
            Self::Original(search) => search.case(),
            Self::Reading(search) => search.case(),
        }
    }

    /// The number of a set's extensions that cover no point of its route.
    pub fn touching_by_side(&self, set: &[u32]) -> usize {
        match self {
            Self::Original(search) => count::touching_by_side(search, set),
            Self::Reading(search) => search.touching_by_side(set),
        }
    }
}

/// Begins. The search that the port's is held to where the call is accepted, else the refusal.
pub fn begin(inputs: &Inputs, store: &mut Store, work: &mut Work) -> Result<Result<Held, u32>, Difference> {
    let rule = rules::begin(inputs, work, store);
    let (before, work_before) = (store.clone(), work.clone());
    let answer = port::begin(inputs, store, work);
    same("begin's answer", &rule.err().unwrap_or((0, 0)), &answer)?;
    if let Err((number, _)) = rule {
        let clears = matches!(number, 7 | 8 | 9 | 14 | 15);
        let expected = if clears { work_before.cleared(&inputs.query) } else { work_before };
        same_store("begin", &before, store)?;
        same_work("begin", &expected, work)?;
        return Ok(Err(number));
    }
    let search = Held::begin(inputs).map_err(|number| format!("begin: the two readings of the rules differ: accepted, and {number}"))?;
    same_store("begin", &before.image(&search.snapshot(), inputs.needs()), store)?;
    same_work("begin", &work_before.cleared(&inputs.query), work)?;
    Ok(Ok(search))
}

/// The search that holds what an accepted record says.
pub fn set(inputs: &Inputs, store: &Store) -> Result<Held, Difference> {
    Held::set(inputs, &store.held(inputs)).map_err(|number| format!("the two readings of the rules differ: accepted, and {number}"))
}

/// Steps by `n`; `search` is what the port's is held to, made from the record where there is none at hand.
pub fn step(
    inputs: &Inputs,
    store: &mut Store,
    n: u32,
    work: &mut Work,
    search: Option<&mut Held>,
) -> Result<Result<Snapshot, u32>, Difference> {
    let rule = rules::step(inputs, work, store);
    let (before, work_before) = (store.clone(), work.clone());
    let answer = port::step(inputs, store, n, work);
    same("step's answer", &rule.err().unwrap_or((0, 0)), &answer)?;
    if let Err((number, _)) = rule {
        same_store("step", &before, store)?;
        same_work("step", &work_before, work)?;
        return Ok(Err(number));
    }
    let held = match search {
        Some(search) => {
            search.step(n);
            search.snapshot()
        }
        None => {
            let mut search = set(inputs, &before)?;
            search.step(n);
            search.snapshot()
        }
    };
    same_store("step", &before.image(&held, inputs.needs()), store)?;
    same_work("step", &work_before.cleared(&inputs.query), work)?;
    Ok(Ok(held))
}

/// Reads layout `k`'s route: its part of the points area.
pub fn read(inputs: &Inputs, store: &Store, k: u32) -> Result<u32, Difference> {
    let rule = rules::read(inputs, store, k);
    let part = port::read(inputs, store, k);
    same("read's answer", &rule.err().unwrap_or((0, 0)), &part.answer)?;
    if let Err((number, _)) = rule {
        same("read's part", &(0, 0), &(part.first, part.count))?;
        return Ok(number);
    }
    let held = store.held(inputs);
    let first: usize = held.layouts[..k as usize].iter().map(|layout| layout.route.len()).sum();
    let route = &held.layouts[k as usize].route;
    same("read's part", &(first as u32, route.len() as u32), &(part.first, part.count))?;
    let (first, count) = (part.first as usize, part.count as usize);
    let read = store.points.get(2 * first..2 * (first + count)).unwrap_or(&[]);
    let points: Vec<(u32, u32)> = read.chunks_exact(2).map(|point| (point[0], point[1])).collect();
    same("read's points", route, &points)?;
    Ok(0)
}

/// Judges a selection: the refusal, or what the selection comes to. The verdict is the original's, and in another order of steps also that
/// of the judge's `order`.
pub fn judge(inputs: &Inputs, selection: &[u16], work: &mut Work, search: Option<&Held>) -> Result<Result<Judged, u32>, Difference> {
    let rule = rules::judge(inputs, work, selection);
    let work_before = work.clone();
    let found = port::judge(inputs, selection, work);
    same("judge's answer", &rule.err().unwrap_or((0, 0)), &found.answer)?;
    if let Err((number, _)) = rule {
        same("judge's verdict and ground", &(0, 0), &(found.verdict, found.ground))?;
        same_work("judge", &work_before, work)?;
        return Ok(Err(number));
    }
    let expected = match search {
        Some(Held::Original(search)) => rules::judged(inputs, search.original(), selection),
        _ => {
            let Baselines { block, allow } = inputs.baselines();
            let case = inputs.case();
            let held = Snapshot::begun(case.placements.len() as u32);
            rules::judged(inputs, &probe::build(&case, &block, allow.as_deref(), &held), selection)
        }
    };
    if inputs.steps != ORIGINAL_STEPS {
        let set: Vec<u32> = selection.iter().map(|&member| u32::from(member)).collect();
        let verdict = Ordered::on(&inputs.case(), &inputs.baselines(), &inputs.steps).verdict(&set);
        same("the verdict read in another order of steps, beside the original's", &expected.verdict, &verdict)?;
    }
    let told = (expected.verdict, expected.ground.left);
    same(&format!("judge's verdict and ground of {selection:?}"), &told, &(found.verdict, found.ground))?;
    same_work("judge", &work_before.cleared(&inputs.query), work)?;
    Ok(Ok(expected))
}

/// How many bytes stand before and behind the baseline that cover and lift are lent.
const AROUND: usize = 64;

/// Covers or lifts a building. The answer's number, once the port and the reading of `covers` agree in it and in every byte, also
/// those around the baseline.
pub fn alter(change: Change, building: &Building, baseline: &mut [u8]) -> Result<u32, Difference> {
    let rule = covers::after(change, building, baseline);
    let around = [u8::PAST; AROUND];
    let mut lent = [&around, &*baseline, &around].concat();
    let area = &mut lent[AROUND..AROUND + baseline.len()];
    let (call, answer) = match change {
        Change::Cover => ("cover", port::cover(building, area)),
        Change::Lift => ("lift", port::lift(building, area)),
    };
    same(&format!("{call}'s answer"), &rule.as_ref().err().copied().unwrap_or(0), &answer)?;
    let (before, rest) = lent.split_at(AROUND);
    let (found, behind) = rest.split_at(baseline.len());
    same_area(call, "baseline", rule.as_deref().unwrap_or(baseline), found)?;
    same_area(call, "bytes before the baseline", &around, before)?;
    same_area(call, "bytes behind the baseline", &around, behind)?;
    baseline.copy_from_slice(found);
    Ok(answer)
}

/// Ranks a footprint. The measure of an accepted one, or the refusal, once all agree.
pub fn rank(asked: &Asked) -> Result<Result<Measured, u32>, Difference> {
    let (answer, numbers) = port::rank(asked);
    let entrance = [asked.first, asked.second].map(|[x, y]| (x, y));
    let [no_map, no_site, _] = distances::faults(asked);
    let pixels = |cells: u32| 8 * i64::from(cells);
    if !no_map && no_site == probe::site_fits(entrance, asked.radius, (pixels(asked.across), pixels(asked.down))) {
        return Err("rank: the reading and the original differ in whether the entrance is taken".into());
    }
    let number = distances::refusal(asked);
    same("rank's answer", &number.unwrap_or(0), &answer)?;
    if let Some(number) = number {
        same("rank's numbers on a refusal", &[0; 3], &numbers)?;
        return Ok(Err(number));
    }
    let original = probe::distance_rank(rect(&asked.footprint), entrance, asked.radius);
    let measured = distances::measured(asked);
    let quotient = measured.has_rank().then_some((measured.numerator / measured.divisor) as u128);
    if quotient != original {
        return Err(format!("rank: the reading and the original differ: {quotient:?}, and {original:?}"));
    }
    let Some(quotient) = original else {
        same("rank's numbers beyond the radius", &[0; 3], &numbers)?;
        return Ok(Ok(measured));
    };
    let [found, remainder, divisor] = numbers.map(i128::from);
    same("a rank's quotient", &quotient, &(found as u128))?;
    same("a rank's divisor", &measured.divisor, &divisor)?;
    same("a rank's numerator", &measured.numerator, &(found * divisor + remainder))?;
    same("whether a rank's remainder is below its divisor", &true, &(remainder < divisor))?;
    Ok(Ok(measured))
}

/// Whether the first of two ranks, or of any numbers in their place, is closer, once both agree.
pub fn closer(a: Rank, b: Rank) -> Result<bool, Difference> {
    let is_closer = distances::order(a, b).is_lt();
    same("closer's answer", &u32::from(is_closer), &port::closer(a, b))?;
    Ok(is_closer)
}
