//! Calls with faults: a search in some state, one or two of its values altered, then all seven calls. `rules` and `covers` say what
//! each answers; what `rules` accepts is run by the original too.

use judge::generate::{Generator, Rng};
use judge::order::ORIGINAL_STEPS;
use judge::{Baselines, Search};

use crate::both::{self, Difference};
use crate::buildings::near;
use crate::counts::{BEGIN, CALLS, COUNTS_ABOVE_ONE, COVER, Counts, JUDGE, LIFT, PREPARE, READ, STEP};
use crate::covers::Change;
use crate::searches::drawn;
use crate::values::{
    Building, Inputs, LIST_LENGTHS, MEMBERS, MORE, NEXTS, Query, ROUTE_LENGTHS, ROW, Store, Terrain, Word, Work, clean, soil,
};

/// Everything that the seven calls are lent.
#[derive(Debug, Clone)]
pub struct World {
    terrain: Terrain,
    /// The mover and the baseline of prepare, cover and lift.
    mover: [u32; 4],
    baseline: Vec<u8>,
    building: [i32; 4],
    inputs: Inputs,
    work: Work,
    store: Store,
    n: u32,
    k: u32,
    selection: Vec<u16>,
}

type Fault = (&'static str, fn(&mut World, &mut Rng));

const FAULTS: &[Fault] = &[
    ("map size", map_size),
    ("cells", cells),
    ("obstacles", obstacles),
    ("obstacles in the way", in_the_way),
    ("window", window),
    ("window beyond the map", beyond_the_map),
    ("window too large", too_large),
    ("ends", ends),
    ("mover", mover),
    ("bounds", bounds),
    ("allowed mover", allowed),
    ("groups", groups),
    ("states", states),
    ("results", results),
    ("prepare's baseline short", |world, rng| shorten(&mut world.baseline, rng)),
    ("blocked mover's baseline short", |world, rng| shorten(&mut world.inputs.block_base, rng)),
    ("allowed mover's baseline short", |world, rng| shorten(&mut world.inputs.allow_base, rng)),
    (COUNTS_ABOVE_ONE, counts_above_one),
    ("building", building),
    ("counts at an end", counts_at_an_end),
    ("ground", ground),
    ("ground", ground),
    ("counts short", |world, rng| shorten(&mut world.work.counts, rng)),
    ("map short", |world, rng| shorten(&mut world.work.map, rng)),
    ("queue short", |world, rng| shorten(&mut world.work.queue, rng)),
    ("predecessors short", |world, rng| shorten(&mut world.work.predecessors, rng)),
    ("route short", |world, rng| shorten(&mut world.work.route, rng)),
    ("record short", |world, rng| world.store.record.truncate(pick(&[50, 49, 49, 6, 0], rng))),
    ("lists short", |world, rng| shorten(&mut world.store.lists, rng)),
    ("visited short", |world, rng| shorten(&mut world.store.visited, rng)),
    ("layouts short", |world, rng| shorten(&mut world.store.layouts, rng)),
    ("points short", |world, rng| shorten(&mut world.store.points, rng)),
    ("too many places", too_many_places),
    ("place", place),
    ("place", place),
    ("part of a place", part_of_a_place),
    ("reason", reason),
    ("record number", record_number),
    ("pending", pending),
    ("route length", route_length),
    ("list length", list_length),
    ("next", next),
    ("list entry", list_entry),
    ("list entry", list_entry),
    ("visited row", visited_row),
    ("layout row", layout_row),
    ("layout number", layout_number),
    ("layout number", layout_number),
    ("selection", selection),
    ("selection", selection),
];

/// Draws so many worlds, each altered eight times over.
pub fn run(seed: u64, worlds: u64, counts: &mut Counts, progress: &dyn Fn(&str)) -> Result<(), String> {
    let mut generator = Generator::new(seed);
    let mut rng = Rng::new(!seed);
    let mut made = 0;
    while made < worlds {
        let Some(world) = World::draw(&mut generator, &mut rng) else {
            continue;
        };
        made += 1;
        for _ in 0..8 {
            altered(&world, &mut rng, counts)?;
        }
        if made % 5_000 == 0 {
            progress(&format!("{made} searches altered"));
        }
    }
    Ok(())
}

fn faults(count: u32, rng: &mut Rng) -> Vec<(Fault, Rng)> {
    (0..count)
        .map(|_| {
            let fault = FAULTS[rng.below(FAULTS.len() as u32) as usize];
            (fault, Rng::new(rng.draw()))
        })
        .collect()
}

fn altered(world: &World, rng: &mut Rng, counts: &mut Counts) -> Result<(), String> {
    let count = 1 + rng.below(2);
    let drawn = faults(count, rng);
    counts.double_faults += u64::from(count > 1);
    let before = counts.answers;
    if let Err(text) = with(world, &drawn, counts) {
        // One of two faults alone, where that differs too.
        let alone = drawn.iter().find_map(|fault| with(world, std::slice::from_ref(fault), &mut Counts::default()).err());
        return Err(alone.unwrap_or(text));
    }
    if let [((name, _), _)] = drawn[..] {
        counts.fault(name, &before);
    }
    Ok(())
}

/// Calls a world with these faults.
fn with(world: &World, faults: &[(Fault, Rng)], counts: &mut Counts) -> Result<(), String> {
    let names: Vec<&str> = faults.iter().map(|((name, _), _)| *name).collect();
    world.with(faults).call(counts).map(drop).map_err(|difference| format!("{difference}\naltered: {names:?}"))
}

impl World {
    /// A search in the middle of its course. Working areas and baseline are dirty, mostly also the store's unused entries, so that
    /// a refused call that writes is seen.
    pub fn draw(generator: &mut Generator, rng: &mut Rng) -> Option<Self> {
        let item = generator.item();
        let baselines = match &item.given {
            Some(given) => given.clone(),
            None => Baselines::prepare(&item.case).ok()?,
        };
        let mut search = Search::begin_on(&item.case, &baselines).ok()?;
        search.step([0, 1, 2, 3, 4, 6, 10, 500][rng.below(8) as usize]);
        let inputs = Inputs::of(&item.case, &baselines.block, baselines.allow.as_deref(), &ORIGINAL_STEPS);
        let held = search.snapshot();
        if held.layouts.is_empty() && rng.chance(2, 3) {
            return None;
        }
        let mut work = Work::clean(&inputs.query);
        work.soil(rng);
        let mut baseline = clean(item.case.centres());
        soil(&mut baseline, item.case.centres(), rng);
        let mut store = Store::clean(inputs.needs());
        if rng.chance(3, 4) {
            store.soil(inputs.needs(), rng);
        }
        store.lay(&held, inputs.needs());
        let mover = if inputs.query.allow_given != 0 && rng.chance(1, 2) { inputs.query.allow } else { inputs.query.block };
        Some(Self {
            terrain: Terrain::of(&item.case),
            building: near(inputs.query.window, rng),
            mover,
            baseline,
            work,
            store,
            n: [0, 1, 3, u32::MAX][rng.below(4) as usize],
            k: rng.below(held.layouts.len().max(1) as u32),
            selection: drawn(inputs.places() as u32, rng),
            inputs,
        })
    }

    /// The world with these faults.
    fn with(&self, faults: &[(Fault, Rng)]) -> Self {
        let mut faulty = self.clone();
        for ((_, alter), rng) in faults {
            alter(&mut faulty, &mut rng.clone());
        }
        faulty
    }

    /// The world with so many drawn faults.
    pub fn faulty(&self, count: u32, rng: &mut Rng) -> Self {
        self.with(&faults(count, rng))
    }

    /// The world with another table of steps.
    pub fn in_order(&self, steps: &[i32]) -> Self {
        let mut world = self.clone();
        world.inputs.steps = steps.to_vec();
        world
    }

    /// Makes the seven calls, each on the world as it is. What they answered.
    pub fn call(&self, counts: &mut Counts) -> Result<[u32; CALLS.len()], String> {
        self.answers(counts).map_err(|difference| format!("DIFFERENCE {difference}\n{self:?}"))
    }

    fn answers(&self, counts: &mut Counts) -> Result<[u32; CALLS.len()], Difference> {
        let mut answers = [0; CALLS.len()];
        let steps = &self.inputs.steps;
        let mut lent = self.clone();
        answers[PREPARE] = both::prepare(&self.terrain, &self.inputs.query, self.mover, steps, &mut lent.baseline, &mut lent.work)?;
        let mut lent = self.clone();
        answers[BEGIN] = both::begin(&self.inputs, &mut lent.store, &mut lent.work)?.err().unwrap_or(0);
        let mut lent = self.clone();
        answers[STEP] = both::step(&self.inputs, &mut lent.store, self.n, &mut lent.work, None)?.err().unwrap_or(0);
        answers[READ] = both::read(&self.inputs, &self.store, self.k)?;
        let mut lent = self.clone();
        let judged = both::judge(&self.inputs, &self.selection, &mut lent.work, None)?;
        answers[JUDGE] = judged.err().unwrap_or(0);
        let building = Building { window: self.inputs.query.window, mover: self.mover, rect: self.building };
        answers[COVER] = both::alter(Change::Cover, &building, &mut self.baseline.clone())?;
        answers[LIFT] = both::alter(Change::Lift, &building, &mut self.baseline.clone())?;
        counts.judged(judged);
        for call in [PREPARE, BEGIN, STEP, READ, COVER, LIFT] {
            counts.answer(call, answers[call]);
        }
        Ok(answers)
    }

    fn places(&self) -> u32 {
        self.inputs.places() as u32
    }
}

fn pick<T: Copy>(from: &[T], rng: &mut Rng) -> T {
    from[rng.below(from.len() as u32) as usize]
}

fn map_size(world: &mut World, rng: &mut Rng) {
    let size = pick(&[0, 1_025, u32::MAX, 1_024, 1], rng);
    if rng.chance(1, 2) {
        world.terrain.across = size;
    } else {
        world.terrain.down = size;
    }
}

fn cells(world: &mut World, rng: &mut Rng) {
    let count = world.terrain.cells.len() as u32;
    match rng.below(4) {
        0 => world.terrain.cells.push(1),
        1 => drop(world.terrain.cells.pop()),
        2 => world.terrain.cells[rng.below(count) as usize] = pick(&[2, 3, 255], rng),
        _ => world.terrain.cells[rng.below(count) as usize] ^= 1,
    }
}

fn obstacles(world: &mut World, rng: &mut Rng) {
    let row = &mut world.terrain.obstacles;
    let empty = pick(&[[3, 3, 3, 4], [3, 3, 4, 3], [5, 0, 4, 9], [0, 9, 4, -9], [i32::MAX, 0, i32::MIN, 1], [0; 4]], rng);
    match rng.below(6) {
        0 => (0..4 * 4_097).for_each(|k| row.insert(0, [1, 1, 0, 0][k % 4])),
        1 => {
            let more = 4_096_usize.saturating_sub(row.len() / 4);
            row.extend([-9, -9, -8, -8].repeat(more));
        }
        2 => {
            let more = 4_096_usize.saturating_sub(row.len() / 4);
            row.extend([-9, -9, -8, -8].repeat(more));
            row.push(1);
        }
        3 => row.extend([-9, -9, -8, -8, 1, 2, 3].iter().take(4 + 1 + rng.below(3) as usize)),
        4 => row.splice(0..0, empty).for_each(drop),
        _ => row.extend(empty),
    }
}

/// An obstacle over the start, over the end, or across the window between them.
fn in_the_way(world: &mut World, rng: &mut Rng) {
    let query = &world.inputs.query;
    let one = |[x, y]: [u32; 2]| {
        let (x, y) = (x.min(1 << 20) as i32, y.min(1 << 20) as i32);
        [x, y, x + 1, y + 1]
    };
    let [left, top, right, bottom] = query.window;
    let middle = (i64::from(left) + i64::from(right)).div_euclid(2) as i32;
    let across = (i64::from(top) + i64::from(bottom)).div_euclid(2) as i32;
    let obstacle = match rng.below(4) {
        0 => one(query.start),
        1 => one(query.end),
        2 => [middle, i32::MIN, middle.saturating_add(1), i32::MAX],
        _ => [i32::MIN, across, i32::MAX, across.saturating_add(1)],
    };
    world.terrain.obstacles.extend(obstacle);
}

fn window(world: &mut World, rng: &mut Rng) {
    let [left, top, right, bottom] = world.inputs.query.window;
    world.inputs.query.window = match rng.below(12) {
        0 => [right, top, right, bottom],
        1 => [left, bottom, right, bottom],
        2 => [right, top, left, bottom],
        3 => [left, bottom, right, top],
        4 => [-1, top, right, bottom],
        5 => [left, -1, right, bottom],
        6 => [left, top, 8_193, bottom],
        7 => [left, top, right, 8_193],
        8 => [i32::MIN, i32::MIN, i32::MAX, i32::MAX],
        9 => [i32::MAX, i32::MAX, i32::MIN, i32::MIN],
        10 => [left, top, right.saturating_add(1), bottom],
        _ => [left, top, right, bottom.saturating_sub(1)],
    };
}

fn beyond_the_map(world: &mut World, rng: &mut Rng) {
    let edge = |cells: u32| cells.min(2_000) as i32 * 8 + 1;
    if rng.chance(1, 2) {
        world.inputs.query.window[2] = edge(world.terrain.across);
    } else {
        world.inputs.query.window[3] = edge(world.terrain.down);
    }
}

/// Windows at and above the most centres, on a map that holds them.
fn too_large(world: &mut World, rng: &mut Rng) {
    if rng.chance(1, 2) {
        world.terrain.across = 1_024;
        world.terrain.down = 17;
        world.terrain.cells = vec![1; 1_024 * 17];
    }
    let sizes =
        [[0, 0, 8_192, 129], [0, 7, 8_192, 135], [0, 7, 8_192, 136], [0, 0, 8_192, 128], [0, 0, 1_024, 1_025], [3, 5, 1_027, 1_029]];
    world.inputs.query.window = pick(&sizes, rng);
}

fn ends(world: &mut World, rng: &mut Rng) {
    let query = &mut world.inputs.query;
    let [left, top, right, bottom] = query.window.map(|edge| edge as u32);
    let (axis, value) = pick(
        &[(0, left.wrapping_sub(1)), (0, right), (0, u32::MAX), (1, top.wrapping_sub(1)), (1, bottom), (1, u32::MAX), (0, left), (1, top)],
        rng,
    );
    let end = if rng.chance(1, 2) { &mut query.start } else { &mut query.end };
    end[axis] = value;
}

fn mover(world: &mut World, rng: &mut Rng) {
    world.mover[rng.below(4) as usize] = pick(&[257, 257, u32::MAX, 256, 255, 20], rng);
}

fn bounds(world: &mut World, rng: &mut Rng) {
    let query = &mut world.inputs.query;
    let mover = if rng.chance(1, 2) { &mut query.block } else { &mut query.allow };
    mover[rng.below(4) as usize] = pick(&[257, 257, u32::MAX, 256, 3], rng);
}

/// Another allowed mover, one more, or one less.
fn allowed(world: &mut World, rng: &mut Rng) {
    let query = &mut world.inputs.query;
    match rng.below(4) {
        0 => query.allow_given = 0,
        1 => query.allow_given = pick(&[1, 2, u32::MAX], rng),
        2 => {
            query.allow_given = 1;
            query.allow = [0, 1, 0, 1];
        }
        _ => {
            query.allow_given = 1;
            query.allow = [0; 4];
            world.inputs.allow_base = world.inputs.block_base.clone();
            world.store.points.resize(2 * 32 * world.inputs.block_base.len(), 0);
        }
    }
}

fn groups(world: &mut World, rng: &mut Rng) {
    let groups = &mut world.inputs.groups;
    match rng.below(8) {
        0 => *groups = vec![1; 7],
        1 => groups.push(0),
        2 => groups.push(7),
        3 => *groups = vec![3, 4],
        4 => *groups = vec![u32::MAX, 1, 1],
        5 => *groups = vec![1 << 31, 1 << 31, 1],
        6 => *groups = vec![1; 6],
        _ => drop(groups.pop()),
    }
}

fn states(world: &mut World, rng: &mut Rng) {
    let evaluations = world.store.record.get(1).copied().unwrap_or(0);
    world.inputs.states = pick(&[0, 0, 100_001, 100_001, u32::MAX, 100_000, evaluations, evaluations.wrapping_sub(1)], rng);
}

fn results(world: &mut World, rng: &mut Rng) {
    let layouts = world.store.record.get(3).copied().unwrap_or(0);
    world.inputs.results = pick(&[0, 0, 33, 33, u32::MAX, 32, layouts, layouts.wrapping_sub(1)], rng);
}

/// An area one entry too short, or empty.
fn shorten<T: Word>(area: &mut Vec<T>, rng: &mut Rng) {
    let need = area.len().saturating_sub(MORE);
    let length = pick(&[need, need.saturating_sub(1), need.saturating_sub(1), 0], rng);
    area.truncate(length);
}

/// A count above 1 at one centre, or in place of every 1.
fn counts_above_one(world: &mut World, rng: &mut Rng) {
    let base = if rng.chance(1, 2) { &mut world.inputs.block_base } else { &mut world.inputs.allow_base };
    if base.is_empty() {
        return;
    }
    if rng.chance(1, 2) {
        let at = rng.below(base.len() as u32) as usize;
        base[at] = pick(&[2, 2, 128, 255], rng);
        return;
    }
    for count in base.iter_mut().filter(|count| **count == 1) {
        *count = pick(&[2, 2, 128, 255], rng);
    }
}

/// A rectangle that is empty, inverted, or at the ends of 32 bits.
fn building(world: &mut World, rng: &mut Rng) {
    let [left, top, right, bottom] = world.building;
    world.building = match rng.below(8) {
        0 => [left, top, left, bottom],
        1 => [left, top, right, top],
        2 => [right, top, left, bottom],
        3 => [left, bottom, right, top],
        4 => [i32::MAX, i32::MAX, i32::MIN, i32::MIN],
        5 => [i32::MIN, i32::MIN, i32::MAX, i32::MAX],
        6 => [i32::MIN, top, i32::MIN + 1, bottom],
        _ => [left, i32::MAX - 1, right, i32::MAX],
    };
}

/// The baseline of cover and lift at 0 or at 255, everywhere or at some centres.
fn counts_at_an_end(world: &mut World, rng: &mut Rng) {
    let (end, of) = (pick(&[0, 255], rng), pick(&[1, 4, 40], rng));
    for count in &mut world.baseline {
        if rng.chance(1, of) {
            *count = end;
        }
    }
}

/// The start closed, the end closed, or a column or row, for one of the movers.
fn ground(world: &mut World, rng: &mut Rng) {
    let base = if rng.chance(1, 2) { &mut world.inputs.block_base } else { &mut world.inputs.allow_base };
    close(&world.inputs.query, base, rng.below(4), pick(&[1, 1, 2, 255], rng));
}

/// Closes the start (kind 0), the end (1), the middle column (2) or the middle row (any other) by a count; the last two leave the ends
/// open.
pub fn close(query: &Query, base: &mut [u8], kind: u32, count: u8) {
    let [left, top, right, bottom] = query.window.map(i64::from);
    let at = |[x, y]: [u32; 2]| (i128::from(i64::from(y) - top) * i128::from(right - left) + i128::from(i64::from(x) - left)) as usize;
    let (start, end) = (at(query.start), at(query.end));
    let width = (right - left).max(1) as usize;
    let (column, line) = (width / 2, ((bottom - top).max(1) / 2) as usize);
    for (centre, byte) in base.iter_mut().enumerate() {
        let closed = match kind {
            0 => centre == start,
            1 => centre == end,
            2 => centre % width == column && centre != start && centre != end,
            _ => centre / width == line && centre != start && centre != end,
        };
        if closed && *byte == 0 {
            *byte = count;
        }
    }
}

/// 6,144 places or more, with or without lists for them.
fn too_many_places(world: &mut World, rng: &mut Rng) {
    if world.inputs.numbers.is_empty() || !world.inputs.numbers.len().is_multiple_of(4) || world.inputs.edges.len() < 8 {
        return;
    }
    let count = if rng.chance(1, 20) { 70_000 } else { pick(&[6_144, 6_145, 6_145, 6_146, 10_923], rng) };
    let place = world.inputs.edges[..8].to_vec();
    let numbers = world.inputs.numbers[..4].to_vec();
    while world.inputs.edges.len() < 8 * count {
        world.inputs.edges.extend(&place);
        world.inputs.numbers.extend(&numbers);
    }
    if rng.chance(1, 4) {
        world.inputs.numbers.push(0);
    }
    if rng.chance(3, 4) {
        world.store.lists = clean(MEMBERS * (count + 1));
    }
}

fn place(world: &mut World, rng: &mut Rng) {
    let groups = world.inputs.groups.len() as u32;
    let [left, top, right, bottom] = world.inputs.query.window;
    let count = world.places();
    if count == 0 || world.inputs.edges.len() < 8 * count as usize {
        return;
    }
    let index = rng.below(count) as usize;
    let numbers = &mut world.inputs.numbers[4 * index..4 * index + 4];
    let edges = &mut world.inputs.edges[8 * index..8 * index + 8];
    match rng.below(13) {
        0 => numbers[0] = pick(&[6, u32::MAX], rng),
        1 => numbers[1] = pick(&[groups, u32::MAX], rng),
        2 => numbers[2] = u32::MAX,
        3 => edges[2] = edges[0],
        4 => edges[3] = edges[1],
        5 => edges[4] = edges[6],
        6 => edges[7] = i32::MIN,
        7 => edges[0] = left.saturating_sub(1),
        8 => edges[1] = top.saturating_sub(1),
        9 => edges[2] = right.saturating_add(1),
        10 => edges[3] = bottom.saturating_add(1),
        11 => edges[4..8].copy_from_slice(&[i32::MIN, i32::MIN, i32::MAX, i32::MAX]),
        _ => edges[0..4].copy_from_slice(&[left, top, right, bottom]),
    }
}

fn part_of_a_place(world: &mut World, rng: &mut Rng) {
    let Inputs { numbers, edges, .. } = &mut world.inputs;
    match rng.below(6) {
        0 => numbers.extend([0, 0, 0].iter().take(1 + rng.below(3) as usize)),
        1 => edges.extend([0, 0, 1, 1, 0, 0, 1].iter().take(1 + rng.below(7) as usize)),
        2 => numbers.extend([0; 4]),
        3 => edges.extend([0, 0, 1, 1, 0, 0, 1, 1]),
        4 => drop(numbers.pop()),
        _ => drop(edges.pop()),
    }
    if rng.chance(2, 3) {
        let count = (numbers.len().div_ceil(4)).max(edges.len().div_ceil(8));
        world.store.lists.resize(MEMBERS * (count + 1), u16::PAST);
    }
}

fn reason(world: &mut World, rng: &mut Rng) {
    if let Some(reason) = world.store.record.first_mut() {
        *reason = pick(&[0, 5, u32::MAX, 1, 2, 3, 4], rng);
    }
}

/// Evaluations, placements, layouts or lists, one more, one less, or the most.
fn record_number(world: &mut World, rng: &mut Rng) {
    let at = 1 + rng.below(4) as usize;
    if let Some(number) = world.store.record.get_mut(at) {
        *number = pick(&[number.wrapping_add(1), number.wrapping_sub(1), u32::MAX, 7, 0], rng);
    }
}

fn pending(world: &mut World, rng: &mut Rng) {
    if let Some(pending) = world.store.record.get_mut(5) {
        *pending = pick(&[2, u32::MAX, 1, 0], rng);
    }
}

fn route_length(world: &mut World, rng: &mut Rng) {
    if world.store.record.len() < 50 {
        return;
    }
    let centres = world.inputs.block_base.len().saturating_sub(MORE) as u32;
    let used = world.store.record[3].clamp(1, 32);
    let at = ROUTE_LENGTHS + rng.below(used) as usize;
    world.store.record[at] = pick(&[centres, centres + 1, u32::MAX, 1, 0], rng);
}

fn list_length(world: &mut World, rng: &mut Rng) {
    if world.store.record.len() < 50 {
        return;
    }
    let places = world.places();
    let used = world.store.record[4].clamp(1, 6);
    let length = &mut world.store.record[LIST_LENGTHS + rng.below(used) as usize];
    *length = pick(&[length.wrapping_add(1), length.wrapping_sub(1), places, places + 1, u32::MAX, 0], rng);
}

fn next(world: &mut World, rng: &mut Rng) {
    if world.store.record.len() < 50 {
        return;
    }
    let used = world.store.record[4].clamp(1, 6);
    let at = NEXTS + rng.below(used) as usize;
    let length = world.store.record[at - MEMBERS];
    let next = &mut world.store.record[at];
    *next = pick(&[0, 0, length, length.wrapping_add(1), u32::MAX, next.wrapping_add(1), next.wrapping_sub(1)], rng);
}

fn list_entry(world: &mut World, rng: &mut Rng) {
    let places = world.places();
    if world.store.record.len() < 50 || places == 0 {
        return;
    }
    let list = rng.below(world.store.record[4].clamp(1, 6)) as usize;
    let length = world.store.record[LIST_LENGTHS + list].clamp(1, places);
    let at = list * places as usize + rng.below(length) as usize;
    if let Some(entry) = world.store.lists.get_mut(at) {
        *entry = pick(&[rng.below(places) as u16, rng.below(places) as u16, places as u16, u16::MAX], rng);
    }
}

fn row(area: &mut [u16], rows: u32, places: u32, rng: &mut Rng) {
    let at = ROW * rng.below(rows.clamp(1, 100_000)) as usize;
    let Some(row) = area.get_mut(at..at + ROW) else {
        return;
    };
    match rng.below(6) {
        0 => row[0] = pick(&[7, u16::MAX], rng),
        1 => row[0] = rng.below(7) as u16,
        2 => row[1 + rng.below(6) as usize] = pick(&[places as u16, u16::MAX], rng),
        3 => row.copy_from_slice(&[2, 0, 0, 0, 0, 0, 0]),
        4 => row.copy_from_slice(&[2, 1, 0, 0, 0, 0, 0]),
        _ => row.copy_from_slice(&[2, 0, 1, 9, 9, 9, 9]),
    }
}

fn visited_row(world: &mut World, rng: &mut Rng) {
    let (rows, places) = (world.store.record.get(1).copied().unwrap_or(0), world.places());
    row(&mut world.store.visited, rows, places, rng);
}

fn layout_row(world: &mut World, rng: &mut Rng) {
    let (rows, places) = (world.store.record.get(3).copied().unwrap_or(0), world.places());
    row(&mut world.store.layouts, rows, places, rng);
}

fn layout_number(world: &mut World, rng: &mut Rng) {
    let layouts = world.store.record.get(3).copied().unwrap_or(0);
    world.k = pick(&[layouts, layouts, layouts.wrapping_add(1), u32::MAX, 32], rng);
}

fn selection(world: &mut World, rng: &mut Rng) {
    let places = world.places() as u16;
    let chosen = &mut world.selection;
    match rng.below(7) {
        0 => *chosen = (0..7).collect(),
        1 => chosen.push(places),
        2 => chosen.push(u16::MAX),
        3 => chosen.extend(chosen.last().copied()),
        4 => *chosen = vec![1, 0],
        5 => *chosen = vec![0, 0],
        _ => chosen.clear(),
    }
}
