//! The refusals and verdicts of docs/RULES.md, 7 and 8, read from the rules alone: this module shares no code with the judge's `domain`.
//! Routes and what a set blocks (7 to 9, and the verdicts' parts) are the original's; in another order of steps than the original's, 7 to 9
//! of begin are those of the judge's `order`. The ground left is flooded by the judge's `ground`. Cover and lift are read in `covers`.

use judge::ground::reached;
use judge::order::{ORIGINAL_STEPS, Ordered};
use judge::walls::search::{WallSearch, probe};
use judge::{Mover, Rect};

use crate::port::Answer;
use crate::values::{Inputs, LIST_LENGTHS, NEXTS, Query, RECORD, ROUTE_LENGTHS, ROW, Store, Terrain, Work, rect};

/// The refusal's number and index, or nothing where the call is accepted.
type Turned = Result<(), Answer>;

fn no(number: u32) -> Turned {
    Err((number, 0))
}

fn need(holds: bool, number: u32) -> Turned {
    if holds { Ok(()) } else { no(number) }
}

fn has_pixels(r: Rect) -> bool {
    r.left < r.right && r.top < r.bottom
}

fn overlap(a: Rect, b: Rect) -> bool {
    let left = a.left.max(b.left);
    let right = a.right.min(b.right);
    let top = a.top.max(b.top);
    let bottom = a.bottom.min(b.bottom);
    left < right && top < bottom
}

/// 19 unless the row is eight pairs, each of the eight steps once.
pub fn table(steps: &[i32]) -> Turned {
    let mut pairs: Vec<&[i32]> = steps.chunks(2).collect();
    pairs.sort_unstable();
    need(pairs == [[-1, -1], [-1, 0], [-1, 1], [0, -1], [0, 1], [1, -1], [1, 0], [1, 1]], 19)
}

/// The window's number of centres; 2 where it is empty, negative, beyond the map's pixels, or too large.
fn window(query: &Query, across: i64, down: i64) -> Result<usize, Answer> {
    let [left, top, right, bottom] = query.window.map(i64::from);
    let nonempty = right - left >= 1 && bottom - top >= 1;
    let inside = left >= 0 && top >= 0 && right <= across && bottom <= down;
    need(nonempty && inside, 2)?;
    let centres = (right - left) * (bottom - top);
    need(centres <= 1_048_576, 2)?;
    Ok(centres as usize)
}

fn ends(query: &Query) -> Turned {
    let [left, top, right, bottom] = query.window.map(i64::from);
    for point in [query.start, query.end] {
        let [x, y] = point.map(i64::from);
        need(left <= x && x < right && top <= y && y < bottom, 3)?;
    }
    Ok(())
}

fn bound(mover: [u32; 4]) -> Turned {
    need(mover.iter().max() <= Some(&256), 4)
}

fn work_holds(query: &Query, centres: usize, work: &Work) -> bool {
    let (width, height) = query.size();
    work.counts.len() >= (width + 1) * (height + 1)
        && [work.map.len(), work.queue.len(), work.predecessors.len(), work.route.len()].iter().min() >= Some(&centres)
}

/// Prepare's 19, then 1 to 6.
pub fn prepare(terrain: &Terrain, query: &Query, mover: [u32; 4], steps: &[i32], baseline: &[u8], work: &Work) -> Turned {
    table(steps)?;
    let (across, down) = (terrain.across as usize, terrain.down as usize);
    need((1..=1_024).contains(&across) && (1..=1_024).contains(&down), 1)?;
    need(terrain.cells.len() == across * down, 1)?;
    need(!terrain.cells.iter().any(|&cell| cell > 1), 1)?;
    let centres = window(query, 8 * i64::from(terrain.across), 8 * i64::from(terrain.down))?;
    ends(query)?;
    bound(mover)?;
    need(terrain.obstacles.len() <= 4 * 4_096, 5)?;
    need(terrain.obstacles.len().is_multiple_of(4), 5)?;
    need(terrain.obstacles.chunks(4).all(|edges| has_pixels(rect(edges))), 5)?;
    need(baseline.len() >= centres && work_holds(query, centres, work), 6)
}

/// What a call takes besides the inputs.
#[derive(Clone, Copy)]
pub struct Taken<'a> {
    pub work: Option<&'a Work>,
    /// With the limits.
    pub store: Option<&'a Store>,
}

/// How many placements are lent: those whole in both rows, and one more for a part left over in either.
fn places(inputs: &Inputs) -> usize {
    let whole = (inputs.numbers.len() / 4).min(inputs.edges.len() / 8);
    let left_over = inputs.numbers.len() > 4 * whole || inputs.edges.len() > 8 * whole;
    whole + usize::from(left_over)
}

/// 10, 11, 12, 2, 3, 4, 6. What a baseline's bytes hold is not looked at: any count is taken.
fn before_routes(inputs: &Inputs, taken: Taken) -> Turned {
    let slots: u64 = inputs.groups.iter().map(|&count| u64::from(count)).sum();
    need(inputs.groups.len() <= 6 && !inputs.groups.contains(&0) && slots <= 6, 10)?;
    if taken.store.is_some() {
        need(inputs.states >= 1 && inputs.states <= 100_000, 11)?;
        need(inputs.results >= 1 && inputs.results <= 32, 12)?;
    }
    let query = &inputs.query;
    let centres = window(query, 8_192, 8_192)?;
    ends(query)?;
    bound(query.block)?;
    let allowing = query.allow_given != 0;
    if allowing {
        bound(query.allow)?;
    }
    need(inputs.block_base.len() >= centres, 6)?;
    need(!allowing || inputs.allow_base.len() >= centres, 6)?;
    need(taken.work.is_none_or(|work| work_holds(query, centres, work)), 6)?;
    if let Some(store) = taken.store {
        let points = 2 * (inputs.results as usize * centres).min(1_000_000);
        need(store.record.len() >= RECORD, 6)?;
        need(store.lists.len() >= 6 * places(inputs), 6)?;
        need(store.visited.len() >= 7 * inputs.states as usize, 6)?;
        need(store.layouts.len() >= 7 * inputs.results as usize, 6)?;
        need(!allowing || store.points.len() >= points, 6)?;
    }
    Ok(())
}

/// 14 and 15.
fn after_routes(inputs: &Inputs) -> Turned {
    let count = places(inputs);
    need(count <= 6_144, 14)?;
    let [left, top, right, bottom] = inputs.query.window;
    for index in 0..count {
        let fits = inputs.numbers.len() >= 4 * (index + 1) && inputs.edges.len() >= 8 * (index + 1) && {
            let edges = &inputs.edges[8 * index..8 * (index + 1)];
            let (footprint, collision) = (rect(&edges[..4]), rect(&edges[4..]));
            let inside = left <= footprint.left && top <= footprint.top && footprint.right <= right && footprint.bottom <= bottom;
            inputs.numbers[4 * index] <= 5
                && (inputs.numbers[4 * index + 1] as usize) < inputs.groups.len()
                && has_pixels(footprint)
                && has_pixels(collision)
                && inside
        };
        if !fits {
            return Err((15, index as u32));
        }
    }
    Ok(())
}

/// 7 to 9 over both baselines: the original's looks in its own order of steps, those of the judge's `order` in another.
fn routes(inputs: &Inputs) -> Turned {
    let case = judge::Case { placements: Vec::new(), ..Inputs { numbers: Vec::new(), edges: Vec::new(), ..inputs.clone() }.case() };
    let baselines = inputs.baselines();
    if inputs.steps != ORIGINAL_STEPS {
        return Ordered::on(&case, &baselines, &inputs.steps).ends_joined().or_else(no);
    }
    for baseline in [Some(&baselines.block), baselines.allow.as_ref()].into_iter().flatten() {
        probe::ends_joined(&case, baseline).or_else(no)?;
    }
    Ok(())
}

pub fn begin(inputs: &Inputs, work: &Work, store: &Store) -> Turned {
    table(&inputs.steps)?;
    before_routes(inputs, Taken { work: Some(work), store: Some(store) })?;
    routes(inputs)?;
    after_routes(inputs)
}

pub fn step(inputs: &Inputs, work: &Work, store: &Store) -> Turned {
    table(&inputs.steps)?;
    before_routes(inputs, Taken { work: Some(work), store: Some(store) })?;
    after_routes(inputs)?;
    need(record(inputs, store), 16)
}

/// Reading takes no table.
pub fn read(inputs: &Inputs, store: &Store, k: u32) -> Turned {
    before_routes(inputs, Taken { work: None, store: Some(store) })?;
    after_routes(inputs)?;
    need(record(inputs, store), 16)?;
    need(k < store.record[3], 17)
}

pub fn judge(inputs: &Inputs, work: &Work, selection: &[u16]) -> Turned {
    table(&inputs.steps)?;
    before_routes(inputs, Taken { work: Some(work), store: None })?;
    after_routes(inputs)?;
    need(selection.len() <= 6 && ascends(selection, inputs.places()), 17)
}

fn ascends(members: &[u16], places: usize) -> bool {
    let mut least = 0;
    for &member in members {
        let member = usize::from(member);
        if member < least || member >= places {
            return false;
        }
        least = member + 1;
    }
    true
}

/// Check 16.
fn record(inputs: &Inputs, store: &Store) -> bool {
    let numbers = &store.record;
    let [reason, evaluations, placements, layouts, lists, pending] = [0, 1, 2, 3, 4, 5].map(|k| numbers[k]);
    let count = inputs.places();
    let named = (1..=4).contains(&reason) && pending <= 1;
    let running = reason == 1;
    let within = evaluations <= inputs.states && layouts <= inputs.results && !(running && layouts == inputs.results);
    if !named || placements as usize != count || !within || lists > 6 {
        return false;
    }
    let rows_hold = |area: &[u16], rows: u32| {
        (0..rows as usize).all(|k| {
            let length = usize::from(area[ROW * k]);
            length <= 6 && ascends(&area[ROW * k + 1..ROW * k + 1 + length], count)
        })
    };
    rows_hold(&store.visited, evaluations)
        && rows_hold(&store.layouts, layouts)
        && kept_routes(inputs, &numbers[ROUTE_LENGTHS..ROUTE_LENGTHS + layouts as usize])
        && stack(inputs, store, lists as usize, pending == 1)
}

fn kept_routes(inputs: &Inputs, lengths: &[u32]) -> bool {
    let (width, height) = inputs.query.size();
    let most = if inputs.query.allow_given == 0 { 0 } else { width * height };
    let total: u64 = lengths.iter().map(|&length| u64::from(length)).sum();
    lengths.iter().all(|&length| length as usize <= most) && total <= 1_000_000
}

/// The lists from the bottom up; `set` is what the placements last taken make.
fn stack(inputs: &Inputs, store: &Store, lists: usize, pending: bool) -> bool {
    let count = inputs.places();
    let mut set: Vec<usize> = Vec::new();
    for k in 0..lists {
        let length = store.record[LIST_LENGTHS + k] as usize;
        let next = store.record[NEXTS + k] as usize;
        if length > count || next > length {
            return false;
        }
        let entries = &store.lists[k * count..k * count + length];
        if !entries.iter().all(|&entry| joins(inputs, &set, usize::from(entry))) {
            return false;
        }
        if k + 1 == lists && !pending {
            break;
        }
        if next == 0 {
            return false;
        }
        set.push(usize::from(entries[next - 1]));
    }
    true
}

fn group(inputs: &Inputs, index: usize) -> usize {
    inputs.numbers[4 * index + 1] as usize
}

fn footprint(inputs: &Inputs, index: usize) -> Rect {
    rect(&inputs.edges[8 * index..8 * index + 4])
}

fn joins(inputs: &Inputs, set: &[usize], entry: usize) -> bool {
    if entry >= inputs.places() || set.contains(&entry) {
        return false;
    }
    let taken = set.iter().filter(|&&member| group(inputs, member) == group(inputs, entry)).count();
    taken < inputs.groups[group(inputs, entry)] as usize
        && !set.iter().any(|&member| overlap(footprint(inputs, member), footprint(inputs, entry)))
}

/// The blocked mover's ground, and counts that it must not be taken for.
#[derive(Debug, Clone, Copy)]
pub struct Ground {
    pub left: u32,
    /// All open centres.
    pub open: u32,
    /// The ground left, were start and end exchanged.
    pub from_end: u32,
    /// The ground left, were the end closed.
    pub without_end: u32,
    /// Whether the baseline alone closes the start.
    pub start_shut: bool,
}

#[derive(Debug, Clone, Copy)]
pub struct Judged {
    pub verdict: u32,
    pub ground: Ground,
}

/// What an accepted selection comes to. Covers, routes and minimality are the original's; the ground is flooded.
pub fn judged(inputs: &Inputs, original: &WallSearch, selection: &[u16]) -> Judged {
    let set: Vec<u32> = selection.iter().map(|&member| u32::from(member)).collect();
    let cover = probe::cover(original, Mover::Block, &set).expect("the blocked mover");
    Judged { verdict: verdict(inputs, original, &set, &cover), ground: ground(inputs, &cover) }
}

/// The number of the centre at a pixel of the window.
fn centre(query: &Query, [x, y]: [u32; 2]) -> usize {
    let [left, top, ..] = query.window.map(|edge| edge as u32);
    (y - top) as usize * query.size().0 + (x - left) as usize
}

fn ground(inputs: &Inputs, cover: &[bool]) -> Ground {
    let query = &inputs.query;
    let from = |cover: &[bool], [x, y]: [u32; 2]| reached(cover, rect(&query.window), (x, y));
    let mut end_closed = cover.to_vec();
    end_closed[centre(query, query.end)] = true;
    Ground {
        left: from(cover, query.start),
        open: cover.iter().filter(|&&off| !off).count() as u32,
        from_end: from(cover, query.end),
        without_end: from(&end_closed, query.start),
        start_shut: inputs.block_base[centre(query, query.start)] != 0,
    }
}

/// The first verdict that applies.
fn verdict(inputs: &Inputs, original: &WallSearch, set: &[u32], cover: &[bool]) -> u32 {
    let query = &inputs.query;
    let members: Vec<usize> = set.iter().map(|&member| member as usize).collect();
    let overfull = |k: usize| members.iter().filter(|&&m| group(inputs, m) == k).count() > inputs.groups[k] as usize;
    if (0..inputs.groups.len()).any(overfull) {
        return 1;
    }
    let meet = |(at, &m): (usize, &usize)| members[..at].iter().any(|&o| overlap(footprint(inputs, o), footprint(inputs, m)));
    if members.iter().enumerate().any(meet) {
        return 2;
    }
    if cover[centre(query, query.start)] || cover[centre(query, query.end)] {
        return 3;
    }
    if probe::route_past(original, Mover::Block, set).is_some() {
        return 4;
    }
    if !probe::is_minimal(original, set) {
        return 5;
    }
    if query.allow_given != 0 && probe::route_past(original, Mover::Allow, set).is_none() {
        return 6;
    }
    7
}
