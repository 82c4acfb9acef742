//! What the calls are lent: inputs laid flat, working areas, and the record with its store. Areas are lent longer than
//! needed; what stands past the needed length is `Word::PAST` and must stay so.

use judge::generate::Rng;
use judge::{Case, Layout, List, Placement, Reason, Rect, Snapshot};

/// How many entries an area is longer than needed.
pub const MORE: usize = 3;
/// The record's numbers, and where its parts begin.
pub const RECORD: usize = 50;
pub const ROUTE_LENGTHS: usize = 6;
pub const LIST_LENGTHS: usize = 38;
pub const NEXTS: usize = 44;
/// Most members of a set, and the length of a visited or layout row.
pub const MEMBERS: usize = 6;
pub const ROW: usize = 7;
pub const MOST_POINTS: usize = 1_000_000;

/// An area's element.
pub trait Word: Copy + PartialEq + std::fmt::Debug {
    /// Stands past the needed length.
    const PAST: Self;
    const NONE: Self;
    fn dirt(rng: &mut Rng) -> Self;
}

macro_rules! word {
    ($type:ty, $past:expr) => {
        impl Word for $type {
            const PAST: Self = $past;
            const NONE: Self = 0;
            fn dirt(rng: &mut Rng) -> Self {
                rng.draw() as Self
            }
        }
    };
}
word!(u8, 0xA5);
word!(u16, 0xBEEF);
word!(u32, 0xDEAD_BEEF);
word!(i32, -77_777);
word!(u64, 0xDEAD_BEEF_F00D_CAFE);

/// Zeros up to `need`, then what must not be touched.
pub fn clean<T: Word>(need: usize) -> Vec<T> {
    let mut area = vec![T::NONE; need];
    area.resize(need + MORE, T::PAST);
    area
}

/// Every entry below `need` drawn.
pub fn soil<T: Word>(area: &mut [T], need: usize, rng: &mut Rng) {
    for entry in &mut area[..need] {
        *entry = T::dirt(rng);
    }
}

#[derive(Debug, Clone)]
pub struct Terrain {
    pub across: u32,
    pub down: u32,
    pub cells: Vec<u8>,
    pub obstacles: Vec<i32>,
}

#[derive(Debug, Clone)]
pub struct Query {
    pub window: [i32; 4],
    pub start: [u32; 2],
    pub end: [u32; 2],
    pub block: [u32; 4],
    pub allow_given: u32,
    pub allow: [u32; 4],
}

/// What cover and lift take besides the baseline.
#[derive(Debug, Clone, Copy)]
pub struct Building {
    pub window: [i32; 4],
    pub mover: [u32; 4],
    pub rect: [i32; 4],
}

/// What rank takes.
#[derive(Debug, Clone, Copy, PartialEq, Eq)]
pub struct Asked {
    /// The map's size in walk cells.
    pub across: u32,
    pub down: u32,
    /// The entrance's ends.
    pub first: [u32; 2],
    pub second: [u32; 2],
    pub radius: u32,
    pub footprint: [i32; 4],
}

/// Quotient, remainder and divisor.
pub type Rank = [u64; 3];

#[derive(Debug, Clone)]
pub struct Inputs {
    pub query: Query,
    pub states: u32,
    pub results: u32,
    pub groups: Vec<u32>,
    pub numbers: Vec<u32>,
    pub edges: Vec<i32>,
    pub block_base: Vec<u8>,
    pub allow_base: Vec<u8>,
    /// The order of steps.
    pub steps: Vec<i32>,
}

/// The lengths that the areas need for accepted inputs.
#[derive(Debug, Clone, Copy)]
pub struct Needs {
    pub lists: usize,
    pub visited: usize,
    pub layouts: usize,
    pub points: usize,
}

#[derive(Debug, Clone, PartialEq)]
pub struct Work {
    pub counts: Vec<i32>,
    pub map: Vec<u8>,
    pub queue: Vec<u32>,
    pub predecessors: Vec<u32>,
    pub route: Vec<u32>,
}

#[derive(Debug, Clone, PartialEq)]
pub struct Store {
    pub record: Vec<u32>,
    pub lists: Vec<u16>,
    pub visited: Vec<u16>,
    pub layouts: Vec<u16>,
    pub points: Vec<u32>,
}

fn edges(rect: Rect) -> [i32; 4] {
    [rect.left, rect.top, rect.right, rect.bottom]
}

pub fn rect(edges: &[i32]) -> Rect {
    Rect::new(edges[0], edges[1], edges[2], edges[3])
}

fn bounds(bounds: judge::Bounds) -> [u32; 4] {
    [bounds.left, bounds.top, bounds.right, bounds.bottom]
}

impl Terrain {
    pub fn of(case: &Case) -> Self {
        Self {
            across: case.map.0,
            down: case.map.1,
            cells: case.cells.clone(),
            obstacles: case.obstacles.iter().copied().flat_map(edges).collect(),
        }
    }
}

impl Query {
    pub fn of(case: &Case) -> Self {
        Self {
            window: edges(case.window),
            start: [case.start.0, case.start.1],
            end: [case.end.0, case.end.1],
            block: bounds(case.block),
            allow_given: u32::from(case.allow.is_some()),
            allow: case.allow.map_or([u32::MAX, 999, 0, 7], bounds),
        }
    }

    /// Width and height of an accepted window.
    pub fn size(&self) -> (usize, usize) {
        let [left, top, right, bottom] = self.window.map(i64::from);
        ((right - left) as usize, (bottom - top) as usize)
    }
}

impl Inputs {
    /// The case's inputs over baselines made elsewhere, lent longer than needed, and an order of steps.
    pub fn of(case: &Case, block: &[bool], allow: Option<&[bool]>, steps: &[i32]) -> Self {
        let bytes = |baseline: &[bool]| {
            let mut area = clean(baseline.len());
            for (byte, &off) in area.iter_mut().zip(baseline) {
                *byte = u8::from(off);
            }
            area
        };
        let numbers = |place: &Placement| [place.spec, place.group, place.tile.0, place.tile.1];
        Self {
            query: Query::of(case),
            states: case.states,
            results: case.results,
            groups: case.groups.clone(),
            numbers: case.placements.iter().flat_map(numbers).collect(),
            edges: case.placements.iter().flat_map(|place| [place.footprint, place.collision]).flat_map(edges).collect(),
            block_base: bytes(block),
            allow_base: allow.map_or_else(|| vec![u8::PAST; 2], bytes),
            steps: steps.to_vec(),
        }
    }

    /// The movers that are there, each with its baseline.
    pub fn grounds(&mut self) -> Vec<([u32; 4], &mut [u8])> {
        let mut grounds = vec![(self.query.block, &mut self.block_base[..])];
        if self.query.allow_given != 0 {
            grounds.push((self.query.allow, &mut self.allow_base[..]));
        }
        grounds
    }

    /// The number of placements where none is left over in part.
    pub fn places(&self) -> usize {
        self.numbers.len() / 4
    }

    pub fn needs(&self) -> Needs {
        let (width, height) = self.query.size();
        let centres = width * height;
        let kept = MOST_POINTS.min(self.results as usize * centres);
        Needs {
            lists: MEMBERS * self.places(),
            visited: ROW * self.states as usize,
            layouts: ROW * self.results as usize,
            points: if self.query.allow_given == 0 { 0 } else { 2 * kept },
        }
    }

    /// The inputs as the original takes them. The terrain is left out: only prepare reads it.
    pub fn case(&self) -> Case {
        let given = |b: [u32; 4]| judge::Bounds::new(b[0], b[1], b[2], b[3]);
        let place = |(numbers, edges): (&[u32], &[i32])| Placement {
            spec: numbers[0],
            group: numbers[1],
            tile: (numbers[2], numbers[3]),
            footprint: rect(&edges[..4]),
            collision: rect(&edges[4..]),
        };
        Case {
            map: (1_024, 1_024),
            cells: Vec::new(),
            obstacles: Vec::new(),
            window: rect(&self.query.window),
            start: (self.query.start[0], self.query.start[1]),
            end: (self.query.end[0], self.query.end[1]),
            block: given(self.query.block),
            allow: (self.query.allow_given != 0).then(|| given(self.query.allow)),
            states: self.states,
            results: self.results,
            groups: self.groups.clone(),
            placements: self.numbers.chunks_exact(4).zip(self.edges.chunks_exact(8)).map(place).collect(),
        }
    }

    /// The baselines as the original takes them: a centre is closed where its count is not zero.
    pub fn baselines(&self) -> judge::Baselines {
        let (width, height) = self.query.size();
        let marked = |counts: &[u8]| counts[..width * height].iter().map(|&count| count != 0).collect();
        judge::Baselines { block: marked(&self.block_base), allow: (self.query.allow_given != 0).then(|| marked(&self.allow_base)) }
    }
}

impl Work {
    pub fn clean(query: &Query) -> Self {
        let (width, height) = query.size();
        let centres = width * height;
        Self {
            counts: clean((width + 1) * (height + 1)),
            map: clean(centres),
            queue: clean(centres),
            predecessors: clean(centres),
            route: clean(centres),
        }
    }

    pub fn soil(&mut self, rng: &mut Rng) {
        let need = |length: usize| length - MORE;
        let counts = need(self.counts.len());
        let centres = need(self.map.len());
        soil(&mut self.counts, counts, rng);
        soil(&mut self.map, centres, rng);
        soil(&mut self.queue, centres, rng);
        soil(&mut self.predecessors, centres, rng);
        soil(&mut self.route, centres, rng);
    }

    /// What a call leaves that clears the working areas: zero up to the lengths needed, the rest as it was.
    pub fn cleared(&self, query: &Query) -> Self {
        let mut work = self.clone();
        let (width, height) = query.size();
        let centres = width * height;
        work.counts[..(width + 1) * (height + 1)].fill(0);
        work.map[..centres].fill(0);
        work.queue[..centres].fill(0);
        work.predecessors[..centres].fill(0);
        work.route[..centres].fill(0);
        work
    }
}

impl Store {
    /// Zeros up to the lengths needed.
    pub fn clean(needs: Needs) -> Self {
        Self {
            record: clean(RECORD),
            lists: clean(needs.lists),
            visited: clean(needs.visited),
            layouts: clean(needs.layouts),
            points: clean(needs.points),
        }
    }

    pub fn soil(&mut self, needs: Needs, rng: &mut Rng) {
        soil(&mut self.record, RECORD, rng);
        soil(&mut self.lists, needs.lists, rng);
        soil(&mut self.visited, needs.visited, rng);
        soil(&mut self.layouts, needs.layouts, rng);
        if needs.points <= 100_000 {
            soil(&mut self.points, needs.points, rng);
        } else {
            self.points[..needs.points].fill(rng.draw() as u32);
        }
    }

    /// What the areas hold where a search holds `held`: used entries, zeros up to the lengths needed, and past them what stands here.
    pub fn image(&self, held: &Snapshot, needs: Needs) -> Self {
        let mut store = self.clone();
        store.record[..RECORD].fill(0);
        store.lists[..needs.lists].fill(0);
        store.visited[..needs.visited].fill(0);
        store.layouts[..needs.layouts].fill(0);
        store.points[..needs.points].fill(0);
        store.lay(held, needs);
        store
    }

    /// Lays the used entries of `held`, and nothing else.
    pub fn lay(&mut self, held: &Snapshot, needs: Needs) {
        let places = needs.lists / MEMBERS;
        let numbers = [
            held.reason as u32,
            held.evaluations,
            held.placements,
            held.layouts.len() as u32,
            held.lists.len() as u32,
            u32::from(held.pending.is_some()),
        ];
        self.record[..ROUTE_LENGTHS].copy_from_slice(&numbers);
        for (k, list) in held.lists.iter().enumerate() {
            self.record[LIST_LENGTHS + k] = list.entries.len() as u32;
            self.record[NEXTS + k] = list.next;
            narrow(&mut self.lists[k * places..], &list.entries);
        }
        for (k, set) in held.visited.iter().enumerate() {
            row(&mut self.visited[ROW * k..], set);
        }
        let mut at = 0;
        for (k, layout) in held.layouts.iter().enumerate() {
            row(&mut self.layouts[ROW * k..], &layout.members);
            self.record[ROUTE_LENGTHS + k] = layout.route.len() as u32;
            for &(x, y) in &layout.route {
                self.points[at] = x;
                self.points[at + 1] = y;
                at += 2;
            }
        }
    }

    /// What a search holds whose record passed check 16.
    pub fn held(&self, inputs: &Inputs) -> Snapshot {
        let record = &self.record;
        let places = inputs.places();
        let set = |row: &[u16]| wide(&row[1..1 + row[0] as usize]);
        let mut at = 0;
        let mut layout = |(k, row): (usize, &[u16])| {
            let length = record[ROUTE_LENGTHS + k] as usize;
            let points = &self.points[2 * at..2 * (at + length)];
            at += length;
            Layout { members: set(row), route: points.chunks_exact(2).map(|point| (point[0], point[1])).collect() }
        };
        let list = |k: usize| List {
            entries: wide(&self.lists[k * places..k * places + record[LIST_LENGTHS + k] as usize]),
            next: record[NEXTS + k],
        };
        let mut held = Snapshot {
            reason: [Reason::Running, Reason::Exhausted, Reason::StateLimit, Reason::ResultLimit][record[0] as usize - 1],
            evaluations: record[1],
            placements: record[2],
            layouts: self.layouts.chunks_exact(ROW).take(record[3] as usize).enumerate().map(&mut layout).collect(),
            lists: (0..record[4] as usize).map(list).collect(),
            pending: None,
            visited: self.visited.chunks_exact(ROW).take(record[1] as usize).map(set).collect(),
        };
        held.pending = (record[5] == 1).then(|| held.set_of_list(held.lists.len()));
        held
    }

    /// Draws the entries that `held` does not use.
    pub fn soil_unused(&mut self, held: &Snapshot, needs: Needs, rng: &mut Rng) {
        self.soil(needs, rng);
        self.lay(held, needs);
    }
}

fn wide(members: &[u16]) -> Vec<u32> {
    members.iter().map(|&member| u32::from(member)).collect()
}

fn narrow(area: &mut [u16], members: &[u32]) {
    for (entry, &member) in area.iter_mut().zip(members) {
        *entry = member as u16;
    }
}

fn row(area: &mut [u16], set: &[u32]) {
    area[0] = set.len() as u16;
    narrow(&mut area[1..], set);
}
