//! Small random searches, from a seed alone. Each keeps within the drive sheet (at most 64
//! cells, 256 centres, 12 places and 500 states), and all but the mazes, which are handed their
//! baselines, can be written as one.

use crate::case::{Bounds, Case, Placement, Rect};
use crate::domain;
use crate::list::Item;
use crate::run::Baselines;
use crate::walls::search::probe;

/// splitmix64.
#[derive(Debug, Clone)]
pub struct Rng(u64);

impl Rng {
    pub const fn new(seed: u64) -> Self {
        Self(seed)
    }

    pub fn draw(&mut self) -> u64 {
        self.0 = self.0.wrapping_add(0x9e37_79b9_7f4a_7c15);
        let mut z = self.0;
        z = (z ^ (z >> 30)).wrapping_mul(0xbf58_476d_1ce4_e5b9);
        z = (z ^ (z >> 27)).wrapping_mul(0x94d0_49bb_1331_11eb);
        z ^ (z >> 31)
    }

    /// From 0 to `count` - 1.
    pub fn below(&mut self, count: u32) -> u32 {
        (((self.draw() >> 32) * u64::from(count)) >> 32) as u32
    }

    /// From `low` to `high`, both included.
    pub fn between(&mut self, low: i32, high: i32) -> i32 {
        low + self.below((high - low + 1) as u32) as i32
    }

    pub fn chance(&mut self, times: u32, of: u32) -> bool {
        self.below(of) < times
    }

    fn pick<T: Copy>(&mut self, from: &[T]) -> T {
        from[self.below(from.len() as u32) as usize]
    }

    fn shuffle<T>(&mut self, row: &mut [T]) {
        for last in (1..row.len()).rev() {
            row.swap(last, self.below(last as u32 + 1) as usize);
        }
    }
}

const MAX_PLACES: usize = 12;
const SHEET_CELLS: usize = 64;
const SHEET_CENTRES: usize = 256;

/// A name and how such cases are made.
type Kind = (&'static str, fn(&mut Rng) -> Case);

/// An endless row of items.
#[derive(Debug, Clone)]
pub struct Generator {
    rng: Rng,
    turn: usize,
}

impl Generator {
    pub const fn new(seed: u64) -> Self {
        Self {
            rng: Rng::new(seed),
            turn: 0,
        }
    }

    /// The next item whose inputs pass the checks. Prepare may still refuse it with 7 to 9.
    pub fn item(&mut self) -> Item {
        const KINDS: [Kind; 8] = [
            ("barrier", barrier),
            ("diagonal", diagonal),
            ("barrier", barrier),
            ("choke", choke),
            ("barrier", barrier),
            ("free", free),
            ("maze", maze),
            ("maze", maze),
        ];
        let (name, make) = KINDS[self.turn % KINDS.len()];
        self.turn += 1;
        loop {
            let mut case = make(&mut self.rng);
            limits(&mut self.rng, &mut case);
            if self.rng.chance(1, 2) {
                case = transposed(case);
            }
            if self.rng.chance(1, 2) {
                (case.start, case.end) = (case.end, case.start);
            }
            let given = (name == "maze").then(|| ground(&mut self.rng, &case));
            if fits(&case) && given.as_ref().is_none_or(|given| joined(&case, given)) {
                let portions = portions(&mut self.rng, case.states);
                return Item {
                    name,
                    case,
                    given,
                    held: None,
                    portions,
                };
            }
        }
    }
}

fn fits(case: &Case) -> bool {
    domain::prepare(case, case.block).is_ok()
        && case
            .allow
            .is_none_or(|allow| domain::prepare(case, allow).is_ok())
        && domain::begin_before_routes(case).is_ok()
        && domain::begin_after_routes(case).is_ok()
        && case.cells.len() <= SHEET_CELLS
        && case.centres() <= SHEET_CENTRES
}

fn joined(case: &Case, given: &Baselines) -> bool {
    let open = |baseline| probe::ends_joined(case, baseline).is_ok();
    open(&given.block) && given.allow.as_ref().is_none_or(|allow| open(allow))
}

fn limits(rng: &mut Rng, case: &mut Case) {
    case.states = match rng.below(20) {
        0..=2 => rng.between(1, 8) as u32,
        3..=5 => rng.between(9, 30) as u32,
        6..=16 => rng.between(31, 200) as u32,
        _ => 500,
    };
    case.results = rng.pick(&[1, 1, 2, 3, 5, 32, 32, 32, 32, 32, 32, 32]);
}

/// One to four portions; the last may or may not reach the end of the search.
fn portions(rng: &mut Rng, states: u32) -> Vec<u32> {
    let few = |rng: &mut Rng| rng.pick(&[0, 1, 1, 2, 3, 4, 5, 7, 9, 12]);
    match rng.below(10) {
        0..=2 => vec![states],
        3..=5 => vec![few(rng), few(rng), states],
        6 | 7 => vec![few(rng), states, 1],
        8 => vec![1, 1, 1, few(rng)],
        _ => vec![few(rng)],
    }
}

/// The case with x and y exchanged.
fn transposed(case: Case) -> Case {
    let point = |(x, y): (u32, u32)| (y, x);
    let rect = |r: Rect| Rect::new(r.top, r.left, r.bottom, r.right);
    let bounds = |b: Bounds| Bounds::new(b.top, b.left, b.bottom, b.right);
    let (width, height) = (case.map.0 as usize, case.map.1 as usize);
    let cells = (0..width)
        .flat_map(|x| (0..height).map(move |y| y * width + x))
        .map(|index| case.cells[index])
        .collect();
    Case {
        map: point(case.map),
        cells,
        obstacles: case.obstacles.iter().copied().map(rect).collect(),
        window: rect(case.window),
        start: point(case.start),
        end: point(case.end),
        block: bounds(case.block),
        allow: case.allow.map(bounds),
        placements: case
            .placements
            .iter()
            .map(|place| Placement {
                tile: point(place.tile),
                footprint: rect(place.footprint),
                collision: rect(place.collision),
                ..*place
            })
            .collect(),
        ..case
    }
}

fn bounds(rng: &mut Rng, most: u32) -> Bounds {
    let mut one = || rng.below(most + 1);
    Bounds::new(one(), one(), one(), one())
}

/// Bounds that are mostly smaller than the blocked mover's, and mostly none where that is a point.
fn allowed(rng: &mut Rng, block: Bounds) -> Option<Bounds> {
    if block == Bounds::new(0, 0, 0, 0) && !rng.chance(1, 8) {
        return None;
    }
    let mut smaller = |bound: u32| if bound == 0 { 0 } else { rng.below(bound) };
    let inside = Bounds::new(
        smaller(block.left),
        smaller(block.top),
        smaller(block.right),
        smaller(block.bottom),
    );
    match rng.below(8) {
        0..=2 => None,
        3..=6 => Some(inside),
        _ => Some(bounds(rng, 2)),
    }
}

fn place(rng: &mut Rng, group: u32, footprint: Rect, collision: Rect) -> Placement {
    let tile = (rng.below(64), rng.below(64));
    Placement {
        spec: rng.below(6),
        group,
        tile,
        footprint,
        collision,
    }
}

/// A small rectangle inside the window.
fn inside(rng: &mut Rng, window: Rect, longest: i32) -> Rect {
    let mut span = |low: i32, high: i32| {
        let length = rng.between(1, longest.min(high - low));
        let start = rng.between(low, high - length);
        (start, start + length)
    };
    let (left, right) = span(window.left, window.right);
    let (top, bottom) = span(window.top, window.bottom);
    Rect::new(left, top, right, bottom)
}

/// A rectangle with each edge moved by at most one, never empty.
fn nudged(rng: &mut Rng, rect: Rect) -> Rect {
    let mut by = || rng.between(-1, 1);
    let moved = Rect::new(
        rect.left + by(),
        rect.top + by(),
        rect.right + by(),
        rect.bottom + by(),
    );
    if moved.is_empty() { rect } else { moved }
}

/// A walkable map that holds the window, with some room to the right and below.
fn map(rng: &mut Rng, window: Rect, room: i32) -> (u32, u32) {
    let mut cells = |edge: i32| ((edge + room + rng.between(0, 7)) as u32).div_ceil(8);
    (cells(window.right), cells(window.bottom))
}

/// Some unwalkable cells and obstacles.
fn clutter(rng: &mut Rng, case: &mut Case) {
    let cell = |index: usize, width: u32| {
        let (x, y) = (
            index as i32 % width as i32 * 8,
            index as i32 / width as i32 * 8,
        );
        Rect::new(x, y, x + 8, y + 8)
    };
    if rng.chance(1, 3) {
        for index in 0..case.cells.len() {
            let outside = !cell(index, case.map.0).intersects(case.window);
            if rng.chance(1, if outside { 3 } else { 40 }) {
                case.cells[index] = 0;
            }
        }
    }
    if rng.chance(1, 3) {
        for _ in 0..rng.between(1, 3) {
            let around = Rect::new(
                case.window.left - 3,
                case.window.top - 3,
                case.window.right + 3,
                case.window.bottom + 3,
            );
            case.obstacles.push(inside(rng, around, 3));
        }
    }
}

/// Slot counts that hold the given members of each group and sometimes more, or fewer.
fn slots(rng: &mut Rng, members: &[u32]) -> Vec<u32> {
    let mut counts: Vec<u32> = members.iter().map(|&count| count.max(1)).collect();
    while counts.iter().sum::<u32>() < 6 && rng.chance(1, 2) {
        let more = rng.below(counts.len() as u32) as usize;
        counts[more] += 1;
    }
    if rng.chance(1, 12) {
        let fewer = rng.below(counts.len() as u32) as usize;
        counts[fewer] = (counts[fewer] - 1).max(1);
    }
    counts
}

/// A row of one to six places across the way, straight or in steps, some with gaps that only a
/// smaller mover passes, and some other places.
fn barrier(rng: &mut Rng) -> Case {
    let members = rng.pick(&[1, 2, 2, 3, 3, 4, 4, 5, 5, 6, 6]);
    let block = if rng.chance(2, 5) {
        Bounds::new(0, 0, 0, 0)
    } else {
        bounds(rng, 2)
    };
    let allow = allowed(rng, block);
    let (steps, thick) = (rng.below(3) as i32, rng.between(1, 2));
    let before = 1 + block.right as i32 + rng.between(0, 1);
    let after = 1 + block.left as i32 + rng.between(0, 1);
    let room = if rng.chance(1, 5) { 0 } else { 3 };
    let (left, top) = (room + rng.between(0, 12), room + rng.between(0, 12));
    let groups = rng.between(1, 3.min(members)) as u32;
    let mut used = vec![0; groups as usize];
    let mut placements = Vec::new();
    let (mut y, mut shift) = (top, rng.between(0, steps));
    for number in 0..members {
        let most = (block.top + block.bottom) as i32 + i32::from(rng.chance(1, 12));
        let gap = if number == 0 || rng.chance(1, 3) {
            0
        } else {
            rng.between(0, most)
        };
        let length = gap + rng.between(1, 2);
        shift = (shift + rng.between(-1, 1)).clamp(0, steps);
        let x = left + before + shift;
        let footprint = Rect::new(x, y, x + thick, y + length);
        let collision = Rect::new(x, y + gap, x + thick, y + length);
        let group = rng.below(groups);
        used[group as usize] += 1;
        placements.push(place(rng, group, footprint, collision));
        y += length;
    }
    let right = left + before + steps + thick + after;
    let window = Rect::new(left, top, right, y + i32::from(rng.chance(1, 10)));
    while placements.len() < MAX_PLACES && rng.chance(2, 5) {
        let footprint = inside(rng, window, 3);
        let collision = nudged(rng, footprint);
        let group = rng.below(groups);
        placements.push(place(rng, group, footprint, collision));
    }
    rng.shuffle(&mut placements);
    let map = map(rng, window, room);
    let mut case = Case {
        map,
        cells: vec![1; (map.0 * map.1) as usize],
        obstacles: Vec::new(),
        window,
        start: (left as u32, rng.between(top, y - 1) as u32),
        end: (right as u32 - 1, rng.between(top, y - 1) as u32),
        block,
        allow,
        states: 1,
        results: 1,
        groups: slots(rng, &used),
        placements,
    };
    clutter(rng, &mut case);
    case
}

/// A little square with the ends at opposite corners and places of one centre.
fn diagonal(rng: &mut Rng) -> Case {
    let (left, top) = (rng.between(0, 9), rng.between(0, 9));
    let (width, height) = (rng.between(2, 5), rng.between(2, 5));
    let window = Rect::new(left, top, left + width, top + height);
    let (start, end) = ((left, top), (window.right - 1, window.bottom - 1));
    let mut centres: Vec<(i32, i32)> = (top..window.bottom)
        .flat_map(|y| (left..window.right).map(move |x| (x, y)))
        .filter(|&centre| centre != start && centre != end)
        .collect();
    rng.shuffle(&mut centres);
    let groups = rng.between(1, 2) as u32;
    let most = if rng.chance(1, 4) { MAX_PLACES } else { 6 };
    let placements: Vec<Placement> = centres
        .iter()
        .take(rng.between(2, most as i32) as usize)
        .map(|&(x, y)| {
            let one = Rect::new(x, y, x + 1, y + 1);
            let group = rng.below(groups);
            place(rng, group, one, one)
        })
        .collect();
    let map = map(rng, window, 0);
    let mut obstacles = Vec::new();
    if rng.chance(1, 2) {
        obstacles.push(inside(rng, window, 1));
    }
    let members: Vec<u32> = (0..groups).map(|_| rng.between(1, 3) as u32).collect();
    Case {
        map,
        cells: vec![1; (map.0 * map.1) as usize],
        obstacles,
        window,
        start: (start.0 as u32, start.1 as u32),
        end: (end.0 as u32, end.1 as u32),
        block: Bounds::new(0, 0, 0, 0),
        allow: rng.chance(1, 6).then_some(Bounds::new(0, 0, 0, 0)),
        states: 1,
        results: 1,
        groups: slots(rng, &members),
        placements,
    }
}

/// A column of unwalkable cells with one cell open, and places in that opening.
fn choke(rng: &mut Rng) -> Case {
    let open = rng.below(3);
    let cells = (0..9)
        .map(|index| u8::from(index % 3 != 1 || index / 3 == open))
        .collect();
    let block = bounds(rng, 3);
    let allow = allowed(rng, block);
    let gate = 8 * open as i32;
    let (first, last) = (rng.between(1, 6), rng.between(18, 23));
    let top = (gate - rng.between(0, 3)).max(0);
    let bottom = (gate + 8 + rng.between(0, 3)).min(24);
    let window = Rect::new(first, top, last, bottom);
    let groups = rng.between(1, 2) as u32;
    let mut used = vec![0; groups as usize];
    let mut placements = Vec::new();
    let mut y = gate;
    while y < gate + 8 {
        let next = (y + rng.between(2, 5)).min(gate + 8);
        let x = rng.between(8, 14);
        let footprint = Rect::new(x, y, x + 2, next);
        let collision = nudged(rng, footprint);
        let group = rng.below(groups);
        used[group as usize] += 1;
        placements.push(place(rng, group, footprint, collision));
        y = next;
    }
    while placements.len() < MAX_PLACES && rng.chance(2, 3) {
        let footprint = inside(rng, Rect::new(7, gate.max(top), 17, gate + 8), 6);
        let collision = nudged(rng, footprint);
        let group = rng.below(groups);
        placements.push(place(rng, group, footprint, collision));
    }
    rng.shuffle(&mut placements);
    Case {
        map: (3, 3),
        cells,
        obstacles: Vec::new(),
        window,
        start: (
            rng.between(first, 6) as u32,
            rng.between(gate, gate + 7) as u32,
        ),
        end: (
            rng.between(17, last - 1) as u32,
            rng.between(gate, gate + 7) as u32,
        ),
        block,
        allow,
        states: 1,
        results: 1,
        groups: slots(rng, &used),
        placements,
    }
}

/// Anything.
fn free(rng: &mut Rng) -> Case {
    let (left, top) = (rng.between(0, 9), rng.between(0, 9));
    let tall = if rng.chance(1, 3) { 8 } else { 3 };
    let window = Rect::new(
        left,
        top,
        left + rng.between(1, 10),
        top + rng.between(1, tall),
    );
    let block = if rng.chance(1, 2) {
        Bounds::new(0, 0, 0, 0)
    } else {
        bounds(rng, 2)
    };
    let allow = allowed(rng, block);
    let groups = rng.below(4);
    let places = if groups == 0 {
        0
    } else {
        rng.below(MAX_PLACES as u32 + 1)
    };
    let longest = rng.between(1, 6);
    let placements = (0..places)
        .map(|_| {
            let footprint = inside(rng, window, longest);
            let collision = if rng.chance(1, 4) {
                let corner = (rng.between(-5, 20), rng.between(-5, 20));
                let size = (rng.between(1, 9), rng.between(1, 9));
                Rect::new(corner.0, corner.1, corner.0 + size.0, corner.1 + size.1)
            } else {
                nudged(rng, footprint)
            };
            let group = rng.below(groups);
            place(rng, group, footprint, collision)
        })
        .collect();
    let map = map(rng, window, 2);
    let apart = rng.chance(2, 3);
    let centre = |rng: &mut Rng, edge: i32| {
        let x = if apart {
            edge
        } else {
            rng.between(window.left, window.right - 1)
        };
        (x as u32, rng.between(window.top, window.bottom - 1) as u32)
    };
    let mut case = Case {
        map,
        cells: vec![1; (map.0 * map.1) as usize],
        obstacles: Vec::new(),
        window,
        start: centre(rng, window.left),
        end: centre(rng, window.right - 1),
        block,
        allow,
        states: 1,
        results: 1,
        groups: (0..groups).map(|_| rng.between(1, 2) as u32).collect(),
        placements,
    };
    clutter(rng, &mut case);
    case
}

/// Ground of which begin is handed the baselines, with small places.
fn maze(rng: &mut Rng) -> Case {
    let (left, top) = (rng.between(0, 30), rng.between(0, 20));
    let (width, height) = (rng.between(3, 12), rng.between(2, 8));
    let window = Rect::new(left, top, left + width, top + height);
    let block = bounds(rng, 1);
    let groups = rng.between(1, 2) as u32;
    let placements = (0..rng.between(2, 8))
        .map(|_| {
            let footprint = inside(rng, window, 3);
            let collision = nudged(rng, footprint);
            let group = rng.below(groups);
            place(rng, group, footprint, collision)
        })
        .collect();
    let map = map(rng, window, 0);
    Case {
        map,
        cells: vec![1; (map.0 * map.1) as usize],
        obstacles: Vec::new(),
        window,
        start: (left as u32, rng.between(top, window.bottom - 1) as u32),
        end: (
            window.right as u32 - 1,
            rng.between(top, window.bottom - 1) as u32,
        ),
        block,
        allow: rng.chance(1, 2).then_some(Bounds::new(0, 0, 0, 0)),
        states: 1,
        results: 1,
        groups: (0..groups).map(|_| rng.between(1, 3) as u32).collect(),
        placements,
    }
}

/// Baselines with some centres closed, fewer of them to the allowed mover.
fn ground(rng: &mut Rng, case: &Case) -> Baselines {
    let of = rng.pick(&[3, 4, 6]);
    let block: Vec<bool> = (0..case.centres()).map(|_| rng.chance(1, of)).collect();
    let allow = case.allow.map(|_| {
        block
            .iter()
            .map(|&off| {
                if off {
                    rng.chance(2, 3)
                } else {
                    rng.chance(1, 20)
                }
            })
            .collect()
    });
    Baselines { block, allow }
}
