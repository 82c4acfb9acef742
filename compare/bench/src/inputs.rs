//! The inputs. Each is made anew by fixed rules; nothing is drawn by chance but the terrain of `rough` and `dragged_on` and the stones of
//! `winding`, whose seeds are fixed.

use std::ops::Range;

use judge::{Baselines, Bounds, Case, List, Placement, Rect, Snapshot};

/// Width and height of a window whose corner is pixel 0 0.
pub type Size = (i32, i32);

pub const SMALL: Size = (16, 16);
pub const MIDDLE: Size = (300, 260);
pub const LARGE: Size = (1024, 1024);

fn same(reach: u32) -> Bounds {
    Bounds::new(reach, reach, reach, reach)
}

/// Open ground, both ends halfway down, each a sixteenth of the width from its side, nobody allowed, no placements, one group of six.
fn open((width, height): Size) -> Case {
    let map = ((width as u32).div_ceil(8), (height as u32).div_ceil(8));
    let inset = width as u32 / 16;
    Case {
        map,
        cells: vec![1; (map.0 * map.1) as usize],
        obstacles: Vec::new(),
        window: Rect::new(0, 0, width, height),
        start: (inset, height as u32 / 2),
        end: (width as u32 - 1 - inset, height as u32 / 2),
        block: same(0),
        allow: None,
        states: 100_000,
        results: 32,
        groups: vec![6],
        placements: Vec::new(),
    }
}

/// The lengths that go with a window: a building's side, the raster of placements, half the gap, the blocked mover's reach.
struct Scale {
    side: i32,
    raster: i32,
    half_gap: i32,
    reach: u32,
}

fn scale(size: Size) -> Scale {
    match size {
        SMALL => Scale {
            side: 2,
            raster: 1,
            half_gap: 8,
            reach: 0,
        },
        _ => Scale {
            side: 32,
            raster: 16,
            half_gap: 120,
            reach: 5,
        },
    }
}

/// Obstacles from top and bottom to a gap in the middle column.
fn gap((width, height): Size, half: i32) -> Vec<Rect> {
    let (middle, centre) = (width / 2, height / 2);
    let bars = [
        Rect::new(middle - 1, 0, middle + 1, centre - half),
        Rect::new(middle - 1, centre + half, middle + 1, height),
    ];
    bars.into_iter().filter(|bar| !bar.is_empty()).collect()
}

/// Placements of one side on a raster, three sides wide about the middle column and as high as the gap.
fn around_gap((width, height): Size, scale: &Scale) -> Vec<Placement> {
    let Scale {
        side,
        raster,
        half_gap,
        ..
    } = *scale;
    let (middle, centre) = (width / 2, height / 2);
    let mut places = Vec::new();
    for y in (centre - half_gap..=centre + half_gap - side).step_by(raster as usize) {
        for x in (middle - 2 * side..=middle + side).step_by(raster as usize) {
            places.push(Placement::plain(Rect::new(x, y, x + side, y + side)));
        }
    }
    places
}

/// Terrain with every fiftieth cell shut, drawn by chance, and forty obstacles; at 16 × 16 one obstacle. A seed whose ground joins the ends.
pub fn rough(size: Size) -> Case {
    let mut case = open(size);
    if size == SMALL {
        case.obstacles = vec![Rect::new(6, 3, 9, 12)];
        return case;
    }
    case.block = same(7);
    (1..)
        .map(|seed| strewn(&case, size, (50, 40), seed))
        .find(|case| Baselines::prepare(case).is_ok())
        .expect("a seed whose ground joins the ends")
}

/// Numbers below a limit, drawn by chance.
fn chance(seed: u64) -> impl FnMut(u64) -> u64 {
    let mut state = seed;
    move |limit| {
        state = state
            .wrapping_mul(6_364_136_223_846_793_005)
            .wrapping_add(1_442_695_040_888_963_407);
        (state >> 33) % limit
    }
}

/// One cell in so many shut, drawn by chance, and so many obstacles.
fn strewn(case: &Case, (width, height): Size, (shut, obstacles): (u64, usize), seed: u64) -> Case {
    let mut below = chance(seed);
    let mut case = case.clone();
    for cell in &mut case.cells {
        *cell = u8::from(below(shut) != 0);
    }
    case.obstacles = (0..obstacles)
        .map(|_| {
            let (x, y) = (below(width as u64) as i32, below(height as u64) as i32);
            Rect::new(x, y, x + 20, y + 12)
        })
        .collect();
    case
}

/// A building of so many tiles, a tile being 32 pixels wide and high, where a drag takes it up and where it puts it down. The mover of
/// `dragged_on` is kept off centres of the window alone, at every size, and has room above.
pub fn dragged((across, down): (i32, i32)) -> (Rect, Rect) {
    let at = |x: i32, y: i32| Rect::new(x, y, x + 32 * across, y + 32 * down);
    (at(8, 48), at(24, 56))
}

/// Terrain with every four hundredth cell shut, drawn by chance, and eight obstacles; the ends at the upper corners. A seed whose ground joins the
/// ends also past a building of 8 × 6 tiles at both its places.
pub fn dragged_on(size: Size) -> Case {
    let case = Case {
        start: (8, 8),
        end: (size.0 as u32 - 9, 8),
        block: same(7),
        ..open(size)
    };
    let (from, to) = dragged((8, 6));
    (1..)
        .map(|seed| strewn(&case, size, (400, 8), seed))
        .find(|case| {
            [from, to]
                .map(|at| Baselines::prepare(&with(case, at)))
                .iter()
                .all(Result::is_ok)
        })
        .expect("a seed whose ground joins the ends")
}

/// The same ground with one obstacle more.
pub fn with(case: &Case, obstacle: Rect) -> Case {
    let mut case = case.clone();
    case.obstacles.push(obstacle);
    case
}

/// A gap that six buildings do not close: the search goes on to its state limit.
pub fn search(size: Size, states: u32) -> Case {
    let scale = scale(size);
    Case {
        obstacles: gap(size, scale.half_gap),
        block: same(scale.reach),
        states,
        placements: around_gap(size, &scale),
        ..open(size)
    }
}

/// A gap that two buildings close to the blocked mover, with slits through which the allowed mover passes.
pub fn allowing(size: Size, states: u32) -> Case {
    let (side, raster, half_gap, block, allow) = match size {
        SMALL => (3, 1, 5, 1, 0),
        _ => (32, 8, 50, 12, 3),
    };
    let (middle, centre) = (size.0 / 2, size.1 / 2);
    let column = (centre - half_gap..=centre + half_gap - side).step_by(raster as usize);
    let place = |x: i32, y: i32| Placement::plain(Rect::new(x, y, x + side, y + side));
    Case {
        obstacles: gap(size, half_gap),
        block: same(block),
        allow: Some(same(allow)),
        states,
        groups: vec![2],
        placements: column
            .flat_map(|y| [place(middle - side, y), place(middle - 1, y)])
            .collect(),
        ..open(size)
    }
}

/// 6,144 placements, spread evenly over the window.
pub fn crowded(size: Size, states: u32) -> Case {
    const MANY: usize = 6_144;
    let side = if size == SMALL { 2 } else { 32 };
    let (across, down) = (size.0 - side + 1, size.1 - side + 1);
    let all = across as usize * down as usize;
    let placement = |k: usize| {
        let at = if all < MANY { k % all } else { k * all / MANY };
        let (x, y) = ((at % across as usize) as i32, (at / across as usize) as i32);
        Placement::plain(Rect::new(x, y, x + side, y + side))
    };
    Case {
        obstacles: gap(size, size.1 / 2),
        block: same(scale(size).reach),
        states,
        placements: (0..MANY).map(placement).collect(),
        ..open(size)
    }
}

/// The placements of `crowded` about an entrance between the ends, which stand a quarter of the window in from two corners.
pub fn about_entrance(size: Size) -> Case {
    let (width, height) = (size.0 as u32, size.1 as u32);
    Case {
        start: (width / 4, height / 4),
        end: (width - width / 4, height - height / 4),
        ..crowded(size, 20)
    }
}

/// A corridor two rows high that winds down the window, run by run, from pixel 0 0. Under each run lies a bank, with an opening at its right or
/// left end in turn; the last has none.
struct Winding {
    size: Size,
    /// The rows of a bank.
    bank: i32,
    /// A building's side.
    side: i32,
    runs: i32,
}

impl Winding {
    const RUN: i32 = 2;

    fn new(size: Size) -> Self {
        let (bank, side) = if size == LARGE { (62, 32) } else { (4, 4) };
        let runs = size.1 / (Self::RUN + bank);
        Self {
            size,
            bank,
            side,
            runs,
        }
    }

    /// The first row of a bank.
    fn top(&self, run: i32) -> i32 {
        run * (Self::RUN + self.bank) + Self::RUN
    }

    fn shut(&self, run: i32) -> Rect {
        let ((width, height), top) = (self.size, self.top(run));
        if run + 1 == self.runs {
            Rect::new(0, top, width, height)
        } else if run % 2 == 0 {
            Rect::new(0, top, width - Self::RUN, top + self.bank)
        } else {
            Rect::new(Self::RUN, top, width, top + self.bank)
        }
    }

    /// Stones three to ten columns apart, each a pixel in one of a run's two rows, but none beside a placement that reaches into a run: a route
    /// past them changes its row at places that follow no rule.
    fn stones(&self) -> Vec<Rect> {
        let mut below = chance(1);
        let mut stones = Vec::new();
        for run in 0..self.runs {
            let mut x = 2 * Self::RUN;
            while x < self.size.0 - 2 * Self::RUN {
                let y = self.top(run) - 1 - below(2) as i32;
                if !self.kept_clear().contains(&x) {
                    stones.push(Rect::new(x, y, x + 1, y + 1));
                }
                x += 3 + below(8) as i32;
            }
        }
        stones
    }

    /// Placement i of `count` that stand on the banks and leave the corridor alone.
    fn on_bank(&self, i: i32, count: i32) -> (i32, i32) {
        let room = self.size.0 - 2 * Self::RUN - self.side;
        let x = Self::RUN + i / self.runs * room / (count / self.runs);
        (x, self.top(i % self.runs) + (self.bank - self.side) / 2)
    }

    /// Placement i of `count` that reach one row into a run, from below or from above, and leave the other row open.
    fn in_run(&self, i: i32, count: i32) -> (i32, i32) {
        let x = self.size.0 / 2 + i % 5 * 2 * self.side;
        let top = self.top(i * (self.runs - 1) / count);
        if i % 2 == 0 {
            (x, top - 1)
        } else {
            (x, top + self.bank + 1 - self.side)
        }
    }

    /// The columns in which placements reach into runs, and one more on each side, since a diagonal step needs it.
    fn kept_clear(&self) -> Range<i32> {
        let middle = self.size.0 / 2;
        middle - 1..middle + 9 * self.side + 1
    }
}

#[derive(Clone, Copy)]
pub enum Corridor {
    Clear,
    Stones,
}

/// A winding corridor and 6,144 placements: twelve reach into it, the others stand on its banks.
pub fn winding(size: Size, states: u32, inside: Corridor) -> Case {
    const BESIDE: i32 = 6_132;
    const REACHING: i32 = 12;
    let corridor = Winding::new(size);
    let beside = (0..BESIDE).map(|i| corridor.on_bank(i, BESIDE));
    let reaching = (0..REACHING).map(|i| corridor.in_run(i, REACHING));
    let place = |(x, y)| Placement::plain(Rect::new(x, y, x + corridor.side, y + corridor.side));
    let banks = (0..corridor.runs).map(|run| corridor.shut(run));
    let stones = match inside {
        Corridor::Clear => Vec::new(),
        Corridor::Stones => corridor.stones(),
    };
    let last = if corridor.runs % 2 == 0 {
        0
    } else {
        size.0 - 1
    };
    Case {
        start: (0, 0),
        end: (last as u32, corridor.top(corridor.runs - 1) as u32 - 1),
        obstacles: banks.chain(stones).collect(),
        states,
        placements: beside.chain(reaching).map(place).collect(),
        ..open(size)
    }
}

/// The same with columns and rows exchanged, for open cells and a mover alike on all sides.
pub fn turned(case: Case) -> Case {
    let swap = |(x, y): (u32, u32)| (y, x);
    let turn = |r: Rect| Rect::new(r.top, r.left, r.bottom, r.right);
    let place = |p: Placement| Placement {
        footprint: turn(p.footprint),
        collision: turn(p.collision),
        ..p
    };
    Case {
        map: swap(case.map),
        window: turn(case.window),
        start: swap(case.start),
        end: swap(case.end),
        obstacles: case.obstacles.into_iter().map(turn).collect(),
        placements: case.placements.into_iter().map(place).collect(),
        ..case
    }
}

/// Six placements that stand on one another from top to bottom.
pub fn barrier(size: Size) -> Case {
    let (width, height) = size;
    let middle = width / 2;
    let place = |k: i32| {
        Placement::plain(Rect::new(
            middle - 1,
            k * height / 6,
            middle + 1,
            (k + 1) * height / 6,
        ))
    };
    Case {
        states: 100,
        placements: (0..6).map(place).collect(),
        ..open(size)
    }
}

/// The record of a search in which all six placements of `barrier` have been taken in order and their set is pending.
pub fn all_six_taken() -> Snapshot {
    let list = |k: u32| List {
        entries: (k..6).collect(),
        next: 1,
    };
    Snapshot {
        evaluations: 6,
        lists: (0..6).map(list).collect(),
        pending: Some((0..6).collect()),
        visited: (0..6).map(|k| (0..k).collect()).collect(),
        ..Snapshot::begun(6)
    }
}
