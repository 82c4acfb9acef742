//! Two maps at full size, as the planner's user tells of them: the narrow ramp and the broad valley. They are the maps of the
//! examples in `bindings/rust/examples`.

use crate::case::{Bounds, Case, Placement, Rect};

const TILE: i32 = 32;

/// A mover of one tile.
const MOVER: Bounds = Bounds::new(15, 15, 16, 16);

/// 240 × 200 centres: cliffs above and below a ramp, four tiles wide and five high, and two buildings to place, one of each. Each may
/// stand on every tile of the ramp where it fits. A pair, one above the other, closes the ramp: four walls.
pub fn narrow_ramp() -> Case {
    let window = Rect::new(0, 0, 240, 200);
    let mut placements = Vec::new();
    for building in 0..BUILDINGS.len() {
        for y in 0..window.bottom / TILE {
            for x in 0..window.right / TILE {
                placements.extend(place(building, (x, y)));
            }
        }
    }
    Case {
        map: (30, 25),
        cells: cells((30, 25), |x, y| {
            !(8..24).contains(&x) || (4..24).contains(&y)
        }),
        obstacles: Vec::new(),
        window,
        start: (24, 100),
        end: (215, 100),
        block: MOVER,
        allow: None,
        states: 100,
        results: 32,
        groups: vec![1; BUILDINGS.len()],
        placements,
    }
}

/// 300 × 260 centres, two ridges: the first leaves a gap in the north, the second one in the south, where centres have numbers above
/// 65,535. Towers that keep movers off all but the outer six pixels of their tile close the northern gap in pairs and the southern one
/// alone; a smaller mover passes beside them.
pub fn broad_valley() -> Case {
    let tower = |(x, y): (i32, i32)| {
        let (left, top) = (TILE * x, TILE * y);
        Placement {
            spec: 0,
            group: 0,
            tile: (x as u32, y as u32),
            footprint: Rect::new(left, top, left + TILE, top + TILE),
            collision: Rect::new(left + 6, top + 6, left + TILE - 6, top + TILE - 6),
        }
    };
    Case {
        map: (38, 33),
        cells: cells((38, 33), |x, y| {
            let first = (8..16).contains(&x) && y >= 8;
            let second = (24..32).contains(&x) && y < 28;
            !first && !second
        }),
        obstacles: Vec::new(),
        window: Rect::new(0, 0, 300, 260),
        start: (30, 130),
        end: (280, 130),
        block: MOVER,
        allow: Some(Bounds::new(5, 5, 5, 5)),
        states: 200,
        results: 4,
        groups: vec![2],
        placements: [(2, 0), (2, 1), (3, 1), (6, 7)].map(tower).to_vec(),
    }
}

/// The same search from end to start.
pub fn back(case: Case) -> Case {
    Case {
        start: case.end,
        end: case.start,
        ..case
    }
}

/// A building's size in tiles, and how far its collision rectangle stays inside its footprint.
const BUILDINGS: [((i32, i32), Rect); 2] = [
    ((4, 3), Rect::new(16, 8, 7, 15)),
    ((3, 2), Rect::new(10, 10, 9, 5)),
];

/// The ground where buildings may stand.
const RAMP: Rect = Rect::new(64, 32, 192, 192);

/// The building on this tile, if it stands on the ramp.
fn place(building: usize, (x, y): (i32, i32)) -> Option<Placement> {
    let (size, inset) = BUILDINGS[building];
    let (left, top) = (TILE * x, TILE * y);
    let (right, bottom) = (left + TILE * size.0, top + TILE * size.1);
    if left < RAMP.left || top < RAMP.top || right > RAMP.right || bottom > RAMP.bottom {
        return None;
    }
    Some(Placement {
        spec: building as u32,
        group: building as u32,
        tile: (x as u32, y as u32),
        footprint: Rect::new(left, top, right, bottom),
        collision: Rect::new(
            left + inset.left,
            top + inset.top,
            right - inset.right,
            bottom - inset.bottom,
        ),
    })
}

/// One byte for each cell, row by row: 1 where `open` says so.
fn cells((width, height): (u32, u32), open: impl Fn(u32, u32) -> bool) -> Vec<u8> {
    (0..height)
        .flat_map(|y| (0..width).map(move |x| (x, y)))
        .map(|(x, y)| u8::from(open(x, y)))
        .collect()
}
