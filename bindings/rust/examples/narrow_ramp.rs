//! A narrow ramp: a window of 240 × 200 centres and two buildings to place. Lists its four walls, then those from end to start.

use hitrovzen::{
    Bounds, Limits, Map, Placement, Plan, Planner, Position, Rect, Refusal, Search, Tile,
};

const TILE: i32 = 32;

/// The ground where buildings may stand: the ramp, four tiles wide and five high.
const RAMP: Rect = Rect::new(64, 32, 192, 192);

/// A building: its size in tiles, and how far its collision rectangle stays inside its footprint.
struct Building {
    size: (i32, i32),
    inset: Rect,
}

const BUILDINGS: [Building; 2] = [
    Building {
        size: (4, 3),
        inset: Rect::new(16, 8, 7, 15),
    },
    Building {
        size: (3, 2),
        inset: Rect::new(10, 10, 9, 5),
    },
];

/// Cliffs above and below the ramp, open ground to its left and right. Each building is a group of one slot, and may stand on
/// every tile of the ramp where it fits.
pub fn plan() -> Plan {
    let mut rows = vec!["........################......"; 4];
    rows.extend([".............................."; 20]);
    rows.extend(["........################......"; 1]);
    let window = Rect::new(0, 0, 240, 200);
    let mover = Bounds::new(15, 15, 16, 16);
    let mut plan = Plan::new(
        Map::drawn(&rows),
        window,
        Position::new(24, 100),
        Position::new(215, 100),
        mover,
    );
    plan.groups = vec![1; BUILDINGS.len()];
    for (spec, building) in BUILDINGS.iter().enumerate() {
        for y in 0..window.bottom / TILE {
            for x in 0..window.right / TILE {
                plan.placements.extend(place(spec as u32, building, (x, y)));
            }
        }
    }
    plan
}

/// The building on this tile, if it stands on the ramp.
fn place(spec: u32, building: &Building, (x, y): (i32, i32)) -> Option<Placement> {
    let (left, top) = (TILE * x, TILE * y);
    let (right, bottom) = (left + TILE * building.size.0, top + TILE * building.size.1);
    if left < RAMP.left || top < RAMP.top || right > RAMP.right || bottom > RAMP.bottom {
        return None;
    }
    let inset = building.inset;
    Some(Placement {
        spec,
        group: spec,
        tile: Tile {
            x: x as u32,
            y: y as u32,
        },
        footprint: Rect::new(left, top, right, bottom),
        collision: Rect::new(
            left + inset.left,
            top + inset.top,
            right - inset.right,
            bottom - inset.bottom,
        ),
    })
}

fn print(title: &str, search: &Search<'_>) {
    println!(
        "{title}: {}, {} sets evaluated",
        search.reason(),
        search.evaluations()
    );
    for layout in search.layouts() {
        print!("  wall {}:", layout.number());
        for building in layout.members() {
            print!(
                " building {} on tile ({}, {})",
                building.spec, building.tile.x, building.tile.y
            );
        }
        println!();
    }
}

fn main() -> Result<(), Refusal> {
    let there = Planner::new(plan())?;
    let mut search = there.search(Limits::WIDEST)?;
    search.run()?;
    print("from start to end", &search);

    let back = Planner::new(plan().reversed())?;
    let mut search = back.search(Limits::WIDEST)?;
    search.run()?;
    print("from end to start", &search);
    Ok(())
}
