//! A broad valley: a window of 300 × 260 centres, which is more than sixteen bits can number. Two ridges cross it. One leaves a
//! gap in the north, where centres have low numbers, the other one in the south, where they have numbers above 65,535. Lists
//! the walls in both gaps with the route of the mover that they let pass, then the walls from end to start.

use hitrovzen::{
    Bounds, Limits, Map, Placement, Plan, Planner, Position, Rect, Refusal, Search, Tile,
};

const TILE: i32 = 32;

/// The tiles of the two gaps where a tower may stand: three in the north, one in the south.
const TILES: [(i32, i32); 4] = [(2, 0), (2, 1), (3, 1), (6, 7)];

/// A tower keeps movers off all but the outer six pixels of its tile.
fn tower((x, y): (i32, i32)) -> Placement {
    let (left, top) = (TILE * x, TILE * y);
    Placement {
        spec: 0,
        group: 0,
        tile: Tile {
            x: x as u32,
            y: y as u32,
        },
        footprint: Rect::new(left, top, left + TILE, top + TILE),
        collision: Rect::new(left + 6, top + 6, left + TILE - 6, top + TILE - 6),
    }
}

/// 38 × 33 cells. The ridges are eight cells thick.
pub fn plan() -> Plan {
    let mut rows = vec!["........................########......"; 8];
    rows.extend(["........########........########......"; 20]);
    rows.extend(["........########......................"; 5]);
    let mut plan = Plan::new(
        Map::drawn(&rows),
        Rect::new(0, 0, 300, 260),
        Position::new(30, 130),
        Position::new(280, 130),
        Bounds::new(15, 15, 16, 16),
    );
    plan.allow = Some(Bounds::new(5, 5, 5, 5));
    plan.groups = vec![2];
    plan.placements = TILES.map(tower).to_vec();
    plan
}

/// The number of a pixel among the window's centres.
pub fn centre(plan: &Plan, x: i32, y: i32) -> i32 {
    (y - plan.window.top) * (plan.window.right - plan.window.left) + x - plan.window.left
}

/// The lowest and the highest number of a centre that a building stands on.
pub fn centres(plan: &Plan, building: &Placement) -> (i32, i32) {
    let ground = building.collision;
    (
        centre(plan, ground.left, ground.top),
        centre(plan, ground.right - 1, ground.bottom - 1),
    )
}

fn print(title: &str, search: &Search<'_>) -> Result<(), Refusal> {
    println!(
        "{title}: {}, {} sets evaluated",
        search.reason(),
        search.evaluations()
    );
    let plan = search.planner().plan();
    for layout in search.layouts() {
        print!("  wall {}:", layout.number());
        for building in layout.members() {
            let (low, high) = centres(plan, building);
            print!(
                " tower on tile ({}, {}), centres {low} to {high};",
                building.tile.x, building.tile.y
            );
        }
        println!(" passed in {} points", layout.route()?.len());
    }
    Ok(())
}

fn main() -> Result<(), Refusal> {
    let there = Planner::new(plan())?;
    let mut search = there.search(Limits::WIDEST)?;
    search.run()?;
    print("from start to end", &search)?;

    let back = Planner::new(plan().reversed())?;
    let mut search = back.search(Limits::WIDEST)?;
    search.run()?;
    print("from end to start", &search)
}
