//! Large searches, run as the small ones are: 300 × 260, 1,024 × 1,024 and 8,192 × 128 centres with six-member walls, kept
//! routes and centre numbers above 65,535; 6,144 places; a long search at the highest state limit.

use judge::generate::Rng;
use judge::list::Item;
use judge::order::ORIGINAL_STEPS;
use judge::{Bounds, Case, List, Placement, Rect, Snapshot};

use crate::counts::Counts;
use crate::searches;

/// Runs them; every line that it prints is what the original listed.
pub fn run(seed: u64, counts: &mut Counts, progress: &dyn Fn(&str)) -> Result<(), String> {
    let sizes = [
        ("300 × 260", (60, 50), Rect::new(97, 55, 397, 315)),
        ("300 × 260 at the corner", (38, 33), Rect::new(0, 0, 300, 260)),
        ("1,024 × 1,024", (160, 150), Rect::new(211, 101, 1_235, 1_125)),
        ("8,192 × 128", (1_024, 16), Rect::new(0, 0, 8_192, 128)),
    ];
    for (name, map, window) in sizes {
        let item = barrier(map, window, seed);
        let last = one(name, &item, seed, counts)?;
        progress(&format!("{name} done"));
        let width = window.width() as u32;
        let number = |x: u32, y: u32| (y - window.top as u32) * width + x - window.left as u32;
        let highest = last.layouts.iter().flat_map(|layout| &layout.route).map(|&(x, y)| number(x, y)).max();
        let six = last.layouts.iter().filter(|layout| layout.members.len() == 6).count();
        let on_high = last.layouts.iter().filter(|layout| high(&item.case, &layout.members, &number)).count();
        println!("  highest centre number on a kept route {}, walls over centres above 65,535: {on_high}", highest.unwrap_or(0));
        if highest < Some(65_536) || six == 0 || on_high == 0 {
            return Err(format!("{name}: no wall of six, no wall or no kept route above centre 65,535"));
        }
    }
    one("6,144 places", &places(seed), seed, counts)?;
    progress("6,144 places done");
    one("state limit 100,000", &long(), seed, counts)?;
    one("the last of 100,000 states", &last_states(), seed, counts)?;
    progress("state limit 100,000 done");
    Ok(())
}

fn high(case: &Case, members: &[u32], number: &dyn Fn(u32, u32) -> u32) -> bool {
    members.iter().any(|&member| {
        let rect = case.placements[member as usize].collision;
        number(rect.left as u32, rect.bottom as u32 - 1) > 65_535
    })
}

fn one(name: &str, item: &Item, seed: u64, counts: &mut Counts) -> Result<Snapshot, String> {
    let mut own = Counts::default();
    let last = searches::run(item, &ORIGINAL_STEPS, seed, &mut own)
        .map_err(|difference| format!("DIFFERENCE {difference}\n{name}\n{:?}", item.case))?;
    let last = last.ok_or(format!("{name}: prepare refuses it"))?;
    let longest = last.layouts.iter().map(|layout| layout.route.len()).max().unwrap_or(0);
    println!(
        "{name}: {:?} after {} evaluations in {} portions, walls by members {:?}, kept routes {}, the longest of {longest} points",
        last.reason,
        last.evaluations,
        item.portions.len(),
        own.walls,
        own.routes
    );
    counts.add_calls(&own);
    Ok(last)
}

/// Columns of places from edge to edge, six in one and two and three in others, with gaps for the allowed mover alone.
pub fn barrier(map: (u32, u32), window: Rect, seed: u64) -> Item {
    let mut rng = Rng::new(seed);
    let block = Bounds::new(3, 2, 2, 2);
    let (left, top, right, bottom) = (window.left, window.top, window.right, window.bottom);
    let mut placements = Vec::new();
    let columns = [(left + (right - left) / 2, 6), (left + (right - left) / 3, 2), (right - 40, 3)];
    let taken = if window.width() * window.height() > 100_000 { 2 } else { 3 };
    for &(x, count) in &columns[..taken] {
        let mut edges: Vec<i32> = (0..=count).map(|k| top + (bottom - top) * k / count).collect();
        edges[1..count as usize].iter_mut().for_each(|edge| *edge += rng.between(-5, 5));
        for pair in edges.windows(2) {
            let gap = if pair[0] == top { 0 } else { rng.between(1, 4) };
            placements.push(Placement {
                spec: rng.below(6),
                group: 0,
                tile: (rng.below(256), rng.below(256)),
                footprint: Rect::new(x, pair[0], x + 7, pair[1]),
                collision: Rect::new(x + 1, pair[0] + gap, x + 6, pair[1]),
            });
        }
    }
    let mut cells = vec![1; (map.0 * map.1) as usize];
    for (index, cell) in cells.iter_mut().enumerate() {
        let (x, y) = (index as i32 % map.0 as i32 * 8, index as i32 / map.0 as i32 * 8);
        let near_end = (x - left).abs() < 60 || (x - right).abs() < 60;
        if !near_end && y > top && rng.chance(1, 90) {
            *cell = 0;
        }
    }
    Item {
        name: "large",
        case: Case {
            map,
            cells,
            obstacles: (0..30).map(|_| spot(&mut rng, window)).collect(),
            window,
            start: (left as u32 + 9, bottom as u32 - 20),
            end: (right as u32 - 9, bottom as u32 - 31),
            block,
            allow: Some(Bounds::new(0, 0, 0, 0)),
            states: 400,
            results: 32,
            groups: vec![6],
            placements,
        },
        given: None,
        held: None,
        portions: vec![1, 2, 9, 400],
    }
}

fn spot(rng: &mut Rng, window: Rect) -> Rect {
    let x = rng.between(window.left + 60, window.right - 60);
    let y = rng.between(window.top, window.bottom - 60);
    Rect::new(x, y, x + rng.between(1, 9), y + rng.between(1, 9))
}

/// As many placements as begin takes.
fn places(seed: u64) -> Item {
    let mut rng = Rng::new(seed);
    let window = Rect::new(20, 30, 84, 94);
    let placements = (0..6_144)
        .map(|k| {
            let (x, y) = (rng.between(24, 78), rng.between(30, 90));
            let tall = if k % 50 == 0 { 64 } else { rng.between(1, 20) };
            let y = y.min(94 - tall);
            let footprint = Rect::new(x, y, x + rng.between(1, 3), y + tall);
            Placement { spec: k % 6, group: k % 2, tile: (k, k), ..Placement::plain(footprint) }
        })
        .collect();
    Item {
        name: "places",
        case: Case {
            map: (16, 16),
            cells: vec![1; 256],
            obstacles: Vec::new(),
            window,
            start: (21, 60),
            end: (82, 61),
            block: Bounds::new(1, 1, 1, 1),
            allow: None,
            states: 1_500,
            results: 32,
            groups: vec![3, 3],
            placements,
        },
        given: None,
        held: None,
        portions: vec![1, 10, 100, 1_500],
    }
}

/// A search that goes on for long: single centres on open ground.
fn long() -> Item {
    let window = Rect::new(0, 0, 12, 8);
    let placements = (0..96)
        .map(|k| Rect::new(k % 12, k / 12, k % 12 + 1, k / 12 + 1))
        .filter(|rect| rect.left > 0 && rect.left < 11)
        .map(Placement::plain)
        .collect();
    Item {
        name: "long",
        case: Case {
            map: (2, 1),
            cells: vec![1; 2],
            obstacles: Vec::new(),
            window,
            start: (0, 4),
            end: (11, 4),
            block: Bounds::new(0, 0, 0, 0),
            allow: None,
            states: 100_000,
            results: 32,
            groups: vec![6],
            placements,
        },
        given: None,
        held: None,
        portions: vec![1_000, 2_000, 3_000],
    }
}

/// The same search with a record of 99,995 evaluations.
fn last_states() -> Item {
    let long = long();
    let placements = long.case.placements.len() as u32;
    let visited = vec![Vec::new(); 99_995];
    Item {
        held: Some(Snapshot {
            evaluations: visited.len() as u32,
            pending: None,
            lists: vec![List { entries: (0..placements).collect(), next: 0 }],
            visited,
            ..Snapshot::begun(placements)
        }),
        portions: vec![0, 2, 1, 9, 9],
        ..long
    }
}
