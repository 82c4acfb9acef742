//! Places for a building, the nearest to an entrance first. The map has 240 × 200 pixels and the building is two tiles wide. Sorts the
//! places that lie within 40 pixels of the entrance, and tells which of them the whole numbers alone would leave in doubt.

use hitrovzen::{rank, Position, Rank, Rect, Refusal, Site};

const TILE: i32 = 32;

/// The map's size in walk cells, and in tiles.
const CELLS: (u32, u32) = (30, 25);
const TILES: (i32, i32) = (7, 6);

/// A slanted entrance.
pub const SITE: Site = Site::new(Position::new(71, 64), Position::new(121, 47), 40);

/// The tile on which the building's left half stands, and the building's rank.
pub struct Place {
    pub tile: (i32, i32),
    pub rank: Rank,
}

fn footprint((x, y): (i32, i32)) -> Rect {
    let (left, top) = (TILE * x, TILE * y);
    Rect::new(left, top, left + 2 * TILE, top + TILE)
}

/// Every tile that has another one to its right, row by row.
pub fn tiles() -> Vec<(i32, i32)> {
    let row = |y| (0..TILES.0 - 1).map(move |x| (x, y));
    (0..TILES.1).flat_map(row).collect()
}

/// The places that are near the entrance, from the nearest to the farthest. Those that are equally near stay row by row.
pub fn nearest_first() -> Result<Vec<Place>, Refusal> {
    let mut places = Vec::new();
    for tile in tiles() {
        if let Some(rank) = rank(CELLS.0, CELLS.1, SITE, footprint(tile))? {
            places.push(Place { tile, rank });
        }
    }
    places.sort_by_key(|place| place.rank);
    Ok(places)
}

/// What the whole numbers of two neighbours in the list leave in doubt.
fn doubt(place: &Place, next: &Place) -> &'static str {
    if place.rank == next.rank {
        "; the next is equally near"
    } else if place.rank.quotient() == next.rank.quotient() {
        "; the next is farther by a fraction"
    } else {
        ""
    }
}

fn main() -> Result<(), Refusal> {
    let places = nearest_first()?;
    println!(
        "{} of {} places are near the entrance",
        places.len(),
        tiles().len()
    );
    for (i, place) in places.iter().enumerate() {
        let ((x, y), rank) = (place.tile, place.rank);
        println!(
            "  tile ({x}, {y}): squared distance {} + {}/{}{}",
            rank.quotient(),
            rank.remainder(),
            rank.divisor(),
            places.get(i + 1).map_or("", |next| doubt(place, next))
        );
    }
    Ok(())
}
