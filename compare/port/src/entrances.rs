//! Maps, entrances and footprints for `ranks`: of every size and kind, and footprints whose centres lie where an answer turns.

use judge::generate::Rng;

use crate::distances::measured;
use crate::values::Asked;

/// A point of the map, or a way across it and down it.
type Way = [i64; 2];

/// Sides of right-angled triangles, the longest last.
const TRIPLES: [[i64; 3]; 6] = [[3, 4, 5], [5, 12, 13], [8, 15, 17], [7, 24, 25], [20, 21, 29], [16, 63, 65]];

const MOST_CELLS: u64 = 1_024;

pub fn pick<T: Copy>(from: &[T], rng: &mut Rng) -> T {
    from[rng.below(from.len() as u32) as usize]
}

/// From `low` to `high`, both included.
fn draw(low: i64, high: i64, rng: &mut Rng) -> i64 {
    low + i64::from(rng.below((high - low + 1) as u32))
}

fn sum(a: Way, b: Way) -> Way {
    [a[0] + b[0], a[1] + b[1]]
}

fn times(n: i64, [x, y]: Way) -> Way {
    [n * x, n * y]
}

fn dot(a: Way, b: Way) -> i64 {
    a[0] * b[0] + a[1] * b[1]
}

fn root(square: i64) -> i64 {
    square.isqrt()
}

/// One of the eight ways that are the same but for signs and an exchange of x and y.
fn turned([x, y]: Way, rng: &mut Rng) -> Way {
    let (x, y) = if rng.chance(1, 2) { (x, y) } else { (y, x) };
    [pick(&[x, -x], rng), pick(&[y, -y], rng)]
}

/// The greatest common divisor g of a and b, and x and y with a x + b y = g.
pub fn bezout(a: i64, b: i64) -> (i64, Way) {
    let (mut held, mut next) = ((a, [1, 0]), (b, [0, 1]));
    while next.0 != 0 {
        let quotient = held.0 / next.0;
        (held, next) = (next, (held.0 - quotient * next.0, sum(held.1, times(-quotient, next.1))));
    }
    if held.0 < 0 { (-held.0, times(-1, held.1)) } else { held }
}

/// The map's size in pixels.
fn pixels(asked: &Asked) -> Way {
    [asked.across, asked.down].map(|cells| 8 * i64::from(cells))
}

/// A map, an entrance and a radius, and no footprint yet. Over 4 × 1,025 turns all widths, heights and radii come.
pub fn site(turn: u64, rng: &mut Rng) -> Asked {
    let any = |rng: &mut Rng| 1 + rng.below(MOST_CELLS as u32);
    let (across, down) = match turn % 4 {
        0 => (1 + (turn / 4 % MOST_CELLS) as u32, 1 + (turn / 4 % MOST_CELLS * 389 % MOST_CELLS) as u32),
        1 => (1_024, 1_024),
        2 => (1 + rng.below(16), 1 + rng.below(16)),
        _ => (any(rng), any(rng)),
    };
    let radius = match turn % 4 {
        0 => (turn / 4 % 1_025) as u32,
        _ => {
            let most = pick(&[0, 3, 20, 100, 400, 1_024], rng);
            pick(&[most, rng.below(most + 1), rng.below(most + 1)], rng)
        }
    };
    let mut asked = Asked { across, down, first: [0; 2], second: [0; 2], radius, footprint: [0; 4] };
    let [first, second] = ends(pixels(&asked), rng);
    asked.first = first.map(|pixels| pixels as u32);
    asked.second = second.map(|pixels| pixels as u32);
    asked
}

/// Two points of a map: any, near each other, in a row, in a column, on a diagonal, at corners or edges, or apart by sides of a triangle
/// with a whole third side.
fn ends(size: Way, rng: &mut Rng) -> [Way; 2] {
    loop {
        let any = |rng: &mut Rng| size.map(|edge| draw(0, edge, rng));
        let at_edges = |rng: &mut Rng| size.map(|edge| pick(&[0, edge, edge, draw(0, edge, rng)], rng));
        let first = if rng.chance(1, 4) { at_edges(rng) } else { any(rng) };
        let along = draw(1, pick(&[4, 40, 400, 8_192], rng), rng);
        let second = match rng.below(8) {
            0 => any(rng),
            1 => at_edges(rng),
            2 => sum(first, [draw(-3, 3, rng), draw(-3, 3, rng)]),
            3 => sum(first, [pick(&[along, -along], rng), 0]),
            4 => sum(first, [0, pick(&[along, -along], rng)]),
            5 => sum(first, turned([along, along], rng)),
            6 => [size[0] - first[0], size[1] - first[1]],
            _ => {
                let [a, b, _] = pick(&TRIPLES, rng);
                sum(first, turned(times(1 + along / 40, [a, b]), rng))
            }
        };
        let on_map = (0..2).all(|axis| (0..=size[axis]).contains(&second[axis]));
        if on_map && first != second {
            return [first, second];
        }
    }
}

/// An entrance in half pixels from its first end. `unit` is the shortest whole way along it, (a, b), and `step` is (x, y) with
/// a x + b y = 1. So a whole way to the centre is a sum of (y, -x) and (a, b), each a whole number of times, the first of them as often
/// as `parts` goes into its cross product with the entrance; or a sum of (x, y) and (-b, a), where that holds of the projection.
struct Entrance {
    start: Way,
    way: Way,
    parts: i64,
    unit: Way,
    step: Way,
    /// The squared length of `unit`.
    squared: i64,
}

impl Entrance {
    fn of(asked: &Asked) -> Self {
        let [first, second] = [asked.first, asked.second].map(|end| end.map(i64::from));
        let way = sum(second, times(-1, first));
        let (parts, step) = bezout(way[0], way[1]);
        let unit = way.map(|pixels| pixels / parts);
        Self { start: times(2, first), way, parts, unit, step, squared: dot(unit, unit) }
    }

    /// A centre whose cross product is n parts, between the ends or just not.
    fn by_cross(&self, n: i64, rng: &mut Rng) -> Way {
        let aside = times(n, [self.step[1], -self.step[0]]);
        let at = dot(aside, self.unit);
        // the multiples of `unit` with which the projection is above 0 and below twice the squared length, and one more at each end
        let low = (-at).div_euclid(self.squared);
        let high = -(at - 2 * self.parts * self.squared).div_euclid(self.squared);
        let along = pick(&[low, low + 1, high - 1, high, draw(low, high, rng), draw(low, high, rng)], rng);
        sum(self.start, sum(aside, times(along, self.unit)))
    }

    /// A centre on the line across the entrance at one of its ends, or as near to it as can be.
    fn by_projection(&self, reach: i64, rng: &mut Rng) -> Way {
        let end = pick(&[[0, 0], times(2, self.way)], rng);
        let off = times(pick(&[-1, 0, 0, 0, 0, 1], rng), self.step);
        let most = root(reach * reach / self.squared) + 1;
        let across = times(draw(-most, most, rng), [-self.unit[1], self.unit[0]]);
        sum(sum(self.start, end), sum(off, across))
    }

    /// A centre so far from an end, and on the side of it where the distance is that to the end.
    fn by_end(&self, way: Way, rng: &mut Rng) -> Way {
        let way = turned(way, rng);
        let ahead = dot(way, self.way) > 0;
        if rng.chance(1, 2) {
            sum(self.start, if ahead { times(-1, way) } else { way })
        } else {
            sum(sum(self.start, times(2, self.way)), if ahead { way } else { times(-1, way) })
        }
    }
}

/// Gives the site a footprint inside its map, perhaps with another radius.
pub fn stand(site: &Asked, rng: &mut Rng) -> Asked {
    let entrance = Entrance::of(site);
    let mut asked = *site;
    for _ in 0..6 {
        let centre = centre(&entrance, &mut asked, rng);
        if let Some(footprint) = around(centre, pixels(site), rng) {
            asked.footprint = footprint;
            if rng.chance(1, 8) {
                fit_radius(&mut asked, rng);
            }
            return asked;
        }
        // far from the entrance the map may have ended
        asked.radius = rng.below(asked.radius + 1);
    }
    let centre = pixels(site).map(|edge| draw(1, 2 * edge - 1, rng));
    asked.footprint = around(centre, pixels(site), rng).expect("a centre on the map");
    asked
}

/// Twice the coordinates of a centre: anywhere, near the entrance, across from an end, or where the numerator or the original's early test
/// comes to its limit. The map may not have it.
fn centre(entrance: &Entrance, asked: &mut Asked, rng: &mut Rng) -> Way {
    let reach = 2 * i64::from(asked.radius);
    match rng.below(8) {
        0 => pixels(asked).map(|edge| draw(1, 2 * edge - 1, rng)),
        1 => {
            let part = draw(-300, 1_300, rng);
            let along = entrance.way.map(|pixels| 2 * pixels * part / 1_000);
            sum(sum(entrance.start, along), [draw(-reach - 2, reach + 2, rng), draw(-reach - 2, reach + 2, rng)])
        }
        2 => entrance.by_projection(reach, rng),
        3 | 4 => {
            let n = root(reach * reach * entrance.squared) + pick(&[-1, 0, 0, 1, 1, 2], rng);
            entrance.by_cross(pick(&[n, -n], rng), rng)
        }
        5 => {
            let n = reach * (entrance.unit[0].abs() + entrance.unit[1].abs()) + pick(&[-1, 0, 0, 1], rng);
            entrance.by_cross(pick(&[n, -n], rng), rng)
        }
        6 => {
            let x = draw(0, reach, rng);
            let y = root(reach * reach - x * x) + pick(&[0, 1], rng);
            entrance.by_end(pick(&[[x, y], [reach, 0], [reach, 1], [reach, 1]], rng), rng)
        }
        _ => {
            let [a, b, c] = pick(&TRIPLES, rng);
            let half = draw(1, (1 + reach / (2 * c)).min(1_024 / c), rng);
            asked.radius = (c * half) as u32;
            entrance.by_end(times(2 * half, [a, b]), rng)
        }
    }
}

/// A footprint inside the map about this centre.
fn around(centre: Way, size: Way, rng: &mut Rng) -> Option<[i32; 4]> {
    let mut axis = |at: i64, edge: i64| {
        let most = at.min(2 * edge - at);
        if most < 1 {
            return None;
        }
        let least = 2 - at % 2;
        let more = (most - least) / 2;
        let width = least + 2 * pick(&[0, more, draw(0, more, rng), draw(0, more.min(64), rng)], rng);
        Some((((at - width) / 2) as i32, ((at + width) / 2) as i32))
    };
    let ((left, right), (top, bottom)) = (axis(centre[0], size[0])?, axis(centre[1], size[1])?);
    Some([left, top, right, bottom])
}

/// The least radius with a rank, or one more or less.
fn fit_radius(asked: &mut Asked, rng: &mut Rng) {
    let measured = measured(asked);
    let least = (measured.numerator - 1).div_euclid(measured.divisor) + 1;
    let radius = (least - 1).max(0).isqrt() + i128::from(least > 0) + pick(&[-1, -1, 0, 0, 1], rng);
    asked.radius = radius.clamp(0, 1_024) as u32;
}
