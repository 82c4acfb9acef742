//! The rule of `route`, layer by layer.

/// The original's order of steps, x, y pairs.
pub const EIGHT: [i32; 16] = [1, 0, 0, 1, -1, 0, 0, -1, 1, 1, -1, 1, -1, -1, 1, -1];

pub struct Map {
    pub width: usize,
    pub height: usize,
    /// closed where nonzero
    pub blocked: Vec<u8>,
}

impl Map {
    /// The centre `by` away from `at`, where it is inside.
    fn moved(&self, at: usize, dx: i32, dy: i32) -> Option<usize> {
        let x = (at % self.width) as i64 + i64::from(dx);
        let y = (at / self.width) as i64 + i64::from(dy);
        let inside = 0 <= x && x < self.width as i64 && 0 <= y && y < self.height as i64;
        inside.then(|| y as usize * self.width + x as usize)
    }

    fn open(&self, at: usize) -> bool {
        self.blocked[at] == 0
    }

    /// Whether a step may leave `from`: a diagonal one needs both side centres open.
    fn passes(&self, from: usize, dx: i32, dy: i32) -> bool {
        if dx == 0 || dy == 0 {
            return true;
        }
        let sides = [self.moved(from, dx, 0), self.moved(from, 0, dy)];
        sides
            .iter()
            .all(|side| side.is_some_and(|at| self.open(at)))
    }
}

const FAR: u32 = u32::MAX;

/// For each centre that is joined with the start: its distance and its first discoverer.
pub struct Rule {
    start_open: bool,
    distance: Vec<u32>,
    discoverer: Vec<u32>,
}

impl Rule {
    pub fn new(map: &Map, steps: &[i32; 16], start: usize) -> Self {
        let c = map.width * map.height;
        let mut rule = Rule {
            start_open: map.open(start),
            distance: vec![FAR; c],
            discoverer: vec![FAR; c],
        };
        if !rule.start_open {
            return rule;
        }
        let mut rank = vec![FAR; c];
        rule.distance[start] = 0;
        rank[start] = 0;
        let mut layer = vec![start];
        let mut ranked = 1;
        let mut d = 0;
        while !layer.is_empty() {
            let mut next: Vec<(u32, usize, usize)> = Vec::new();
            for at in rule.around(map, steps, &layer) {
                if let Some((by, k)) = rule.first_discoverer(map, steps, &rank, at, d) {
                    rule.discoverer[at] = by as u32;
                    next.push((rank[by], k, at));
                }
            }
            next.sort_unstable();
            d += 1;
            for &(_, _, at) in &next {
                rule.distance[at] = d;
                rank[at] = ranked;
                ranked += 1;
            }
            layer = next.into_iter().map(|(_, _, at)| at).collect();
        }
        rule
    }

    /// Open centres beside the layer that have no distance yet, each once, in no order that matters.
    fn around(&self, map: &Map, steps: &[i32; 16], layer: &[usize]) -> Vec<usize> {
        let mut found: Vec<usize> = layer
            .iter()
            .flat_map(|&at| {
                (0..8).filter_map(move |k| map.moved(at, steps[2 * k], steps[2 * k + 1]))
            })
            .filter(|&at| map.open(at) && self.distance[at] == FAR)
            .collect();
        found.sort_unstable();
        found.dedup();
        found
    }

    /// The centre of the layer at distance d with the lowest rank from which a step leads to `at`, and that step's place in the order.
    fn first_discoverer(
        &self,
        map: &Map,
        steps: &[i32; 16],
        rank: &[u32],
        at: usize,
        d: u32,
    ) -> Option<(usize, usize)> {
        (0..8)
            .filter_map(|k| {
                let (dx, dy) = (steps[2 * k], steps[2 * k + 1]);
                let from = map.moved(at, -dx, -dy)?;
                (self.distance[from] == d && map.passes(from, dx, dy)).then_some((from, k))
            })
            .min_by_key(|&(from, k)| (rank[from], k))
    }

    /// The route to `end`, both ends counted; none where an end is closed or they are not joined.
    pub fn route(&self, end: usize) -> Vec<u32> {
        if !self.start_open || self.distance[end] == FAR {
            return Vec::new();
        }
        let mut route = vec![end as u32];
        while self.distance[route[route.len() - 1] as usize] != 0 {
            let last = route[route.len() - 1] as usize;
            let by = self.discoverer[last];
            assert_eq!(self.distance[by as usize] + 1, self.distance[last]);
            route.push(by);
        }
        route.reverse();
        route
    }
}

#[cfg(test)]
mod tests {
    use super::*;

    fn map(width: usize, rows: &[&str]) -> Map {
        let blocked = rows
            .iter()
            .flat_map(|row| row.bytes().map(|b| u8::from(b == b'#')))
            .collect();
        Map {
            width,
            height: rows.len(),
            blocked,
        }
    }

    fn route(map: &Map, steps: &[i32; 16], start: usize, end: usize) -> Vec<u32> {
        Rule::new(map, steps, start).route(end)
    }

    #[test]
    fn diagonals_on_open_ground() {
        assert_eq!(
            route(&map(3, &["...", "...", "..."]), &EIGHT, 0, 8),
            [0, 4, 8]
        );
    }

    #[test]
    fn a_diagonal_needs_both_sides() {
        assert_eq!(route(&map(2, &[".#", ".."]), &EIGHT, 0, 3), [0, 2, 3]);
        assert!(route(&map(2, &[".#", "#."]), &EIGHT, 0, 3).is_empty());
    }

    #[test]
    fn the_first_discoverer_counts() {
        // centre 2 of the middle row is two steps away over 1, over 6 and over 11; 6 is discovered by (1, 0) before the others
        let open = map(5, &[".....", ".....", "....."]);
        assert_eq!(route(&open, &EIGHT, 5, 7), [5, 6, 7]);
        let mut diagonals_first = EIGHT;
        diagonals_first.swap(0, 14);
        diagonals_first.swap(1, 15);
        assert_eq!(route(&open, &diagonals_first, 5, 7), [5, 1, 7]);
    }

    #[test]
    fn ends() {
        assert_eq!(route(&map(1, &["."]), &EIGHT, 0, 0), [0]);
        assert!(route(&map(1, &["#"]), &EIGHT, 0, 0).is_empty());
        assert!(route(&map(2, &[".#"]), &EIGHT, 0, 1).is_empty());
        assert!(route(&map(2, &["#."]), &EIGHT, 0, 1).is_empty());
    }
}
