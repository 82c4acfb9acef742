//! Compares `route`, as proved and compiled, with its rule (docs/RULES.md, 2.4) computed another way: distances layer by layer,
//! and in each layer the first discoverer by rank. No queue is kept here, and no predecessor is written before its layer is whole.
//!
//! What is looked at for every map: whether there is a route, each of its points, that queue and predecessors are zero
//! again, and that nothing past the route was written.

mod rule;

use rule::{Map, Rule, EIGHT};

extern "C" {
    fn hitrovzen_route(
        map: *const u8,
        map_len: usize,
        width: usize,
        height: usize,
        steps: *const i32,
        steps_len: usize,
        start: usize,
        end: usize,
        queue: *mut u32,
        queue_len: usize,
        previous: *mut u32,
        previous_len: usize,
        path: *mut u32,
        path_len: usize,
    ) -> usize;
}

/// The entries of the route area before a call; no centre has this number.
const UNTOUCHED: u32 = 0xDEAD_BEEF;
/// How much longer than needed the areas are lent.
const MORE: usize = 3;

struct Port {
    queue: Vec<u32>,
    previous: Vec<u32>,
    path: Vec<u32>,
}

impl Port {
    fn new() -> Self {
        Port {
            queue: Vec::new(),
            previous: Vec::new(),
            path: Vec::new(),
        }
    }

    /// The port's route, with what it leaves in the areas held to its contract.
    fn route(&mut self, map: &Map, steps: &[i32; 16], start: usize, end: usize) -> Vec<u32> {
        let c = map.width * map.height;
        self.queue.resize(c + MORE, 0);
        self.previous.resize(c + MORE, 0);
        self.path.clear();
        self.path.resize(c + MORE, UNTOUCHED);
        let n = unsafe {
            hitrovzen_route(
                map.blocked.as_ptr(),
                map.blocked.len(),
                map.width,
                map.height,
                steps.as_ptr(),
                steps.len(),
                start,
                end,
                self.queue.as_mut_ptr(),
                self.queue.len(),
                self.previous.as_mut_ptr(),
                self.previous.len(),
                self.path.as_mut_ptr(),
                self.path.len(),
            )
        };
        assert!(n <= c, "{n} points over {c} centres");
        assert!(
            self.queue.iter().all(|&v| v == 0),
            "the queue is not zero again"
        );
        assert!(
            self.previous.iter().all(|&v| v == 0),
            "the predecessors are not zero again"
        );
        assert!(
            self.path[n..].iter().all(|&v| v == UNTOUCHED),
            "written past the route"
        );
        self.path[..n].to_vec()
    }
}

struct Random(u64);

impl Random {
    fn next(&mut self) -> u64 {
        self.0 = self.0.wrapping_add(0x9E37_79B9_7F4A_7C15);
        let mut z = self.0;
        z = (z ^ (z >> 30)).wrapping_mul(0xBF58_476D_1CE4_E5B9);
        z = (z ^ (z >> 27)).wrapping_mul(0x94D0_49BB_1331_11EB);
        z ^ (z >> 31)
    }

    fn below(&mut self, n: usize) -> usize {
        (self.next() % n as u64) as usize
    }
}

#[derive(Default)]
struct Tally {
    searches: usize,
    found: usize,
    none: usize,
    closed_end: usize,
    equal_ends: usize,
    diagonals: usize,
    points: usize,
    longest: usize,
    other_orders: usize,
    high_bytes: usize,
}

impl Tally {
    fn compare(&mut self, port: &mut Port, map: &Map, steps: &[i32; 16], start: usize, end: usize) {
        let want = Rule::new(map, steps, start).route(end);
        let got = port.route(map, steps, start, end);
        assert_eq!(
            got, want,
            "{} x {}, from {start} to {end}, steps {steps:?}",
            map.width, map.height
        );
        self.searches += 1;
        self.other_orders += usize::from(steps != &EIGHT);
        self.high_bytes += usize::from(map.blocked.iter().any(|&b| b > 1));
        self.equal_ends += usize::from(start == end);
        self.closed_end += usize::from(map.blocked[start] != 0 || map.blocked[end] != 0);
        if got.is_empty() {
            self.none += 1;
            return;
        }
        self.found += 1;
        self.points += got.len();
        self.longest = self.longest.max(got.len());
        let w = map.width as u32;
        self.diagonals += got
            .windows(2)
            .filter(|p| p[0] % w != p[1] % w && p[0] / w != p[1] / w)
            .count();
    }

    fn print(&self, name: &str) {
        println!(
            "{name}: {} searches, {} with a route, {} without ({} with a closed end), {} with equal ends, {} in another order of steps, {} with bytes above 1; {} points, {} diagonal steps, longest {}",
            self.searches, self.found, self.none, self.closed_end, self.equal_ends, self.other_orders, self.high_bytes, self.points, self.diagonals, self.longest
        );
    }
}

/// The eight steps in another order.
fn shuffled(random: &mut Random) -> [i32; 16] {
    let mut steps = EIGHT;
    for i in (1..8).rev() {
        let j = random.below(i + 1);
        steps.swap(2 * i, 2 * j);
        steps.swap(2 * i + 1, 2 * j + 1);
    }
    steps
}

/// A map whose centres are closed with the chance `percent`, by 1 or by another byte.
fn scattered(random: &mut Random, width: usize, height: usize, percent: usize, top: usize) -> Map {
    let blocked = (0..width * height)
        .map(|_| {
            if random.below(100) < percent {
                1 + random.below(top) as u8
            } else {
                0
            }
        })
        .collect();
    Map {
        width,
        height,
        blocked,
    }
}

/// Every other row is closed but for one centre, at alternating ends: one long way, from centre 0 to the one that is told.
fn serpentine(width: usize, height: usize) -> (Map, usize) {
    let mut blocked = vec![0; width * height];
    for y in (1..height).step_by(2) {
        let gap = if y % 4 == 1 { width - 1 } else { 0 };
        blocked[y * width..][..width].fill(1);
        blocked[y * width + gap] = 0;
    }
    let row = (height - 1) / 2 * 2;
    let end = row * width + if row % 4 == 0 { width - 1 } else { 0 };
    (
        Map {
            width,
            height,
            blocked,
        },
        end,
    )
}

fn small(seed: u64) -> Tally {
    let (mut random, mut port, mut tally) = (Random(seed), Port::new(), Tally::default());
    for _ in 0..20_000 {
        let (width, height) = (1 + random.below(12), 1 + random.below(12));
        let percent = random.below(60);
        let top = if random.below(2) == 0 { 1 } else { 255 };
        let map = scattered(&mut random, width, height, percent, top);
        let steps = if random.below(2) == 0 {
            EIGHT
        } else {
            shuffled(&mut random)
        };
        let (start, end) = (random.below(width * height), random.below(width * height));
        tally.compare(&mut port, &map, &steps, start, end);
    }
    tally
}

/// Scattered maps of one size, ends in opposite corners that are open, both ways; then a serpentine, both ways.
fn large(seed: u64, width: usize, height: usize, maps: usize) -> Tally {
    let (mut random, mut port, mut tally) = (Random(seed), Port::new(), Tally::default());
    let last = width * height - 1;
    for k in 0..maps {
        let mut map = scattered(&mut random, width, height, 6 * k, 1);
        map.blocked[0] = 0;
        map.blocked[last] = 0;
        let steps = if k % 2 == 0 {
            EIGHT
        } else {
            shuffled(&mut random)
        };
        tally.compare(&mut port, &map, &steps, 0, last);
        tally.compare(&mut port, &map, &steps, last, 0);
    }
    let (map, end) = serpentine(width, height);
    tally.compare(&mut port, &map, &EIGHT, 0, end);
    tally.compare(&mut port, &map, &EIGHT, end, 0);
    tally
}

fn main() {
    let seed = 2026;
    println!("seed {seed}");
    small(seed).print("up to 12 x 12");
    large(seed, 300, 260, 6).print("300 x 260");
    large(seed, 1024, 1024, 6).print("1024 x 1024");
    large(seed, 8192, 128, 4).print("8192 x 128");
    println!("every route is the rule's");
}
