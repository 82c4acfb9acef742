//! Cover and lift: sequences of covers that are lifted in another order, counts driven to both their ends, covers and lifts mixed,
//! windows of the largest sizes, and values of any kind. Each call is made to the port and to the reading of `covers`, and everything
//! compared after it.

use std::fmt;

use judge::generate::Rng;

use crate::both;
use crate::counts::{COVER, Counts, LIFT};
use crate::covers::{Change, kept_off};
use crate::values::{Building, MORE, Word};

/// What the calls reached.
#[derive(Debug, Default)]
struct Reached {
    calls: u64,
    /// Sequences of covers that were all lifted again, and the covers.
    lifted: u64,
    covers: u64,
    /// Rectangles covered up to 255 and lifted down to 0.
    ends: u64,
    /// Covers and lifts refused with 20 for a centre in a row below the first that they reach.
    late: [u64; 2],
    /// Accepted calls that reach no centre, some, and all.
    none: u64,
    some: u64,
    all: u64,
}

impl Reached {
    fn short_of(&self, calls: u64) -> Vec<String> {
        let least = (calls / 1_000).min(100);
        let kinds = [
            ("calls of cover and lift", self.calls, calls),
            ("sequences lifted in another order", self.lifted, least),
            ("rectangles covered up to 255", self.ends, least / 10),
            ("covers refused with 20 below their first row", self.late[0], least),
            ("lifts refused with 20 below their first row", self.late[1], least),
            ("accepted calls that reach no centre", self.none, least),
            ("accepted calls that reach some centres", self.some, least),
            ("accepted calls that reach all centres", self.all, least),
        ];
        kinds
            .iter()
            .filter(|(_, found, least)| found < least)
            .map(|(what, found, least)| format!("{what}: {found}, held to {least}"))
            .collect()
    }
}

impl fmt::Display for Reached {
    fn fmt(&self, f: &mut fmt::Formatter<'_>) -> fmt::Result {
        let Self { calls, lifted, covers, ends, late, none, some, all } = self;
        writeln!(f, "buildings: {calls} calls of cover and lift, {covers} covers in {lifted} sequences lifted in another order")?;
        writeln!(f, "  rectangles covered up to 255 and lifted down to 0: {ends}")?;
        writeln!(f, "  accepted calls that reach no centre {none}, some {some}, all {all}")?;
        writeln!(f, "  refused with 20 below the first row reached: covers {}, lifts {}", late[0], late[1])
    }
}

/// So many calls, and those on the largest windows.
pub fn run(seed: u64, calls: u64, counts: &mut Counts) -> Result<(), String> {
    let mut site = Site { rng: Rng::new(seed.rotate_left(29)), counts, reached: Reached::default() };
    by_hand(&mut site)?;
    large(&mut site)?;
    small(&mut site, calls)?;
    print!("{}", site.reached);
    let short = site.reached.short_of(calls);
    if short.is_empty() { Ok(()) } else { Err(short.join("\n")) }
}

/// So many calls on small windows; only a difference fails.
pub fn calls(seed: u64, calls: u64, counts: &mut Counts) -> Result<(), String> {
    small(&mut Site { rng: Rng::new(seed), counts, reached: Reached::default() }, calls)
}

struct Site<'a> {
    rng: Rng,
    counts: &'a mut Counts,
    reached: Reached,
}

impl Site<'_> {
    fn call(&mut self, change: Change, building: &Building, baseline: &mut [u8]) -> Result<u32, String> {
        let before = baseline.to_vec();
        let number = both::alter(change, building, baseline)
            .map_err(|difference| format!("{}\n{change:?} {building:?}\nover {}", differs(difference), short(&before)))?;
        let call = if change == Change::Cover { COVER } else { LIFT };
        self.counts.answer(call, number);
        self.reached.calls += 1;
        if number == 0 || number == 20 {
            self.note(change, building, baseline, number);
        }
        Ok(number)
    }

    /// Counts what a call with accepted values reached.
    fn note(&mut self, change: Change, building: &Building, baseline: &[u8], number: u32) {
        let (width, centres) = (width(building.window), centres(building.window));
        let off = kept_off(building);
        if number == 20 {
            let (end, kind) = if change == Change::Cover { (255, 0) } else { (0, 1) };
            let at_end = off.iter().find(|&&centre| baseline[centre] == end);
            self.reached.late[kind] += u64::from(at_end.is_some_and(|at| at / width > off[0] / width));
            return;
        }
        match off.len() {
            0 => self.reached.none += 1,
            reached if reached == centres => self.reached.all += 1,
            _ => self.reached.some += 1,
        }
    }

    /// Lifts what stands; a refusal is a difference.
    fn lift_standing(&mut self, building: &Building, baseline: &mut [u8]) -> Result<(), String> {
        match self.call(Change::Lift, building, baseline)? {
            0 => Ok(()),
            number => Err(differs(format!("a building that stands is not lifted: {number}\n{building:?}"))),
        }
    }
}

fn differs(difference: both::Difference) -> String {
    format!("DIFFERENCE {difference}")
}

fn short(counts: &[u8]) -> String {
    if counts.len() <= 3_000 { format!("{counts:?}") } else { format!("{} counts", counts.len()) }
}

fn width(window: [i32; 4]) -> usize {
    (window[2] - window[0]) as usize
}

fn centres(window: [i32; 4]) -> usize {
    width(window) * (window[3] - window[1]) as usize
}

fn pick<T: Copy>(from: &[T], rng: &mut Rng) -> T {
    from[rng.below(from.len() as u32) as usize]
}

/// A mover that reaches two to its left, one to its right, one down and none up, and the centres that one pixel keeps it off, counted by
/// hand.
fn by_hand(site: &mut Site) -> Result<(), String> {
    let building = Building { window: [10, 20, 16, 25], mover: [2, 0, 1, 1], rect: [12, 22, 13, 23] };
    let rows = ["000000", "011110", "011110", "000000", "000000"];
    let marked: Vec<u8> = rows.concat().bytes().map(|digit| digit - b'0').collect();
    let mut baseline = vec![0; marked.len()];
    site.call(Change::Cover, &building, &mut baseline)?;
    both::same_area("cover", "the baseline counted by hand", &marked, &baseline).map_err(differs)
}

fn small(site: &mut Site, calls: u64) -> Result<(), String> {
    let mut turn = 0;
    while site.reached.calls < calls {
        lifted(site)?;
        mixed(site)?;
        for _ in 0..8 {
            altered(site)?;
        }
        if turn % 64 == 0 {
            to_both_ends(site)?;
        }
        turn += 1;
    }
    Ok(())
}

/// A window of up to 40 × 30 centres anywhere in 8,192 × 8,192, often at its edges, and a mover.
fn ground(rng: &mut Rng) -> ([i32; 4], [u32; 4]) {
    let mut axis = |most: i32| {
        let length = rng.between(1, most);
        let furthest = 8_192 - length;
        let low = [0, furthest, rng.between(0, furthest), rng.between(0, 300)][rng.below(4) as usize];
        (low, low + length)
    };
    let ((left, right), (top, bottom)) = (axis(40), axis(30));
    let most = pick(&[0, 1, 3, 9, 40, 256], rng);
    let mut mover = [0; 4];
    mover.fill_with(|| rng.below(most + 1));
    ([left, top, right, bottom], mover)
}

/// A rectangle on the window or near it.
pub fn near(window: [i32; 4], rng: &mut Rng) -> [i32; 4] {
    let mut axis = |low: i32, high: i32| {
        let start = rng.between(low - 9, high + 3);
        (start, start + rng.between(1, 12))
    };
    let ((left, right), (top, bottom)) = (axis(window[0], window[2]), axis(window[1], window[3]));
    [left, top, right, bottom]
}

/// A rectangle near the window, or so far off that a mover of these bounds just meets it or just does not, or one that holds it all.
fn rectangle(window: [i32; 4], mover: [u32; 4], rng: &mut Rng) -> [i32; 4] {
    let [left, top, right, bottom] = near(window, rng);
    let [to_left, to_top, to_right, to_bottom] = mover.map(|bound| bound as i32);
    let by = rng.between(0, 1);
    match rng.below(12) {
        0 => [left.min(window[0] - to_left) - 20, top, window[0] - to_left + by, bottom],
        1 => [window[2] + to_right - by, top, right.max(window[2] + to_right) + 20, bottom],
        2 => [left, top.min(window[1] - to_top) - 20, right, window[1] - to_top + by],
        3 => [left, window[3] + to_bottom - by, right, bottom.max(window[3] + to_bottom) + 20],
        4 => [i32::MIN, top, i32::MAX, bottom],
        5 => [window[0], window[1], window[2], window[3]],
        _ => [left, top, right, bottom],
    }
}

/// Counts of a kind, and bytes past the centres that are none.
fn drawn(centres: usize, rng: &mut Rng) -> Vec<u8> {
    let (low, high) = pick(&[(0, 0), (0, 1), (0, 3), (0, 255), (250, 255), (255, 255), (1, 254)], rng);
    let mut counts: Vec<u8> = (0..centres).map(|_| rng.between(low, high) as u8).collect();
    counts.resize(centres + pick(&[0, 1, MORE], rng), u8::PAST);
    counts
}

/// A window and a few rectangles, each for one of two movers.
fn few(rng: &mut Rng) -> ([i32; 4], Vec<Building>) {
    let (window, mover) = ground(rng);
    let movers = [mover, ground(rng).1];
    let building = |rng: &mut Rng| {
        let mover = pick(&movers, rng);
        Building { window, mover, rect: rectangle(window, mover, rng) }
    };
    let buildings = (0..=rng.below(4)).map(|_| building(rng)).collect();
    (window, buildings)
}

/// Covers of a few rectangles, each drawn again and again; those accepted are lifted in another order, and every byte is as it was.
fn lifted(site: &mut Site) -> Result<(), String> {
    let (window, buildings) = few(&mut site.rng);
    let mut baseline = drawn(centres(window), &mut site.rng);
    let before = baseline.clone();
    let mut standing = Vec::new();
    for _ in 0..=site.rng.below(20) {
        let building = pick(&buildings, &mut site.rng);
        if site.call(Change::Cover, &building, &mut baseline)? == 0 {
            standing.push(building);
        }
    }
    site.reached.lifted += u64::from(standing.len() > 1);
    site.reached.covers += standing.len() as u64;
    while !standing.is_empty() {
        let next = site.rng.below(standing.len() as u32) as usize;
        site.lift_standing(&standing.swap_remove(next), &mut baseline)?;
    }
    both::same_area("cover, then lift", "baseline", &before, &baseline).map_err(differs)
}

/// Covers and lifts of a few rectangles in any order, over counts near an end.
fn mixed(site: &mut Site) -> Result<(), String> {
    let (window, buildings) = few(&mut site.rng);
    let mut baseline = drawn(centres(window), &mut site.rng);
    for _ in 0..24 {
        let building = pick(&buildings, &mut site.rng);
        let change = pick(&[Change::Cover, Change::Lift], &mut site.rng);
        site.call(change, &building, &mut baseline)?;
    }
    Ok(())
}

/// A rectangle covered until its counts are full, and lifted until they are zero; each time two calls more, which are refused.
fn to_both_ends(site: &mut Site) -> Result<(), String> {
    let (window, mover) = ground(&mut site.rng);
    let count = site.rng.below(256) as u8;
    let building = Building { window, mover, rect: window };
    let mut baseline = vec![count; centres(window)];
    for (change, accepted) in [(Change::Cover, 255 - usize::from(count)), (Change::Lift, 255)] {
        for k in 0..accepted + 2 {
            let number = site.call(change, &building, &mut baseline)?;
            let meant = if k < accepted { 0 } else { 20 };
            both::same(&format!("call {k} of {change:?} from one end to the other"), &meant, &number).map_err(differs)?;
        }
    }
    site.reached.ends += 1;
    both::same_area("lift", "baseline", &vec![0; baseline.len()], &baseline).map_err(differs)
}

/// One call of each kind with window, mover, rectangle and length altered, each in two of five cases.
fn altered(site: &mut Site) -> Result<(), String> {
    let rng = &mut site.rng;
    let (window, mover) = ground(rng);
    let mut building = Building { window, mover, rect: rectangle(window, mover, rng) };
    let mut baseline = drawn(centres(window), rng);
    if rng.chance(2, 5) {
        building.window = odd_window(window, rng);
    }
    if rng.chance(2, 5) {
        building.mover[rng.below(4) as usize] = pick(&[255, 256, 257, 257, 1 << 31, u32::MAX], rng);
    }
    if rng.chance(2, 5) {
        building.rect = odd_rect(building.rect, rng);
    }
    if rng.chance(2, 5) {
        let need = centres(window);
        baseline.resize(pick(&[0, need - 1, need - 1, need, need + 70], rng), u8::PAST);
    }
    for change in [Change::Cover, Change::Lift] {
        site.call(change, &building, &mut baseline)?;
    }
    Ok(())
}

fn odd_window(window: [i32; 4], rng: &mut Rng) -> [i32; 4] {
    let sizes = [
        [0, 0, 8_192, 128],
        [0, 0, 8_192, 129],
        [7_168, 7_168, 8_192, 8_192],
        [7_167, 7_168, 8_192, 8_192],
        [i32::MIN, i32::MIN, i32::MAX, i32::MAX],
        [i32::MAX, i32::MAX, i32::MIN, i32::MIN],
    ];
    let mut odd = window;
    match rng.below(4) {
        0 => odd = pick(&sizes, rng),
        1 => odd.fill_with(|| rng.draw() as i32),
        2 => odd.swap(0, 2),
        _ => {
            let values = [i32::MIN, -1, 0, window[0], window[1], window[2], window[3], 8_191, 8_192, 8_193, i32::MAX];
            odd[rng.below(4) as usize] = pick(&values, rng);
        }
    }
    odd
}

fn odd_rect(rect: [i32; 4], rng: &mut Rng) -> [i32; 4] {
    let mut odd = rect;
    match rng.below(5) {
        0 => odd.swap(0, 2),
        1 => odd.swap(1, 3),
        2 => odd.fill_with(|| rng.draw() as i32),
        3 => odd.fill_with(|| pick(&[i32::MIN, i32::MIN + 1, -257, -1, 0, 256, 8_192, i32::MAX - 1, i32::MAX], rng)),
        _ => odd[rng.below(4) as usize] = pick(&[i32::MIN, i32::MAX, rect[0], rect[1]], rng),
    }
    odd
}

/// Windows of the most centres: a building covered twice and lifted twice, and refused calls for the last centre that it reaches.
fn large(site: &mut Site) -> Result<(), String> {
    let windows = [[0, 0, 1_024, 1_024], [7_168, 7_168, 8_192, 8_192], [0, 0, 8_192, 128], [8_064, 0, 8_192, 8_192]];
    for window in windows {
        let [left, top, right, bottom] = window;
        let (x, y) = ((left + right) / 2, (top + bottom) / 2);
        let rects = [[x, y, x + 128, y + 96], [right - 1, bottom - 1, right, bottom], [i32::MIN, i32::MIN, i32::MAX, i32::MAX]];
        let mut baseline: Vec<u8> = (0..centres(window)).map(|_| site.rng.between(1, 253) as u8).collect();
        baseline.resize(baseline.len() + MORE, u8::PAST);
        let before = baseline.clone();
        for rect in rects {
            let building = Building { window, mover: [5, 9, 14, 2], rect };
            site.call(Change::Cover, &building, &mut baseline)?;
            site.call(Change::Cover, &building, &mut baseline)?;
            refused_at_last(site, &building, &baseline)?;
            site.lift_standing(&building, &mut baseline)?;
            site.lift_standing(&building, &mut baseline)?;
        }
        both::same_area("cover, then lift", "a large baseline", &before, &baseline).map_err(differs)?;
    }
    Ok(())
}

fn refused_at_last(site: &mut Site, building: &Building, baseline: &[u8]) -> Result<(), String> {
    let last = *kept_off(building).last().expect("a rectangle that reaches the window");
    for (change, end) in [(Change::Cover, 255), (Change::Lift, 0)] {
        let mut counts = baseline.to_vec();
        counts[last] = end;
        let number = site.call(change, building, &mut counts)?;
        both::same("the answer for the last centre", &20, &number).map_err(differs)?;
    }
    Ok(())
}
