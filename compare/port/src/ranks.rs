//! Rank: footprints on maps of every size beside the original and the reading of `distances`, those counted where an answer turns, and
//! values of any kind for the refusals. The ranks that are given go on to `closer`.

use std::fmt;

use judge::generate::Rng;

use crate::both;
use crate::closer;
use crate::distances::{self, Measured, Side};
use crate::entrances::{bezout, pick, site, stand};
use crate::values::{Asked, Rank};

/// So many footprints stand about one entrance.
const ABOUT_ONE: u64 = 8;
/// The ranks about so many entrances make a list, and of so many lists the first goes to `closer`.
const TOGETHER: u64 = 4;
const EVERY: u64 = 8;

/// A kind of accepted footprint, and whether one is of this kind.
type Kind = (&'static str, fn(&Asked, &Measured) -> bool);

const KINDS: &[Kind] = &[
    ("rank beside the first end", |_, m| m.side == Side::First && m.has_rank()),
    ("rank beside the second end", |_, m| m.side == Side::Second && m.has_rank()),
    ("rank between the ends", |_, m| m.side == Side::Between && m.has_rank()),
    ("beyond the radius, beside an end", |_, m| m.side != Side::Between && !m.has_rank()),
    ("beyond the radius, between the ends", |_, m| m.side == Side::Between && !m.has_rank()),
    ("rank at projection 0", |_, m| m.square_to[0] && m.has_rank()),
    ("rank at the least projection above 0", |a, m| projection(a) == parts(a) && m.has_rank()),
    ("rank at the greatest projection below twice the squared length", |a, m| projection(a) == last_projection(a) && m.has_rank()),
    ("rank at projection twice the squared length", |_, m| m.square_to[1] && m.has_rank()),
    ("numerator at a limit above 0, beside an end", |_, m| m.side != Side::Between && m.limit > 0 && m.numerator == m.limit),
    ("numerator at a limit above 0, between the ends", |_, m| m.side == Side::Between && m.limit > 0 && m.numerator == m.limit),
    ("numerator one above such a limit, beside an end", |_, m| m.side != Side::Between && m.limit > 0 && m.numerator == m.limit + 1),
    ("least numerator above such a limit, between the ends", |a, m| m.side == Side::Between && m.limit > 0 && least_above(a, m)),
    ("beyond the radius though the quotient is its square, beside an end", |a, m| m.side != Side::Between && whole_at_radius(a, m)),
    ("beyond the radius though the quotient is its square, between the ends", |a, m| m.side == Side::Between && whole_at_radius(a, m)),
    ("rank with |cross| at the bound of the original's early test", |a, m| early(a, m, 0) && m.has_rank()),
    ("beyond the radius with |cross| at that bound", |a, m| early(a, m, 0) && !m.has_rank()),
    ("beyond the radius with the least |cross| above that bound", |a, m| early(a, m, 1)),
    ("centre on a pixel", |a, _| odd(a) == [false, false]),
    ("centre half way between two pixels, across", |a, _| odd(a) == [true, false]),
    ("centre half way between two pixels, down", |a, _| odd(a) == [false, true]),
    ("centre half way between two pixels, both ways", |a, _| odd(a) == [true, true]),
    ("entrance in a row", |a, _| a.first[1] == a.second[1]),
    ("entrance in a column", |a, _| a.first[0] == a.second[0]),
    ("entrance on a diagonal", |a, _| way(a)[0].abs() == way(a)[1].abs()),
    ("entrance of one pixel", |a, _| squared_length(a) == 1),
    ("entrance of 8,192 pixels or more", |a, _| squared_length(a) >= 8_192 * 8_192),
    ("first end on the right edge", |a, _| a.first[0] == 8 * a.across),
    ("first end on the bottom edge", |a, _| a.first[1] == 8 * a.down),
    ("second end on the right edge", |a, _| a.second[0] == 8 * a.across),
    ("second end on the bottom edge", |a, _| a.second[1] == 8 * a.down),
    ("footprint at the left edge", |a, _| a.footprint[0] == 0),
    ("footprint at the top edge", |a, _| a.footprint[1] == 0),
    ("footprint at the right edge", |a, _| i64::from(a.footprint[2]) == 8 * i64::from(a.across)),
    ("footprint at the bottom edge", |a, _| i64::from(a.footprint[3]) == 8 * i64::from(a.down)),
    ("radius 0, with a rank", |a, m| a.radius == 0 && m.has_rank()),
    ("radius 1,024", |a, _| a.radius == 1_024),
];

fn way(asked: &Asked) -> [i64; 2] {
    [0, 1].map(|axis| i64::from(asked.second[axis]) - i64::from(asked.first[axis]))
}

fn squared_length(asked: &Asked) -> i64 {
    way(asked)[0].pow(2) + way(asked)[1].pow(2)
}

/// What every cross product and every projection is a multiple of.
fn parts(asked: &Asked) -> i64 {
    let [across, down] = way(asked);
    bezout(across, down).0
}

fn projection(asked: &Asked) -> i64 {
    let [left, top, right, bottom] = asked.footprint.map(i64::from);
    let [x, y] = asked.first.map(i64::from);
    (left + right - 2 * x) * way(asked)[0] + (top + bottom - 2 * y) * way(asked)[1]
}

fn last_projection(asked: &Asked) -> i64 {
    2 * squared_length(asked) - parts(asked)
}

fn odd(asked: &Asked) -> [bool; 2] {
    let [left, top, right, bottom] = asked.footprint;
    [(left + right) % 2 == 1, (top + bottom) % 2 == 1]
}

/// Of the numerators that centres between the ends can have, squares of multiples of `parts`, the next lower one is not above the limit.
fn least_above(asked: &Asked, measured: &Measured) -> bool {
    let before = (measured.numerator.isqrt() - i128::from(parts(asked))).pow(2);
    !measured.has_rank() && before <= measured.limit
}

fn whole_at_radius(asked: &Asked, measured: &Measured) -> bool {
    asked.radius > 0 && !measured.has_rank() && measured.numerator / measured.divisor == i128::from(asked.radius).pow(2)
}

/// Between the ends, with a cross product so many parts above the bound of the original's early test, itself above 0.
fn early(asked: &Asked, measured: &Measured, above: i64) -> bool {
    let bound = 2 * i64::from(asked.radius) * (way(asked)[0].abs() + way(asked)[1].abs());
    measured.side == Side::Between && bound > 0 && measured.numerator == i128::from(bound + above * parts(asked)).pow(2)
}

/// What is wrong with a call, its refusal, and what makes it so, a map's size and an entrance that are right taken for granted.
type Fault = (&'static str, u32, fn(&mut Asked));

const FAULTS: &[Fault] = &[
    ("no cell across", 1, |a| a.across = 0),
    ("no cell down", 1, |a| a.down = 0),
    ("1,025 cells across", 1, |a| a.across = 1_025),
    ("1,025 cells down", 1, |a| a.down = 1_025),
    ("2^29 cells more across, as many pixels in 32 bits", 1, |a| a.across += 1 << 29),
    ("radius 1,025", 22, |a| a.radius = 1_025),
    ("first end past the right edge", 22, |a| a.first[0] = 8 * a.across.min(2_000) + 1),
    ("first end past the bottom edge", 22, |a| a.first[1] = 8 * a.down + 1),
    ("second end past the right edge", 22, |a| a.second[0] = 8 * a.across.min(2_000) + 1),
    ("second end past the bottom edge", 22, |a| a.second[1] = 8 * a.down + 1),
    ("first end at -1 across", 22, |a| a.first[0] = u32::MAX),
    ("second end at -1 down", 22, |a| a.second[1] = u32::MAX),
    ("two equal ends", 22, |a| a.second = a.first),
    ("footprint past the left edge", 15, |a| a.footprint[0] = -1),
    ("footprint past the top edge", 15, |a| a.footprint[1] = -1),
    ("footprint past the right edge", 15, |a| a.footprint[2] = 8 * a.across.min(2_000) as i32 + 1),
    ("footprint past the bottom edge", 15, |a| a.footprint[3] = 8 * a.down as i32 + 1),
    ("footprint empty across", 15, |a| a.footprint[0] = a.footprint[2]),
    ("footprint empty down", 15, |a| a.footprint[3] = a.footprint[1]),
    ("footprint turned about across", 15, |a| a.footprint.swap(0, 2)),
    ("footprint turned about down", 15, |a| a.footprint.swap(1, 3)),
];

/// What the calls reached.
struct Reached {
    accepted: u64,
    ranks: u64,
    widths: Vec<bool>,
    heights: Vec<bool>,
    radii: Vec<bool>,
    kinds: Vec<u64>,
    /// Calls for the refusals; those refused, by the reasons there are for 1, 22 and 15; and calls with one of `FAULTS` alone.
    asked: u64,
    reasons: [[[u64; 2]; 2]; 2],
    alone: Vec<u64>,
    given: closer::Reached,
    drawn: closer::Reached,
}

impl Reached {
    fn new() -> Self {
        Self {
            accepted: 0,
            ranks: 0,
            widths: vec![false; 1_025],
            heights: vec![false; 1_025],
            radii: vec![false; 1_025],
            kinds: vec![0; KINDS.len()],
            asked: 0,
            reasons: [[[0; 2]; 2]; 2],
            alone: vec![0; FAULTS.len()],
            given: closer::Reached::default(),
            drawn: closer::Reached::default(),
        }
    }

    fn accepted(&mut self, asked: &Asked, measured: &Measured) {
        self.accepted += 1;
        self.ranks += u64::from(measured.has_rank());
        self.widths[asked.across as usize] = true;
        self.heights[asked.down as usize] = true;
        self.radii[asked.radius as usize] = true;
        for (found, (_, is)) in self.kinds.iter_mut().zip(KINDS) {
            *found += u64::from(is(asked, measured));
        }
    }

    fn refused(&mut self, asked: &Asked) {
        let [size, site, footprint] = distances::faults(asked).map(usize::from);
        self.reasons[size][site][footprint] += 1;
    }

    fn short_of(&self, footprints: u64) -> Vec<String> {
        let mut short = Vec::new();
        let mut hold = |what: &str, found: u64, least: u64| {
            if found < least {
                short.push(format!("{what}: {found}, held to {least}"));
            }
        };
        let least = (footprints / 1_000).min(1_000);
        hold("footprints", self.accepted, footprints);
        hold("widths of maps", many(&self.widths), (footprints / 64).min(1_024));
        hold("heights of maps", many(&self.heights), (footprints / 64).min(1_024));
        hold("radii", many(&self.radii), (footprints / 64).min(1_025));
        for ((kind, _), &found) in KINDS.iter().zip(&self.kinds) {
            hold(kind, found, least);
        }
        for ((fault, ..), &found) in FAULTS.iter().zip(&self.alone) {
            hold(fault, found, least);
        }
        let [[[accepted, only_15], [only_22, both]], [[only_1, with_15], [with_22, all]]] = self.reasons;
        hold("calls accepted among those for the refusals", accepted, least);
        for (reasons, found) in [("15", only_15), ("22", only_22), ("22 and 15", both), ("1", only_1)] {
            hold(&format!("calls with reason for {reasons}"), found, least);
        }
        for (reasons, found) in [("1 and 15", with_15), ("1 and 22", with_22), ("1, 22 and 15", all)] {
            hold(&format!("calls with reason for {reasons}"), found, least);
        }
        self.given.hold("given ranks", &mut hold, least / 4);
        self.drawn.hold("drawn numbers", &mut hold, least);
        self.drawn.hold_no_rank(&mut hold, least);
        short
    }
}

fn many(seen: &[bool]) -> u64 {
    seen.iter().filter(|seen| **seen).count() as u64
}

impl fmt::Display for Reached {
    fn fmt(&self, f: &mut fmt::Formatter<'_>) -> fmt::Result {
        let [widths, heights, radii] = [&self.widths, &self.heights, &self.radii].map(|seen| many(seen));
        let (accepted, beyond) = (self.accepted, self.accepted - self.ranks);
        writeln!(f, "ranks: {accepted} footprints, {} ranks, {beyond} beyond the radius", self.ranks)?;
        writeln!(f, "  maps of {widths} widths and {heights} heights, {radii} radii")?;
        for ((kind, _), found) in KINDS.iter().zip(&self.kinds) {
            writeln!(f, "  {kind}: {found}")?;
        }
        writeln!(f, "calls for the refusals of rank: {}; by the reasons that there are", self.asked)?;
        let [[[accepted, only_15], [only_22, both]], [[only_1, with_15], [with_22, all]]] = self.reasons;
        writeln!(f, "  none {accepted}, 15 {only_15}, 22 {only_22}, 22 and 15 {both}")?;
        writeln!(f, "  1 {only_1}, 1 and 15 {with_15}, 1 and 22 {with_22}, all three {all}")?;
        let (alone, fewest) = (self.alone.iter().sum::<u64>(), self.alone.iter().min().expect("some faults"));
        writeln!(f, "  with one of {} faults alone {alone}, with each at least {fewest}", FAULTS.len())?;
        writeln!(f, "closer, on given ranks: {}", self.given)?;
        writeln!(f, "closer, on drawn numbers: {}", self.drawn)
    }
}

/// So many footprints, nearly as many calls for the refusals, and what goes with them.
pub fn run(seed: u64, footprints: u64) -> Result<(), String> {
    let mut reached = Reached::new();
    by_hand()?;
    all(seed.rotate_left(19), footprints, &mut reached)?;
    print!("{reached}");
    let short = reached.short_of(footprints);
    if short.is_empty() { Ok(()) } else { Err(short.join("\n")) }
}

/// So many footprints; only a difference fails.
pub fn calls(seed: u64, footprints: u64) -> Result<(), String> {
    all(seed, footprints, &mut Reached::new())
}

fn all(seed: u64, footprints: u64, reached: &mut Reached) -> Result<(), String> {
    let mut rng = Rng::new(seed);
    let mut turn = 0;
    let mut ranks = Vec::new();
    while reached.accepted < footprints {
        let site = site(turn, &mut rng);
        for _ in 0..ABOUT_ONE {
            let asked = stand(&site, &mut rng);
            let measured = rank(&asked)?.map_err(|number| format!("rank: a drawn footprint is refused with {number}\n{asked:?}"))?;
            reached.accepted(&asked, &measured);
            ranks.extend(measured.rank());
        }
        turn += 1;
        if turn % TOGETHER == 0 {
            if turn / TOGETHER % EVERY == 1 {
                closer::list(&ranks, &mut reached.given)?;
                closer::list(&closer::drawn(&ranks, &mut rng), &mut reached.drawn)?;
            }
            ranks.clear();
        }
    }
    for _ in 0..footprints {
        altered(&mut rng, reached)?;
    }
    Ok(())
}

/// One call; a difference is told with its inputs.
fn rank(asked: &Asked) -> Result<Result<Measured, u32>, String> {
    both::rank(asked).map_err(|difference| format!("DIFFERENCE {difference}\n{asked:?}"))
}

/// A call with one to three faults, or with values of any kind.
fn altered(rng: &mut Rng, reached: &mut Reached) -> Result<(), String> {
    let mut asked = stand(&site(rng.draw(), rng), rng);
    let faults = rng.below(4);
    let drawn: Vec<usize> = (0..faults).map(|_| rng.below(FAULTS.len() as u32) as usize).collect();
    for &fault in &drawn {
        FAULTS[fault].2(&mut asked);
    }
    if drawn.is_empty() {
        for _ in 0..1 + rng.below(3) {
            wild(&mut asked, rng);
        }
    }
    let number = rank(&asked)?.err();
    reached.asked += 1;
    reached.refused(&asked);
    if let [fault] = drawn[..] {
        let (what, expected, _) = FAULTS[fault];
        both::same(what, &Some(expected), &number).map_err(|difference| format!("DIFFERENCE {difference}\n{asked:?}"))?;
        reached.alone[fault] += 1;
    }
    Ok(())
}

/// One value, or all of them, of any kind.
fn wild(asked: &mut Asked, rng: &mut Rng) {
    let (width, height) = (asked.across.wrapping_mul(8), asked.down.wrapping_mul(8));
    let mut number = || {
        let near = pick(&[0, 1, 1_024, 8_192, width, height, 1 << 16, 1 << 29, 1 << 31], rng);
        pick(&[near, near.wrapping_add(1), near.wrapping_sub(1), rng.draw() as u32, rng.below(8_193)], rng)
    };
    let (value, values) = (number(), [0; 11].map(|_| number()));
    match rng.below(9) {
        0 => asked.across = value,
        1 => asked.down = value,
        2 => asked.radius = value,
        3 => asked.first[rng.below(2) as usize] = value,
        4 => asked.second[rng.below(2) as usize] = value,
        5..=7 => asked.footprint[rng.below(4) as usize] = value as i32,
        _ => {
            let [across, down, radius, a, b, c, d, left, top, right, bottom] = values;
            let footprint = [left, top, right, bottom].map(|edge| edge as i32);
            *asked = Asked { across, down, first: [a, b], second: [c, d], radius, footprint };
        }
    }
}

/// An entrance of 20 pixels in a row, 10 pixels around it, and footprints measured by hand; then a map's whole diagonal.
fn by_hand() -> Result<(), String> {
    let site = Asked { across: 16, down: 16, first: [40, 60], second: [60, 60], radius: 10, footprint: [0; 4] };
    let rows: [([i32; 4], Option<Rank>); 10] = [
        // centre 46.5, 64.5: 4.5 pixels from the line, 20.25 squared
        ([45, 62, 48, 67], Some([20, 400, 1_600])),
        // 38.5, 64: 1.5 and 4 from the first end, 18.25
        ([36, 62, 41, 66], Some([18, 1, 4])),
        // 40, 64.5 and 60, 64.5: on the lines across the entrance at its ends
        ([38, 62, 42, 67], Some([20, 1, 4])),
        ([58, 62, 62, 67], Some([20, 1, 4])),
        // 63, 64: 3 and 4 from the second end
        ([62, 62, 64, 66], Some([25, 0, 4])),
        // 50, 70: at the radius
        ([48, 68, 52, 72], Some([100, 0, 1_600])),
        // 50, 70.5 and 30, 60.5: just beyond it
        ([48, 69, 52, 72], None),
        ([28, 58, 32, 63], None),
        // 70, 60: at the radius
        ([69, 59, 71, 61], Some([100, 0, 4])),
        // 50, 42
        ([40, 40, 60, 44], None),
    ];
    let diagonal = Asked { first: [0, 0], second: [128, 128], radius: 0, footprint: [0, 0, 1, 1], ..site };
    let on_it = Some([0, 0, 4 * (128 * 128 + 128 * 128)]);
    let rows = rows.map(|(footprint, rank)| (Asked { footprint, ..site }, rank)).into_iter().chain([(diagonal, on_it)]);
    for (asked, expected) in rows {
        let found = rank(&asked)?.map(|measured| measured.rank());
        both::same("a rank measured by hand", &Ok(expected), &found).map_err(|difference| format!("DIFFERENCE {difference}\n{asked:?}"))?;
    }
    closer::by_hand()
}
