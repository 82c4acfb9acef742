//! Other orders of steps than the original's. The judge's `order` reads the rules in any order: it is compared with the original in the
//! original's order, and the port with it in drawn ones, everything after every call. Beside that: whether another order would have
//! shown, searches in two orders that both stop Exhausted, and tables that are refused with 19, with other faults behind it.

use std::collections::BTreeMap;

use judge::generate::{Generator, Rng};
use judge::list::Item;
use judge::order::{DIAGONALS_FIRST, ORIGINAL_STEPS, Ordered};
use judge::{Baselines, Mover, Reason, Rect, Search, Snapshot, verdict};

use crate::both::{self, Difference};
use crate::counts::{BEGIN, CALLS, Counts, JUDGE, PREPARE, READ, STEP};
use crate::large;
use crate::medium;
use crate::refusals::World;
use crate::rules;
use crate::searches;
use crate::shrink;
use crate::values::{Inputs, Query, Work};

/// The calls that take a table.
const TAKING: [usize; 4] = [PREPARE, BEGIN, STEP, JUDGE];

/// The two steps that an exchange exchanges, by their places.
const EXCHANGES: usize = 28;

#[derive(Debug, Default)]
struct Reached {
    /// The calls in other orders than the original's, and those in the original's beside them.
    calls: Counts,
    beside: Counts,
    /// Inputs, each searched in an order of its own; those of the larger kind among them, and those with counts above 1.
    inputs: u64,
    larger: u64,
    over_counts: u64,
    /// Searches that hold something else at last than in the original's order: anything, the lists or visited sets, a kept route.
    unlike: u64,
    unlike_sets: u64,
    unlike_routes: u64,
    /// Such searches by the two steps exchanged in the reading.
    exchanged: [u64; EXCHANGES],
    /// Pairs that both stop Exhausted; those with another sequence of walls, other evaluations, another kept route, other limits.
    pairs: u64,
    with_walls: u64,
    resequenced: u64,
    unlike_evaluations: u64,
    rerouted: u64,
    limited: u64,
}

/// What tables were answered with.
#[derive(Debug, Default)]
struct Tables {
    /// By the kind of table: worlds, and refusals with 19 of prepare, begin, step and judge.
    kinds: BTreeMap<&'static str, (u64, [u64; TAKING.len()])>,
    /// What the four calls would have answered with the original's table, where they gave 19.
    behind: [[u64; 21]; TAKING.len()],
    /// The calls in another order that fits, on altered searches.
    fitting: Counts,
}

/// Runs until so many inputs are searched in another order each.
pub fn run(seed: u64, searches: u64, progress: &dyn Fn(&str)) -> Result<(), String> {
    as_original(seed, searches / 5)?;
    progress("the reading beside the original done");
    let mut generator = Generator::new(seed.rotate_left(11));
    let mut rng = Rng::new(seed.rotate_left(47));
    let mut reached = Reached::default();
    let mut number = 0;
    while reached.inputs < searches {
        number += 1;
        let larger = number % 10 == 0;
        let item = if larger { medium::item(&mut rng) } else { generator.item() };
        let before = reached.inputs;
        one(&item, &table(&mut rng), seed ^ (number << 20), &mut reached)?;
        reached.larger += if larger { reached.inputs - before } else { 0 };
        if number % 5_000 == 0 {
            progress(&format!("{} inputs searched in other orders", reached.inputs));
        }
    }
    told(&reached, searches)?;
    one_large(seed)?;
    progress("300 × 260, diagonals first, done");
    refused(seed, searches / 10)?;
    progress("tables refused");
    Ok(())
}

/// The steps at two places exchanged.
fn exchanged(table: &[i32; 16], a: usize, b: usize) -> [i32; 16] {
    let mut other = *table;
    other.swap(2 * a, 2 * b);
    other.swap(2 * a + 1, 2 * b + 1);
    other
}

/// The places of the k-th exchange.
fn places(k: usize) -> (usize, usize) {
    let all = (0..8).flat_map(|a| (0..a).map(move |b| (a, b)));
    all.into_iter().nth(k).expect("one of the exchanges")
}

/// Another order than the original's: diagonals first, two steps exchanged, from the last to the first, mostly any.
fn table(rng: &mut Rng) -> [i32; 16] {
    let mut table = ORIGINAL_STEPS;
    while table == ORIGINAL_STEPS {
        table = match rng.below(8) {
            0 => DIAGONALS_FIRST,
            1 => {
                let (a, b) = places(rng.below(EXCHANGES as u32) as usize);
                exchanged(&ORIGINAL_STEPS, a, b)
            }
            2 => (0..4).fold(ORIGINAL_STEPS, |table, a| exchanged(&table, a, 7 - a)),
            _ => (1..8).rev().fold(table, |table, last| exchanged(&table, last, rng.below(last as u32 + 1) as usize)),
        };
    }
    table
}

/// The reading in the original's order beside the original itself: what both hold after every portion, and their verdicts.
fn as_original(seed: u64, searches: u64) -> Result<(), String> {
    let mut generator = Generator::new(seed.rotate_left(5));
    let mut rng = Rng::new(seed.rotate_left(53));
    let (mut number, mut begun, mut evaluations, mut judged) = (0, 0, 0, 0);
    while begun < searches {
        number += 1;
        let item = if number % 10 == 0 { medium::item(&mut rng) } else { generator.item() };
        let prepared = || Baselines::prepare(&item.case).ok();
        let Some(baselines) = item.given.clone().or_else(prepared) else {
            continue;
        };
        let told = |what: &str| format!("DIFFERENCE the reading and the original differ in {what}\n{item:#?}");
        let original = Search::begin_on(&item.case, &baselines);
        let reading = Ordered::begin_on(&item.case, &baselines, &ORIGINAL_STEPS);
        let (Ok(mut original), Ok(mut reading)) = (original, reading) else {
            return Err(told("begin"));
        };
        for &portion in &item.portions {
            original.step(portion);
            reading.step(portion);
            if original.snapshot() != reading.snapshot() {
                return Err(told("a step"));
            }
        }
        let last = reading.snapshot();
        for set in &last.visited {
            let cover = judge::walls::search::probe::cover(original.original(), Mover::Block, set).expect("the blocked mover");
            if verdict::number(&item.case, original.original(), set, &cover) != reading.verdict(set) {
                return Err(told("a verdict"));
            }
            judged += 1;
        }
        begun += 1;
        evaluations += last.evaluations;
    }
    println!(
        "the reading of any order, in the original's beside the original: searches {begun}, evaluations {evaluations}, verdicts {judged}"
    );
    Ok(())
}

fn one(item: &Item, table: &[i32; 16], seed: u64, reached: &mut Reached) -> Result<(), String> {
    search(item, table, seed, reached).map_err(|difference| {
        let differs = |item: &Item| search(item, table, seed, &mut Reached::default()).err();
        let (item, difference) = shrink::shrink(item, difference, &differs);
        format!("DIFFERENCE {difference}\nsteps {table:?}, seed of the areas {seed}\n{item:#?}")
    })
}

/// A search in another order, and then in one more order and with other limits.
fn search(item: &Item, table: &[i32; 16], seed: u64, reached: &mut Reached) -> Result<(), Difference> {
    let mut rng = Rng::new(seed);
    let mut work = Work::clean(&Query::of(&item.case));
    let Some(mut inputs) = searches::inputs(item, table, &mut work, &mut rng, &mut reached.calls)? else {
        return Ok(());
    };
    if rng.chance(1, 4) {
        reached.over_counts += u64::from(count_up(&mut inputs, &mut rng));
    }
    let refused = |number: u32| format!("begin refuses a search of the list with {number}");
    let last = searches::search(item, &inputs, &mut work, &mut rng, &mut reached.calls)?.map_err(refused)?;
    reached.inputs += 1;
    shows(item, &inputs, table, &last, &mut rng, reached);

    let mut other = item.clone();
    let steps = if rng.chance(1, 3) { ORIGINAL_STEPS } else { self::table(&mut rng) };
    other.case.states = [item.case.states, 500][rng.below(2) as usize];
    other.case.results = [item.case.results, 32][rng.below(2) as usize];
    other.portions = vec![other.case.states, 1];
    let inputs = Inputs { steps: steps.to_vec(), states: other.case.states, results: other.case.results, ..inputs };
    let counts = if steps == ORIGINAL_STEPS { &mut reached.beside } else { &mut reached.calls };
    let second = searches::search(&other, &inputs, &mut work, &mut rng, counts)?.map_err(refused)?;
    if last.reason == Reason::Exhausted && second.reason == Reason::Exhausted && steps != *table {
        let limited = (item.case.states, item.case.results) != (other.case.states, other.case.results);
        reached.limited += u64::from(limited);
        reached.pair(&last, &second)?;
    }
    Ok(())
}

/// Any counts in place of the ones; whether there were any.
fn count_up(inputs: &mut Inputs, rng: &mut Rng) -> bool {
    let (width, height) = inputs.query.size();
    let mut above = false;
    for (_, counts) in inputs.grounds() {
        for count in counts[..width * height].iter_mut().filter(|count| **count == 1) {
            *count = rng.between(1, 255) as u8;
            above |= *count > 1;
        }
    }
    above
}

/// What the reading holds at last in an order of steps.
fn read(item: &Item, inputs: &Inputs, steps: &[i32]) -> Snapshot {
    let mut search = Ordered::on(&item.case, &inputs.baselines(), steps);
    item.portions.iter().for_each(|&portion| search.step(portion));
    search.snapshot()
}

fn routes(held: &Snapshot) -> BTreeMap<&[u32], &[(u32, u32)]> {
    held.layouts.iter().map(|layout| (&layout.members[..], &layout.route[..])).collect()
}

/// Whether a wall that both list has another kept route.
fn rerouted(one: &Snapshot, other: &Snapshot) -> bool {
    let others = routes(other);
    routes(one).iter().any(|(members, route)| others.get(members).is_some_and(|other| other != route))
}

/// Notes where the search would have held something else in the original's order, and where with two steps exchanged.
fn shows(item: &Item, inputs: &Inputs, table: &[i32; 16], last: &Snapshot, rng: &mut Rng, reached: &mut Reached) {
    let straight = read(item, inputs, &ORIGINAL_STEPS);
    reached.unlike += u64::from(straight != *last);
    reached.unlike_sets += u64::from((&straight.lists, &straight.visited) != (&last.lists, &last.visited));
    reached.unlike_routes += u64::from(rerouted(&straight, last));
    let k = rng.below(EXCHANGES as u32) as usize;
    let (a, b) = places(k);
    let altered = read(item, inputs, &exchanged(table, a, b));
    reached.exchanged[k] += u64::from(altered != *last);
}

impl Reached {
    /// Two searches in two orders, both Exhausted.
    fn pair(&mut self, one: &Snapshot, other: &Snapshot) -> Result<(), Difference> {
        let walls = |held: &Snapshot| -> Vec<Vec<u32>> { held.layouts.iter().map(|layout| layout.members.clone()).collect() };
        let (mut first, mut second) = (walls(one), walls(other));
        self.resequenced += u64::from(first != second);
        first.sort_unstable();
        second.sort_unstable();
        both::same("the walls of an Exhausted search in another order of steps", &first, &second)?;
        self.pairs += 1;
        self.with_walls += u64::from(!first.is_empty());
        self.unlike_evaluations += u64::from(one.evaluations != other.evaluations);
        self.rerouted += u64::from(rerouted(one, other));
        Ok(())
    }
}

fn short(of: &str, kinds: &[(&str, u64, u64)]) -> Result<(), String> {
    let short = |(what, found, least): &(&str, u64, u64)| format!("{of}: {what} {found}, held to {least}");
    let short: Vec<String> = kinds.iter().filter(|(_, found, least)| found < least).map(short).collect();
    if short.is_empty() { Ok(()) } else { Err(short.join("\n")) }
}

/// Prints what was reached, and what it falls short of.
fn told(reached: &Reached, searches: u64) -> Result<(), String> {
    let Reached { calls, inputs, larger, over_counts, unlike, unlike_sets, unlike_routes, pairs, with_walls, resequenced, .. } = reached;
    let Counts { begun, evaluations, listing, routes, points, .. } = calls;
    println!("in other orders of steps: searches begun {begun}, over {inputs} inputs");
    println!("  inputs of the larger kind {larger}, with counts above 1 {over_counts}");
    println!("  beside them, in the original's order: searches begun {}", reached.beside.begun);
    println!("  evaluations {evaluations}, searches that list a wall {listing}, kept routes {routes} of {points} points");
    let [running, exhausted, states, results] = calls.reasons;
    println!("  last reason: Running {running}, Exhausted {exhausted}, StateLimit {states}, ResultLimit {results}");
    println!("  searches with a touch by a side centre only {}", calls.side_touches);
    let answered = |call: usize| calls.answers[call][0];
    println!("  steps {}, readings {}, judgings {}", answered(STEP), answered(READ), answered(JUDGE));
    println!("  inputs whose search holds something else at last");
    println!("    read in the original's order {unlike}: other sets {unlike_sets}, another kept route {unlike_routes}");
    let exchanged = &reached.exchanged;
    let least = exchanged.iter().copied().min().unwrap_or(0);
    println!("    read with two steps exchanged {}: by the exchange {exchanged:?}", exchanged.iter().sum::<u64>());
    println!(
        "  pairs in two orders that both stop Exhausted: {pairs}, {} of them with other limits; the same walls in each",
        reached.limited
    );
    println!(
        "    with walls {with_walls}; another sequence {resequenced}, other evaluations {}, another kept route {}",
        reached.unlike_evaluations, reached.rerouted
    );
    let kinds = [
        ("inputs", *inputs, searches),
        ("inputs of the larger kind", *larger, searches / 20),
        ("searches that list a wall", *listing, searches / 5),
        ("kept routes", *routes, searches / 10),
        ("judgings", answered(JUDGE), searches),
        ("inputs whose search is another in the original's order", *unlike, searches / 10),
        ("inputs with another kept route in the original's order", *unlike_routes, searches / 50),
        ("inputs whose search is another by the exchange least seen", least, searches / 5_000),
        ("pairs that both stop Exhausted", *pairs, searches / 5),
        ("pairs with another sequence of walls", *resequenced, searches / 400),
        ("pairs with another kept route", reached.rerouted, searches / 200),
    ];
    short("in other orders of steps", &kinds)
}

/// A large search, diagonals first: centre numbers above 65,535.
fn one_large(seed: u64) -> Result<(), String> {
    let window = Rect::new(97, 55, 397, 315);
    let item = large::barrier((60, 50), window, seed);
    let told = |difference: String| format!("DIFFERENCE {difference}\n300 × 260, diagonals first\n{:?}", item.case);
    let held = |steps: &[i32]| searches::run(&item, steps, seed, &mut Counts::default()).map_err(told);
    let refused = "300 × 260, diagonals first: prepare refuses it";
    let (last, straight) = (held(&DIAGONALS_FIRST)?.ok_or(refused)?, held(&ORIGINAL_STEPS)?.ok_or(refused)?);
    let diagonals = |held: &Snapshot| {
        let pairs = held.layouts.iter().flat_map(|layout| layout.route.windows(2));
        pairs.filter(|pair| pair[0].0 != pair[1].0 && pair[0].1 != pair[1].1).count()
    };
    let width = window.width() as u32;
    let number = |&(x, y): &(u32, u32)| (y - window.top as u32) * width + x - window.left as u32;
    let highest = last.layouts.iter().flat_map(|layout| &layout.route).map(number).max();
    println!(
        "300 × 260, diagonals first: {:?} after {} evaluations, {} walls; diagonal steps of kept routes {}, in the original's order {}",
        last.reason,
        last.evaluations,
        last.layouts.len(),
        diagonals(&last),
        diagonals(&straight)
    );
    println!("  highest centre number on a kept route {}", highest.unwrap_or(0));
    if highest < Some(65_536) || !rerouted(&last, &straight) {
        return Err("300 × 260, diagonals first: no kept route above centre 65,535, or all as in the original's order".to_string());
    }
    Ok(())
}

/// A name and how such a table is made from one that fits.
type Kind = (&'static str, fn([i32; 16], &mut Rng) -> Vec<i32>);

const FITS: &str = "fits";

const KINDS: &[Kind] = &[
    (FITS, |table, _| table.to_vec()),
    ("none", |_, _| Vec::new()),
    ("one number", |table, _| table[..1].to_vec()),
    ("seven steps", |table, _| table[..14].to_vec()),
    ("15 numbers", |table, _| table[..15].to_vec()),
    ("17 numbers", |table, rng| [&table[..], &[pick(&[-1, 0, 1], rng)]].concat()),
    ("nine steps", |table, rng| {
        let again = 2 * rng.below(8) as usize;
        [&table[..], &table[again..again + 2]].concat()
    }),
    ("32 numbers", |table, _| [table, table].concat()),
    ("a step twice", |mut table, rng| {
        let (a, b) = places(rng.below(EXCHANGES as u32) as usize);
        table.copy_within(2 * a..2 * a + 2, 2 * b);
        table.to_vec()
    }),
    ("no step", |table, rng| put(table, [0, 0], rng)),
    ("two far", |table, rng| put(table, pick(&[[2, 0], [0, -2], [2, 2], [-2, 1]], rng), rng)),
    ("far off", |table, rng| put(table, [pick(FAR, rng), pick(&[-1, 0, 1, i32::MIN, i32::MAX], rng)], rng)),
    ("one number altered", |mut table, rng| {
        let number = &mut table[rng.below(16) as usize];
        *number = number.wrapping_add(pick(&[-1, 1, 256, 1 << 16, i32::MIN], rng));
        table.to_vec()
    }),
    ("shifted by one number", |mut table, _| {
        table.rotate_left(1);
        table.to_vec()
    }),
    ("x and y apart", |table, _| (0..8).map(|k| table[2 * k]).chain((0..8).map(|k| table[2 * k + 1])).collect()),
];

/// Numbers that a byte, 16 bits or a bit less would take for 1, 0 or −1, and the ends of 32 bits.
const FAR: &[i32] = &[255, 256, 257, 65_535, 65_536, 65_537, i32::MIN, i32::MIN + 1, i32::MAX, -255, -257, 1 << 31];

fn pick<T: Copy>(from: &[T], rng: &mut Rng) -> T {
    from[rng.below(from.len() as u32) as usize]
}

/// A step in place of one of the eight.
fn put(mut table: [i32; 16], step: [i32; 2], rng: &mut Rng) -> Vec<i32> {
    let at = 2 * rng.below(8) as usize;
    table[at..at + 2].copy_from_slice(&step);
    table.to_vec()
}

/// So many searches in some state, each with eight tables and none to two other faults: what `rules` says, and reading, cover and lift as
/// with the original's table.
fn refused(seed: u64, worlds: u64) -> Result<(), String> {
    let mut generator = Generator::new(seed.rotate_left(37));
    let mut rng = Rng::new(seed.rotate_left(59));
    let mut tables = Tables::default();
    let mut made = 0;
    while made < worlds {
        let Some(world) = World::draw(&mut generator, &mut rng) else {
            continue;
        };
        made += 1;
        for _ in 0..8 {
            let faulty = world.faulty(rng.below(3), &mut rng);
            let (name, make) = pick(KINDS, &mut rng);
            let steps = make(table(&mut rng), &mut rng);
            // Numbers moved about may be eight steps by chance.
            let name = if rules::table(&steps).is_ok() { FITS } else { name };
            tables.world(name, &faulty, &steps)?;
        }
    }
    tables.told(worlds)
}

impl Tables {
    fn world(&mut self, name: &'static str, world: &World, steps: &[i32]) -> Result<(), String> {
        let mut counts = Counts::default();
        let answers = world.in_order(steps).call(&mut counts)?;
        let straight = world.in_order(&ORIGINAL_STEPS).call(&mut Counts::default())?;
        let (worlds, refused) = self.kinds.entry(name).or_default();
        *worlds += 1;
        for (k, &call) in TAKING.iter().enumerate() {
            if answers[call] == 19 {
                refused[k] += 1;
                self.behind[k][straight[call] as usize] += 1;
            }
        }
        let without: Vec<usize> = (0..CALLS.len()).filter(|call| !TAKING.contains(call)).collect();
        for call in without {
            let what = format!("{}'s answer, which takes no table\nsteps {steps:?}\n{world:?}", CALLS[call]);
            both::same(&what, &straight[call], &answers[call]).map_err(|difference| format!("DIFFERENCE {difference}"))?;
        }
        if name == FITS {
            self.fitting.add_calls(&counts);
        }
        Ok(())
    }

    fn told(&self, worlds: u64) -> Result<(), String> {
        println!("tables of steps, and how many of them prepare, begin, step and judge refused with 19:");
        for (name, (worlds, refused)) in &self.kinds {
            println!("  {name}: {worlds}, {refused:?}");
        }
        println!("what these calls answer with the original's table, where they gave 19:");
        for (&call, behind) in TAKING.iter().zip(&self.behind) {
            println!("  {}", answered(CALLS[call], behind));
        }
        println!("altered searches in another order that fits:");
        for call in TAKING {
            println!("  {}", answered(CALLS[call], &self.fitting.answers[call]));
        }
        let least = worlds / 25;
        for (name, (worlds, refused)) in &self.kinds {
            let meant = if *name == FITS { 0 } else { *worlds };
            if refused.iter().any(|&found| found != meant) {
                return Err(format!("tables of steps: {name}: {worlds}, refused {refused:?}"));
            }
        }
        let kinds = KINDS.iter().map(|(name, _)| (*name, self.kinds.get(name).map_or(0, |(worlds, _)| *worlds), least));
        let behind = BEHIND.iter().zip(&self.behind).zip(TAKING).map(|((numbers, behind), call)| {
            let fewest = numbers.iter().map(|&number| behind[number]).min().unwrap_or(0);
            (CALLS[call], fewest, least / 10)
        });
        short("tables", &kinds.collect::<Vec<_>>())?;
        short("the answer that stands least often behind a 19", &behind.collect::<Vec<_>>())
    }
}

/// The answers that are to stand behind a 19, by call.
const BEHIND: [&[usize]; TAKING.len()] = [
    &[0, 1, 2, 3, 4, 5, 6, 7, 8, 9],
    &[0, 2, 3, 4, 6, 7, 8, 9, 10, 11, 12, 14, 15],
    &[0, 2, 3, 4, 6, 10, 11, 12, 14, 15, 16],
    &[0, 2, 3, 4, 6, 10, 14, 15, 17],
];

fn answered(call: &str, answers: &[u64; 21]) -> String {
    let mut text = format!("{call}: accepted {}", answers[0]);
    for (number, found) in answers.iter().enumerate().skip(1).filter(|(_, found)| **found > 0) {
        text += &format!(", {number}: {found}");
    }
    text
}
