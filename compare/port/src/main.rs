//! Drives the original wall search and its port from the same values and compares everything after every call.
//!
//! `compare [seed] [searches]`: counts go to standard output, progress to standard error. On a difference the smallest
//! input found is printed and the exit code is 1; so it is where a count falls short of what it is held to.

mod both;
mod buildings;
mod closer;
mod counted;
mod counts;
mod covers;
mod distances;
mod entrances;
mod large;
mod medium;
mod million;
mod orders;
mod port;
mod ranks;
mod refusals;
mod rules;
mod searches;
mod shrink;
mod spoil;
mod terrain;
mod values;

use std::process::ExitCode;
use std::time::Instant;

use judge::generate::{Generator, Rng};
use judge::order::ORIGINAL_STEPS;
use judge::{directed, list, verdict};

use counts::Counts;
use values::{Inputs, Work};

const SEED: u64 = 9;
const SEARCHES: u64 = 200_000;

fn main() -> ExitCode {
    let mut given = std::env::args().skip(1).map(|text| text.parse::<u64>().expect("a number"));
    let seed = given.next().unwrap_or(SEED);
    let searches = given.next().unwrap_or(SEARCHES);
    println!("seed {seed}, searches {searches}");
    match run(seed, searches) {
        Ok(()) => {
            println!("no difference");
            ExitCode::SUCCESS
        }
        Err(text) => {
            println!("{text}");
            ExitCode::FAILURE
        }
    }
}

fn run(seed: u64, searches: u64) -> Result<(), String> {
    let started = Instant::now();
    let progress = |what: &str| eprintln!("{:6.1} s {what}", started.elapsed().as_secs_f64());
    let mut counts = Counts::default();
    for item in directed::items() {
        one(&item, seed, &mut counts)?;
    }
    judged()?;
    println!("directed searches: {}", directed::items().len());
    progress("directed searches done");
    println!("values that a call leaves, altered one at a time and found: {}", spoil::run(seed)?);
    progress("altered values done");
    small(seed, searches, &mut counts, &progress)?;
    refusals::run(seed, searches / 10, &mut counts, &progress)?;
    terrain::run(seed, searches / 2, &mut counts)?;
    progress("random terrain done");
    counted::run(seed, searches / 8, &mut counts, &progress)?;
    buildings::run(seed, searches, &mut counts)?;
    progress("buildings covered and lifted");
    ranks::run(seed, 6 * searches)?;
    progress("footprints ranked");
    large::run(seed, &mut counts, &progress)?;
    million::run(&mut counts)?;
    progress("1,000,000 points done");
    orders::run(seed, searches / 8, &progress)?;
    print!("{counts}");
    let short = counts.short_of(searches);
    if short.is_empty() { Ok(()) } else { Err(short.join("\n")) }
}

fn one(item: &list::Item, seed: u64, counts: &mut Counts) -> Result<(), String> {
    searches::run(item, &ORIGINAL_STEPS, seed, counts).map(drop).map_err(|difference| {
        let differs = |item: &list::Item| searches::run(item, &ORIGINAL_STEPS, seed, &mut Counts::default()).err();
        let (item, difference) = shrink::shrink(item, difference, &differs);
        format!("DIFFERENCE {difference}\nseed of the areas {seed}\n{item:#?}")
    })
}

/// Random searches until so many are begun, and one of the larger kind after every nine.
fn small(seed: u64, searches: u64, counts: &mut Counts, progress: &dyn Fn(&str)) -> Result<(), String> {
    let mut generator = Generator::new(seed);
    let mut rng = Rng::new(seed.rotate_left(40));
    let before = counts.begun;
    let (mut begun, mut evaluations, mut listing) = (0, 0, 0);
    let mut number = 0;
    while counts.begun - before - begun < searches {
        number += 1;
        let larger = number % 10 == 0;
        let item = if larger { medium::item(&mut rng) } else { generator.item() };
        let reached = (counts.begun, counts.evaluations, counts.listing);
        one(&item, seed ^ (number << 20), counts)?;
        if larger {
            begun += counts.begun - reached.0;
            evaluations += counts.evaluations - reached.1;
            listing += counts.listing - reached.2;
        }
        if number % 20_000 == 0 {
            progress(&format!("{} searches", counts.begun));
        }
    }
    println!("of the larger kind: searches begun {begun}, evaluations {evaluations}, searches that list a wall {listing}");
    Ok(())
}

/// The judged selections of input P (docs/RULES.md, 9.8).
fn judged() -> Result<(), String> {
    let case = directed::p();
    let inputs = Inputs::of(&case, &vec![false; case.centres()], None, &ORIGINAL_STEPS);
    let mut work = Work::clean(&inputs.query);
    for (selection, name, ground) in [(&[][..], "Open", 15), (&[0], "Wall", 6), (&[0, 1], "Overlap", 6)] {
        both::judge(&inputs, selection, &mut work, None)?.map_err(|number| format!("{selection:?} of P is refused with {number}"))?;
        let found = port::judge(&inputs, selection, &mut work);
        if (verdict::NAMES[found.verdict as usize - 1], found.ground) != (name, ground) {
            return Err(format!("DIFFERENCE {selection:?} of P is {found:?}"));
        }
    }
    Ok(())
}
