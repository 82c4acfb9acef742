//! Shows that every comparison can fail: one value that a call of the port left is altered, and the run must find it.

use std::cell::Cell;

use judge::generate::Generator;
use judge::order::ORIGINAL_STEPS;

use crate::buildings;
use crate::counts::{BEGIN, CALLS, CLOSER, COVER, Counts, JUDGE, LIFT, PREPARE, RANK, READ, STEP, WITHOUT_WINDOW};
use crate::ranks;
use crate::refusals;
use crate::searches;
use crate::values::{Store, Word, Work};

/// A value of a call, of its refused answers or of its accepted ones. An answer of `closer` counts as refused where it is 1.
#[derive(Clone, Copy, PartialEq, Eq)]
struct Value {
    call: usize,
    refused: bool,
    what: &'static str,
}

thread_local! {
    static SPOILT: Cell<Option<Value>> = const { Cell::new(None) };
}

/// What is to be altered after one call, mostly nothing.
#[derive(Clone, Copy)]
pub struct Spoiler(Option<&'static str>);

impl Spoiler {
    pub fn after(call: usize, answer: u32) -> Self {
        Self(SPOILT.get().filter(|value| value.call == call && value.refused == (answer != 0)).map(|value| value.what))
    }

    pub fn number(self, what: &str, number: &mut u32) {
        if self.0 == Some(what) {
            *number = number.wrapping_add(1);
        }
    }

    pub fn wide(self, what: &str, number: &mut u64) {
        if self.0 == Some(what) {
            *number = number.wrapping_add(1);
        }
    }

    /// Alters an area's first entry, or its last, which stands past the length needed.
    pub fn area<T: Word>(self, first: &str, past: &str, area: &mut [T]) {
        let other = |entry: T| if entry == T::PAST { T::NONE } else { T::PAST };
        if let Some(entry) = area.first_mut().filter(|_| self.0 == Some(first)) {
            *entry = other(*entry);
        }
        if let Some(entry) = area.last_mut().filter(|_| self.0 == Some(past)) {
            *entry = other(*entry);
        }
    }

    pub fn work(self, work: &mut Work) {
        self.area("counts", "past the counts", &mut work.counts);
        self.area("map", "past the map", &mut work.map);
        self.area("queue", "past the queue", &mut work.queue);
        self.area("predecessors", "past the predecessors", &mut work.predecessors);
        self.area("route", "past the route", &mut work.route);
    }

    pub fn store(self, store: &mut Store) {
        self.area("record", "past the record", &mut store.record);
        self.area("lists", "past the lists", &mut store.lists);
        self.area("visited", "past the visited", &mut store.visited);
        self.area("layouts", "past the layouts", &mut store.layouts);
        self.area("points", "past the points", &mut store.points);
    }
}

const WORK: [&str; 10] = [
    "counts",
    "past the counts",
    "map",
    "past the map",
    "queue",
    "past the queue",
    "predecessors",
    "past the predecessors",
    "route",
    "past the route",
];
const STORE: [&str; 10] = [
    "record",
    "past the record",
    "lists",
    "past the lists",
    "visited",
    "past the visited",
    "layouts",
    "past the layouts",
    "points",
    "past the points",
];

/// Alters each value of each call in turn; the number of values, or the first that is not found.
pub fn run(seed: u64) -> Result<usize, String> {
    let mut values = Vec::new();
    let mut all = |call: usize, names: &[&'static str]| {
        values.extend(names.iter().flat_map(|&what| [false, true].map(|refused| Value { call, refused, what })));
    };
    all(PREPARE, &["answer", "baseline", "past the baseline"]);
    all(BEGIN, &["answer", "index"]);
    all(STEP, &["answer", "index"]);
    all(READ, &["answer", "index", "first", "count"]);
    all(JUDGE, &["answer", "index", "verdict", "ground"]);
    all(COVER, &["answer", "baseline", "past the baseline"]);
    all(LIFT, &["answer", "baseline", "past the baseline"]);
    all(RANK, &["answer", "quotient", "remainder", "divisor"]);
    all(CLOSER, &["answer"]);
    for call in [PREPARE, BEGIN, STEP, JUDGE] {
        all(call, &WORK);
    }
    for call in [BEGIN, STEP] {
        all(call, &STORE);
    }
    for &value in &values {
        SPOILT.set(Some(value));
        let found = found(seed, value);
        SPOILT.set(None);
        if !found {
            let name = CALLS.iter().chain(&WITHOUT_WINDOW).nth(value.call).expect("one of the calls");
            return Err(format!("{} of {name} altered, refused: {}, and nothing shows it", value.what, value.refused));
        }
    }
    Ok(values.len())
}

/// Whether one of the first searches differs, or one of the first altered ones, one of the first buildings or one of the first ranks.
fn found(seed: u64, value: Value) -> bool {
    if value.call == RANK || value.call == CLOSER {
        return ranks::calls(seed, 200).is_err();
    }
    let mut generator = Generator::new(seed);
    if value.refused {
        return refusals::run(seed, 100, &mut Counts::default(), &|_| ()).is_err();
    }
    if value.call == COVER || value.call == LIFT {
        return buildings::calls(seed, 200, &mut Counts::default()).is_err();
    }
    (0..200).any(|number| searches::run(&generator.item(), &ORIGINAL_STEPS, seed ^ number, &mut Counts::default()).is_err())
}

#[cfg(test)]
mod tests {
    use super::*;
    use crate::shrink::shrink;
    use judge::list::Item;

    /// A record that every step spoils differs in the smallest search too.
    #[test]
    fn a_difference_is_shrunk() {
        let mut generator = Generator::new(3);
        let item = std::iter::repeat_with(|| generator.item())
            .find(|item| {
                item.name == "barrier"
                    && item.case.placements.len() > 4
                    && item.portions.len() > 1
                    && judge::Search::begin(&item.case).is_ok()
            })
            .expect("an endless row");
        SPOILT.set(Some(Value { call: STEP, refused: false, what: "record" }));
        let difference = searches::run(&item, &ORIGINAL_STEPS, 1, &mut Counts::default()).expect_err("a spoilt record");
        let differs = |item: &Item| searches::run(item, &ORIGINAL_STEPS, 1, &mut Counts::default()).err();
        let (smallest, difference) = shrink(&item, difference, &differs);
        SPOILT.set(None);
        assert!(difference.contains("record[0]"), "{difference}");
        assert_eq!((smallest.case.placements.len(), smallest.portions.len()), (0, 1));
        assert!(searches::run(&smallest, &ORIGINAL_STEPS, 1, &mut Counts::default()).is_ok());
    }
}
