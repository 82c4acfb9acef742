//! The first list: the directed cases, then generated ones picked by fixed rules, and the answers.

use crate::case::{Case, Mover, Snapshot};
use crate::run::{Baselines, Search, prepare};
use crate::{directed, generate, text};

/// One search of the list.
#[derive(Debug, Clone, Eq, PartialEq)]
pub struct Item {
    pub name: &'static str,
    pub case: Case,
    /// Baselines by hand; prepare makes them where this is none.
    pub given: Option<Baselines>,
    /// What the search holds at first; begin says it where this is none.
    pub held: Option<Snapshot>,
    /// The steps, in order.
    pub portions: Vec<u32>,
}

/// What the original answers to an item.
#[derive(Debug)]
pub struct Answers {
    pub block: Result<Vec<bool>, u32>,
    pub allow: Option<Result<Vec<bool>, u32>>,
    /// The search after the last step, where both movers are prepared.
    pub search: Option<Search>,
    /// What the search held at first and after each portion.
    pub snapshots: Vec<Snapshot>,
}

/// Prepares both movers (or takes the given baselines), begins (or sets what is held) and steps by
/// each portion.
pub fn answer(item: &Item) -> Answers {
    let (block, allow) = match &item.given {
        Some(given) => (Ok(given.block.clone()), given.allow.clone().map(Ok)),
        None => (
            prepare(&item.case, Mover::Block),
            item.case.allow.map(|_| prepare(&item.case, Mover::Allow)),
        ),
    };
    let mut answers = Answers {
        block,
        allow,
        search: None,
        snapshots: Vec::new(),
    };
    let (Ok(block), Ok(allow)) = (answers.block.clone(), answers.allow.clone().transpose()) else {
        return answers;
    };
    let baselines = Baselines { block, allow };
    let mut search = match &item.held {
        None => Search::begin_on(&item.case, &baselines),
        Some(held) => Search::set_on(&item.case, &baselines, held),
    }
    .unwrap_or_else(|number| panic!("{} is refused with {number}", item.name));
    answers.snapshots.push(search.snapshot());
    for &portion in &item.portions {
        search.step(portion);
        answers.snapshots.push(search.snapshot());
    }
    answers.search = Some(search);
    answers
}

pub const SEED: u64 = 7_132;
const SEARCHES: usize = 420;
const REFUSED: usize = 12;
const SHORT: usize = 20;
const LONGEST_TEXT: usize = 9_000;

/// The list: every directed item, then generated ones until `SEARCHES` stand in it. At most
/// `REFUSED` generated ones are refused by prepare, at most `SHORT` stop after one or two
/// evaluations, and one whose text is longer than `LONGEST_TEXT` is left out.
pub fn first() -> Vec<(Item, Answers)> {
    let mut list: Vec<(Item, Answers)> = directed::items()
        .into_iter()
        .map(|item| {
            let answers = answer(&item);
            (item, answers)
        })
        .collect();
    let mut generator = generate::Generator::new(SEED);
    let (mut refused, mut short) = (0, 0);
    while list.len() < SEARCHES {
        let item = generator.item();
        let answers = answer(&item);
        let room = match answers.snapshots.last() {
            None => room(&mut refused, REFUSED),
            Some(_) if text::item(0, &item, &answers).len() > LONGEST_TEXT => false,
            Some(last) if last.evaluations <= 2 => room(&mut short, SHORT),
            Some(_) => true,
        };
        if room {
            list.push((item, answers));
        }
    }
    list
}

fn room(count: &mut usize, most: usize) -> bool {
    *count += 1;
    *count <= most
}
