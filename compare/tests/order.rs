//! The search of `order`: in the original's order beside the original itself, in other orders by hand, and that each exchange of two
//! steps shows.

use judge::generate::{Generator, Rng};
use judge::list::Item;
use judge::order::{DIAGONALS_FIRST, ORIGINAL_STEPS, Ordered};
use judge::walls::search::probe;
use judge::{
    Baselines, Bounds, Case, Mover, Placement, Reason, Rect, Search, Snapshot, compiled, directed,
    verdict,
};

fn accepted(seed: u64, count: usize) -> Vec<(Item, Baselines)> {
    let mut generator = Generator::new(seed);
    let mut items = Vec::new();
    while items.len() < count {
        let item = generator.item();
        let prepared = || Baselines::prepare(&item.case).ok();
        if let Some(baselines) = item.given.clone().or_else(prepared) {
            items.push((item, baselines));
        }
    }
    items
}

/// What the search holds at first and after each portion.
fn snapshots(item: &Item, baselines: &Baselines, table: &[i32]) -> Vec<Snapshot> {
    let mut search = match &item.held {
        None => Ordered::begin_on(&item.case, baselines, table),
        Some(held) => Ordered::set_on(&item.case, baselines, table, held),
    }
    .expect("an accepted search");
    let mut row = vec![search.snapshot()];
    for &portion in &item.portions {
        search.step(portion);
        row.push(search.snapshot());
    }
    row
}

/// The numbers of a text that stand between these two.
fn numbers_between(text: &str, before: &str, after: &str) -> Vec<i32> {
    let (_, rest) = text.split_once(before).expect("what stands before");
    let (part, _) = rest.split_once(after).expect("what stands after");
    part.split(|c: char| c != '-' && !c.is_ascii_digit())
        .filter(|word| !word.is_empty())
        .map(|word| word.parse().expect("a number"))
        .collect()
}

/// The table is the one in the original's text.
#[test]
fn the_original_has_these_steps() {
    let original = "const STEPS: [(isize, isize); 8] = [";
    assert_eq!(
        numbers_between(compiled::WALLS, original, "];"),
        ORIGINAL_STEPS
    );
}

/// It is the one that the C header and the Rust crate give under its name.
#[test]
fn the_bindings_have_these_steps() {
    let header = include_str!("../../bindings/walls.h");
    let values = include_str!("../../bindings/rust/src/values.rs");
    let defined = "#define HITROVZEN_ORIGINAL_STEPS {";
    assert_eq!(numbers_between(header, defined, "}"), ORIGINAL_STEPS);
    let constant = "pub const ORIGINAL_STEPS: [(i32, i32); 8] = [";
    assert_eq!(numbers_between(values, constant, "];"), ORIGINAL_STEPS);
}

#[test]
fn in_its_own_order_the_original_holds_the_same() {
    let made = |item: Item| {
        let prepared = || Baselines::prepare(&item.case).ok();
        let baselines = item.given.clone().or_else(prepared)?;
        Some((item, baselines))
    };
    let directed = directed::items().into_iter().filter_map(made);
    let (mut evaluations, mut judged) = (0, 0);
    for (item, baselines) in accepted(3, 4_000).into_iter().chain(directed) {
        let answers = judge::list::answer(&item);
        let row = snapshots(&item, &baselines, &ORIGINAL_STEPS);
        assert_eq!(row, answers.snapshots, "{}", item.name);
        let last = row.last().expect("what begin leaves");
        evaluations += last.evaluations;
        let original = answers.search.expect("an accepted search");
        let read = Ordered::set_on(&item.case, &baselines, &ORIGINAL_STEPS, last).expect("held");
        for set in &last.visited {
            let cover = probe::cover(original.original(), Mover::Block, set).expect("a mover");
            let number = verdict::number(&item.case, original.original(), set, &cover);
            assert_eq!(read.verdict(set), number, "{} {set:?}", item.name);
            judged += 1;
        }
    }
    assert!(evaluations > 20_000, "{evaluations} evaluations");
    assert!(judged > 20_000, "{judged} judgings");
}

/// Open ground with its corner at pixel 3 2, and some places of one centre.
fn open(size: (i32, i32), ends: [(u32, u32); 2], places: &[(i32, i32)]) -> (Case, Baselines) {
    let point = |(x, y): (u32, u32)| (x + 3, y + 2);
    let place = |&(x, y): &(i32, i32)| Placement::plain(Rect::new(x + 3, y + 2, x + 4, y + 3));
    let case = Case {
        window: Rect::new(3, 2, size.0 + 3, size.1 + 2),
        start: point(ends[0]),
        end: point(ends[1]),
        block: Bounds::new(0, 0, 0, 0),
        allow: None,
        states: 100,
        results: 32,
        groups: vec![6],
        placements: places.iter().map(place).collect(),
        ..directed::p()
    };
    let block = vec![false; case.centres()];
    (case, Baselines { block, allow: None })
}

fn route(size: (i32, i32), ends: [(u32, u32); 2], table: &[i32]) -> Vec<(u32, u32)> {
    let (case, baselines) = open(size, ends, &[]);
    let search = Ordered::begin_on(&case, &baselines, table).expect("open ground");
    let route = search.route_past(Mover::Block, &[]).expect("open ground");
    route.iter().map(|&(x, y)| (x - 3, y - 2)).collect()
}

/// Of the shortest ways the first in the table's order is taken.
#[test]
fn the_first_in_the_tables_order() {
    let ends = [(0, 1), (2, 1)];
    assert_eq!(
        route((5, 3), ends, &ORIGINAL_STEPS),
        [(0, 1), (1, 1), (2, 1)]
    );
    assert_eq!(
        route((5, 3), ends, &DIAGONALS_FIRST),
        [(0, 1), (1, 2), (2, 1)]
    );
    let mut upwards = DIAGONALS_FIRST;
    upwards.rotate_left(6);
    assert_eq!(route((5, 3), ends, &upwards), [(0, 1), (1, 0), (2, 1)]);
    let down = [(1, 0), (1, 2)];
    assert_eq!(
        route((3, 3), down, &ORIGINAL_STEPS),
        [(1, 0), (1, 1), (1, 2)]
    );
    assert_eq!(
        route((3, 3), down, &DIAGONALS_FIRST),
        [(1, 0), (2, 1), (1, 2)]
    );
    let far = [(0, 0), (3, 1)];
    assert_eq!(
        route((4, 2), far, &ORIGINAL_STEPS),
        [(0, 0), (1, 0), (2, 0), (3, 1)]
    );
    assert_eq!(
        route((4, 2), far, &DIAGONALS_FIRST),
        [(0, 0), (1, 1), (2, 0), (3, 1)]
    );
}

/// Three places across the way of three by three centres. Straight on, the first route meets the middle one alone; diagonals first, it
/// leaves the upper one alone, and touches the lower one and, by a side centre, the middle one. Both find the one wall.
#[test]
fn the_lists_follow_the_order_and_the_walls_do_not() {
    let (case, baselines) = open((3, 3), [(0, 1), (2, 1)], &[(1, 0), (1, 1), (1, 2)]);
    let item = Item {
        name: "column",
        case,
        given: None,
        held: None,
        portions: vec![1, 100],
    };
    let straight = snapshots(&item, &baselines, &ORIGINAL_STEPS);
    let diagonal = snapshots(&item, &baselines, &DIAGONALS_FIRST);
    assert_eq!(straight[1].lists[0].entries, [1]);
    assert_eq!(diagonal[1].lists[0].entries, [1, 2]);
    for row in [&straight, &diagonal] {
        assert_eq!(row[2].reason, Reason::Exhausted);
        assert_eq!(row[2].layouts.len(), 1);
        assert_eq!(row[2].layouts[0].members, [0, 1, 2]);
    }
    assert_ne!(straight[2].visited, diagonal[2].visited);
}

/// Each of the 28 exchanges of two steps changes what some searches hold at last, and the original's search is another than that of an
/// altered table.
#[test]
fn each_exchange_of_two_steps_shows() {
    let items = accepted(5, 1_500);
    let last = |item: &Item, baselines: &Baselines, table: &[i32]| {
        snapshots(item, baselines, table).pop().expect("a portion")
    };
    let straight: Vec<Snapshot> = items
        .iter()
        .map(|(item, baselines)| last(item, baselines, &ORIGINAL_STEPS))
        .collect();
    for a in 0..8 {
        for b in 0..a {
            let mut table = ORIGINAL_STEPS;
            table.swap(2 * a, 2 * b);
            table.swap(2 * a + 1, 2 * b + 1);
            let differs = |((item, baselines), held): &(&(Item, Baselines), &Snapshot)| {
                last(item, baselines, &table) != **held
            };
            let found = items.iter().zip(&straight).filter(differs).count();
            assert!(found > 0, "steps {a} and {b} exchanged");
        }
    }
}

/// Two searches that both stop Exhausted list the same walls.
#[test]
fn two_exhausted_searches_list_the_same_walls() {
    let mut rng = Rng::new(8);
    let (mut pairs, mut resequenced) = (0, 0);
    for (item, baselines) in accepted(9, 2_000) {
        let whole = Item {
            case: Case {
                states: 500,
                results: 32,
                ..item.case.clone()
            },
            portions: vec![501],
            ..item
        };
        let walls = |held: &Snapshot| -> Vec<Vec<u32>> {
            held.layouts
                .iter()
                .map(|kept| kept.members.clone())
                .collect()
        };
        let mut table = ORIGINAL_STEPS;
        for last in (1..8).rev() {
            let other = rng.below(last as u32 + 1) as usize;
            table.swap(2 * last, 2 * other);
            table.swap(2 * last + 1, 2 * other + 1);
        }
        let one = snapshots(&whole, &baselines, &ORIGINAL_STEPS).pop();
        let other = snapshots(&whole, &baselines, &table).pop();
        let (one, other) = (one.expect("a portion"), other.expect("a portion"));
        if one.reason != Reason::Exhausted || other.reason != Reason::Exhausted {
            continue;
        }
        let (mut first, mut second) = (walls(&one), walls(&other));
        resequenced += u32::from(first != second);
        first.sort_unstable();
        second.sort_unstable();
        assert_eq!(first, second, "{}", whole.name);
        pairs += 1;
    }
    assert!(pairs > 400, "{pairs} pairs");
    assert!(resequenced > 20, "{resequenced} in another sequence");
}

/// 7, 8 and 9 are the original's in every order.
#[test]
fn begin_refuses_alike() {
    let mut generator = Generator::new(12);
    let mut refused = [0; 3];
    for _ in 0..3_000 {
        let item = generator.item();
        let Ok(terrain) = Baselines::prepare(&item.case) else {
            continue;
        };
        let shut = Baselines {
            block: terrain
                .block
                .iter()
                .enumerate()
                .map(|(k, &off)| off || k % 3 == 0)
                .collect(),
            ..terrain
        };
        let original = Search::begin_on(&item.case, &shut).err();
        for table in [ORIGINAL_STEPS, DIAGONALS_FIRST] {
            let read = Ordered::begin_on(&item.case, &shut, &table).err();
            assert_eq!(read, original, "{}", item.name);
        }
        if let Some(number @ 7..=9) = original {
            refused[number as usize - 7] += 1;
        }
    }
    assert!(refused.iter().all(|&found| found >= 20), "{refused:?}");
}
