//! The marked answers for input P and its variants (docs/RULES.md, 9.8).

use judge::Reason::{self, Exhausted, ResultLimit, Running, StateLimit};
use judge::directed::{corners, marked, p};
use judge::ground::reached;
use judge::list::answer;
use judge::walls::search::probe;
use judge::{Case, Mover, Search, Snapshot};

fn last_of(name: &str) -> Vec<Snapshot> {
    let item = marked()
        .into_iter()
        .find(|item| item.name == name)
        .expect("a marked case");
    answer(&item).snapshots.split_off(1)
}

fn is(held: &Snapshot, reason: Reason, evaluations: u32, layouts: &[&[u32]]) {
    assert_eq!((held.reason, held.evaluations), (reason, evaluations));
    let members: Vec<&[u32]> = held.layouts.iter().map(|kept| &kept.members[..]).collect();
    assert_eq!(members, layouts);
}

#[test]
fn p_and_its_variants() {
    let both: [&[u32]; 2] = [&[0], &[1, 2]];
    let one: [&[u32]; 1] = [&[0]];
    is(&last_of("p")[0], Exhausted, 4, &both);
    assert_eq!(last_of("p")[0].placements, 3);
    is(&last_of("p-4-then-1")[0], Running, 4, &both);
    is(&last_of("p-4-then-1")[1], Exhausted, 4, &both);
    is(&last_of("p-states-4")[0], StateLimit, 4, &both);
    is(&last_of("p-states-3")[0], StateLimit, 3, &one);
    is(&last_of("p-results-1")[0], ResultLimit, 2, &one);
    is(&last_of("p-results-2")[0], ResultLimit, 4, &both);
    is(&last_of("p-slots-1")[0], Exhausted, 3, &one);
    is(&last_of("p-allow")[0], Exhausted, 4, &[]);
    is(&last_of("p-no-places")[0], Exhausted, 1, &[]);
    is(&last_of("p-same-ends")[0], Exhausted, 1, &[]);
    is(&last_of("corners-4-then-1")[0], Running, 4, &[&[0, 1]]);
    is(&last_of("corners-4-then-1")[1], Exhausted, 4, &[&[0, 1]]);
    assert!(
        last_of("p")[0]
            .layouts
            .iter()
            .all(|kept| kept.route.is_empty())
    );
}

/// The original judges no selections; the parts of which a verdict is made are at hand, and the ground
/// is flooded.
#[test]
fn selections_of_p() {
    let search = Search::begin(&p()).expect("P");
    let original = search.original();
    let ground = |set: &[u32]| {
        let cover = probe::cover(original, Mover::Block, set).expect("blocked mover");
        reached(&cover, p().window, p().start)
    };
    assert!(probe::route_past(original, Mover::Block, &[]).is_some());
    assert_eq!(ground(&[]), 15);
    assert!(probe::route_past(original, Mover::Block, &[0]).is_none());
    assert!(probe::is_minimal(original, &[0]));
    assert_eq!(ground(&[0]), 6);
    assert!(probe::overlap(original, 0, 1));
    assert_eq!(ground(&[0, 1]), 6);
}

#[test]
fn a_search_from_end_to_start_lists_the_same() {
    for case in [p(), corners()] {
        let listed = |case: &Case| {
            let mut search = Search::begin(case).expect("accepted");
            search.step(case.states);
            let held = search.snapshot();
            assert_eq!(held.reason, Exhausted);
            let mut sets: Vec<Vec<u32>> =
                held.layouts.into_iter().map(|kept| kept.members).collect();
            sets.sort();
            sets
        };
        let back = Case {
            start: case.end,
            end: case.start,
            ..case.clone()
        };
        assert_eq!(listed(&case), listed(&back));
    }
}
