//! Cases made by hand: input P with its marked variants, corners of what is accepted, and
//! searches that are set to hold what no begin leaves.

use crate::case::{Bounds, Case, Layout, List, Placement, Reason, Rect, Snapshot};
use crate::list::Item;
use crate::run::Baselines;

const POINT: Bounds = Bounds::new(0, 0, 0, 0);

/// Input P (docs/RULES.md, 9.7).
pub fn p() -> Case {
    Case {
        map: (1, 1),
        cells: vec![1],
        obstacles: Vec::new(),
        window: Rect::new(0, 0, 5, 3),
        start: (0, 1),
        end: (4, 1),
        block: POINT,
        allow: None,
        states: 100,
        results: 32,
        groups: vec![2],
        placements: [
            Rect::new(2, 0, 3, 3),
            Rect::new(2, 0, 3, 2),
            Rect::new(2, 2, 3, 3),
        ]
        .map(Placement::plain)
        .to_vec(),
    }
}

/// The window of two by two with places on two corners and the ends on the others.
pub fn corners() -> Case {
    Case {
        window: Rect::new(0, 0, 2, 2),
        start: (0, 0),
        end: (1, 1),
        placements: [Rect::new(1, 0, 2, 1), Rect::new(0, 1, 1, 2)]
            .map(Placement::plain)
            .to_vec(),
        ..p()
    }
}

fn begun(name: &'static str, case: Case, portions: &[u32]) -> Item {
    Item {
        name,
        case,
        given: None,
        held: None,
        portions: portions.to_vec(),
    }
}

fn set(name: &'static str, case: Case, held: Snapshot, portions: &[u32]) -> Item {
    Item {
        name,
        case,
        given: None,
        held: Some(held),
        portions: portions.to_vec(),
    }
}

pub fn items() -> Vec<Item> {
    let mut items = marked();
    items.extend(corner_cases());
    items.extend(refusals());
    items.extend(held());
    items.extend(closed());
    items
}

/// P and its marked variants (docs/RULES.md, 9.8).
pub fn marked() -> Vec<Item> {
    let empty = Case {
        groups: Vec::new(),
        placements: Vec::new(),
        ..p()
    };
    vec![
        begun("p", p(), &[100]),
        begun("p-4-then-1", p(), &[4, 1]),
        begun("p-states-4", Case { states: 4, ..p() }, &[4]),
        begun("p-states-3", Case { states: 3, ..p() }, &[3]),
        begun("p-results-1", Case { results: 1, ..p() }, &[100]),
        begun("p-results-2", Case { results: 2, ..p() }, &[100]),
        begun(
            "p-slots-1",
            Case {
                groups: vec![1],
                ..p()
            },
            &[100],
        ),
        begun(
            "p-allow",
            Case {
                allow: Some(POINT),
                ..p()
            },
            &[100],
        ),
        begun("p-no-places", empty, &[100]),
        begun("p-same-ends", Case { end: (0, 1), ..p() }, &[100]),
        begun("corners-4-then-1", corners(), &[4, 1]),
    ]
}

/// P moved by ten right and nine down, on a map with room around it.
fn moved() -> Case {
    let by = |rect: Rect| {
        Rect::new(
            rect.left + 10,
            rect.top + 9,
            rect.right + 10,
            rect.bottom + 9,
        )
    };
    Case {
        map: (4, 3),
        cells: vec![1; 12],
        window: by(p().window),
        start: (10, 10),
        end: (14, 10),
        placements: p()
            .placements
            .iter()
            .map(|place| Placement::plain(by(place.footprint)))
            .collect(),
        ..p()
    }
}

/// Rows of one centre each that close a window of three columns together.
fn rows(count: i32, results: u32) -> Case {
    Case {
        window: Rect::new(0, 0, 3, count),
        start: (0, 0),
        end: (2, 0),
        results,
        groups: vec![count as u32],
        placements: (0..count)
            .map(|y| Placement::plain(Rect::new(1, y, 2, y + 1)))
            .collect(),
        ..p()
    }
}

/// A gap of one row between two places, which a mover one row taller cannot pass.
fn gap() -> Case {
    Case {
        block: Bounds::new(0, 1, 0, 0),
        allow: Some(POINT),
        window: Rect::new(8, 8, 13, 13),
        start: (8, 10),
        end: (12, 11),
        groups: vec![2, 1],
        placements: vec![
            Placement {
                spec: 5,
                group: 0,
                tile: (u32::MAX, 7),
                footprint: Rect::new(10, 8, 11, 10),
                collision: Rect::new(10, 8, 11, 10),
            },
            Placement {
                spec: 2,
                group: 1,
                tile: (3, u32::MAX),
                footprint: Rect::new(10, 10, 11, 13),
                collision: Rect::new(10, 11, 11, 13),
            },
        ],
        ..moved()
    }
}

fn corner_cases() -> Vec<Item> {
    let edge = Rect::new(i32::MIN, i32::MIN, 0, i32::MAX);
    let everywhere = Rect::new(i32::MIN, i32::MIN, i32::MAX, i32::MAX);
    let over = |footprint, collision| Placement {
        collision,
        ..Placement::plain(footprint)
    };
    let mut twins = p();
    twins.placements.insert(1, twins.placements[0]);
    let mut covering = p();
    covering
        .placements
        .push(Placement::plain(Rect::new(0, 1, 2, 2)));
    covering
        .placements
        .push(over(Rect::new(0, 0, 1, 1), Rect::new(2, 1, 5, 2)));
    let mut extreme = Case {
        obstacles: vec![edge],
        block: Bounds::new(1, 0, 0, 0),
        ..moved()
    };
    extreme
        .obstacles
        .push(Rect::new(15, i32::MIN, i32::MAX, i32::MAX));
    extreme
        .placements
        .push(over(Rect::new(10, 9, 11, 10), everywhere));
    extreme.placements.push(over(
        Rect::new(11, 9, 12, 10),
        Rect::new(i32::MIN, 9, i32::MAX, 10),
    ));
    extreme.placements.push(over(
        Rect::new(12, 9, 13, 10),
        Rect::new(12, i32::MIN, 13, i32::MAX),
    ));
    let wide = Case {
        map: (64, 1),
        cells: vec![1; 64],
        window: Rect::new(254, 0, 259, 3),
        start: (256, 1),
        end: (258, 1),
        block: Bounds::new(256, 0, 253, 0),
        groups: vec![1],
        placements: vec![
            over(Rect::new(254, 0, 255, 1), Rect::new(0, 0, 1, 8)),
            over(Rect::new(254, 1, 255, 2), Rect::new(0, 0, 2, 8)),
            over(Rect::new(254, 2, 255, 3), Rect::new(511, 0, 512, 8)),
        ],
        ..p()
    };
    vec![
        begun("p-ones", p(), &[1, 1, 1, 1, 1, 1]),
        begun("p-noughts", p(), &[0, 2, 0, 100, 0, 7]),
        begun("p-largest-step", p(), &[u32::MAX]),
        begun("p-states-1", Case { states: 1, ..p() }, &[1]),
        begun(
            "p-results-2-states-4",
            Case {
                results: 2,
                states: 4,
                ..p()
            },
            &[9],
        ),
        begun(
            "no-places-states-1",
            Case {
                states: 1,
                groups: Vec::new(),
                placements: Vec::new(),
                ..p()
            },
            &[9],
        ),
        begun(
            "p-exchanged-ends",
            Case {
                start: (4, 1),
                end: (0, 1),
                ..p()
            },
            &[100],
        ),
        begun("p-moved", moved(), &[3, 100]),
        begun("p-twins", twins, &[2, 2, 100]),
        begun("p-covered-ends", covering, &[1, 100]),
        begun("edges-of-32-bits", extreme, &[1, 100]),
        begun("bounds-of-256", wide, &[2, 100]),
        begun(
            "one-centre",
            Case {
                window: Rect::new(3, 4, 4, 5),
                start: (3, 4),
                end: (3, 4),
                placements: vec![Placement::plain(Rect::new(3, 4, 4, 5))],
                ..p()
            },
            &[1, 1],
        ),
        begun("five-rows", rows(5, 32), &[7, 100]),
        begun("six-rows", rows(6, 32), &[10, 100]),
        begun("six-rows-results-1", rows(6, 1), &[100]),
        begun(
            "six-rows-slots-5",
            Case {
                groups: vec![5],
                ..rows(6, 32)
            },
            &[100],
        ),
        begun("kept-route", gap(), &[1, 100]),
        begun(
            "kept-route-results-1",
            Case {
                results: 1,
                ..gap()
            },
            &[100],
        ),
    ]
}

/// Prepare's 7, 8 and 9, for the blocked mover and for the allowed one alone.
fn refusals() -> Vec<Item> {
    let by = |obstacle| Case {
        obstacles: vec![obstacle],
        ..p()
    };
    let allowing = |case: Case, allow| Case {
        allow: Some(allow),
        ..case
    };
    vec![
        begun(
            "refused-7",
            Case {
                cells: vec![0],
                ..p()
            },
            &[],
        ),
        begun("refused-8", by(Rect::new(4, 1, 5, 2)), &[]),
        begun("refused-9", by(Rect::new(2, 0, 3, 3)), &[]),
        begun(
            "refused-allow-7",
            allowing(p(), Bounds::new(1, 0, 0, 0)),
            &[],
        ),
        begun(
            "refused-allow-8",
            allowing(p(), Bounds::new(0, 0, 4, 0)),
            &[],
        ),
        begun(
            "refused-allow-9",
            allowing(by(Rect::new(2, 0, 3, 2)), Bounds::new(0, 1, 0, 0)),
            &[],
        ),
    ]
}

/// Records that step accepts and that no begin leads to, or not at that point.
fn held() -> Vec<Item> {
    let at =
        |reason, visited: &[&[u32]], lists: &[(&[u32], u32)], pending: Option<&[u32]>| Snapshot {
            reason,
            evaluations: visited.len() as u32,
            placements: 3,
            layouts: Vec::new(),
            lists: lists
                .iter()
                .map(|&(entries, next)| List {
                    entries: entries.to_vec(),
                    next,
                })
                .collect(),
            pending: pending.map(<[u32]>::to_vec),
            visited: visited.iter().map(|set| set.to_vec()).collect(),
        };
    let running = |visited: &[&[u32]], lists: &[(&[u32], u32)], pending: Option<&[u32]>| {
        at(Reason::Running, visited, lists, pending)
    };
    let kept = |members: &[u32], route: &[(u32, u32)]| Layout {
        members: members.to_vec(),
        route: route.to_vec(),
    };
    let one_state = Case { states: 1, ..p() };
    let mut listed = running(&[&[]], &[(&[0, 1, 2], 1)], Some(&[0]));
    listed.layouts = vec![kept(&[1], &[]), kept(&[1], &[])];
    let mut routed = running(&[&[]], &[(&[0, 1], 0)], None);
    routed.placements = 2;
    routed.layouts = vec![kept(&[0], &[(9, 9), (0, 0), (9, 9)]), kept(&[], &[])];
    vec![
        set("set-no-frame", p(), running(&[], &[], None), &[0, 1]),
        set(
            "set-no-frame-at-limit",
            one_state.clone(),
            running(&[&[]], &[], None),
            &[1],
        ),
        set(
            "set-pending-at-limit",
            one_state,
            running(&[&[1]], &[], Some(&[])),
            &[1, 1],
        ),
        set(
            "set-fresh-list",
            p(),
            running(&[&[]], &[(&[0, 1, 2], 0)], None),
            &[1, 100],
        ),
        set(
            "set-list-disordered",
            p(),
            running(&[], &[(&[2, 1, 1], 1)], Some(&[2])),
            &[1, 1, 9],
        ),
        set(
            "set-spent-list",
            p(),
            running(&[&[]], &[(&[0], 1)], None),
            &[1],
        ),
        set(
            "set-spent-lists",
            p(),
            running(&[&[]], &[(&[1], 1), (&[2], 1)], None),
            &[1],
        ),
        set(
            "set-pending-visited",
            p(),
            running(&[&[]], &[], Some(&[])),
            &[1],
        ),
        set(
            "set-pending-on-lists",
            p(),
            running(&[&[]], &[(&[1, 2], 2), (&[1], 1)], Some(&[1, 2])),
            &[1, 9],
        ),
        set(
            "set-rows-repeated",
            p(),
            running(&[&[], &[], &[0]], &[(&[0, 1], 0)], None),
            &[1, 9],
        ),
        set(
            "set-no-touch",
            Case { end: (0, 1), ..p() },
            running(&[], &[(&[1, 2], 0)], None),
            &[2, 9],
        ),
        set(
            "set-stopped",
            p(),
            at(Reason::Exhausted, &[&[]], &[(&[1], 1)], Some(&[1])),
            &[3],
        ),
        set("set-layouts", Case { results: 3, ..p() }, listed, &[1, 9]),
        set("set-kept-routes", gap(), routed, &[1, 9]),
    ]
}

/// P begun, then its ground closed to the blocked mover: step looks for no route before it runs.
fn closed() -> Vec<Item> {
    let item = |name, case: Case| {
        let block = (0..case.centres()).map(|centre| centre % 5 == 2).collect();
        let allow = case.allow.map(|_| vec![false; case.centres()]);
        Item {
            given: Some(Baselines { block, allow }),
            ..set(name, case, Snapshot::begun(3), &[1, 1])
        }
    };
    vec![
        item("set-closed", p()),
        item("set-closed-results-1", Case { results: 1, ..p() }),
        item("set-closed-states-1", Case { states: 1, ..p() }),
        item(
            "set-closed-allow",
            Case {
                allow: Some(POINT),
                ..p()
            },
        ),
    ]
}
