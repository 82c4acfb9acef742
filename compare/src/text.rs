//! The list as text: one fact a line, a word and then numbers, single spaces. README.md says which.

use std::fmt::{Display, Write};

use crate::case::{Case, Mover, Rect, Snapshot};
use crate::list::{Answers, Item};
use crate::run::Search;
use crate::walls::search::probe;

pub const FORMAT: u32 = 1;

/// The whole list.
pub fn list(seed: u64, items: &[(Item, Answers)]) -> String {
    let mut out = format!("answers {FORMAT} {seed} {}\n", items.len());
    for (number, (item, answers)) in items.iter().enumerate() {
        out += &self::item(number, item, answers);
    }
    out
}

/// One item with its answers.
pub fn item(number: usize, item: &Item, answers: &Answers) -> String {
    let mut out = String::new();
    line(&mut out, "case", &[&number, &item.name]);
    inputs(&mut out, &item.case);
    match &item.given {
        Some(given) => {
            line(&mut out, "given", &[&"block", &marks(&given.block)]);
            if let Some(allow) = &given.allow {
                line(&mut out, "given", &[&"allow", &marks(allow)]);
            }
        }
        None => {
            prepared(&mut out, "block", &answers.block);
            if let Some(allow) = &answers.allow {
                prepared(&mut out, "allow", allow);
            }
        }
    }
    if let Some(search) = &answers.search {
        way(&mut out, "block", search, Mover::Block);
        if item.case.allow.is_some() {
            way(&mut out, "allow", search, Mover::Allow);
        }
    }
    for (index, held) in answers.snapshots.iter().enumerate() {
        match index.checked_sub(1) {
            Some(before) => line(&mut out, "step", &[&item.portions[before]]),
            None if item.held.is_some() => line(&mut out, "set", &[]),
            None => line(&mut out, "begin", &[]),
        }
        snapshot(&mut out, held);
    }
    line(&mut out, "end", &[&number]);
    out
}

fn inputs(out: &mut String, case: &Case) {
    line(
        out,
        "map",
        &[&case.map.0, &case.map.1, &digits(&case.cells)],
    );
    line(out, "obstacles", &[&case.obstacles.len()]);
    for obstacle in &case.obstacles {
        line(out, "obstacle", &edges(obstacle));
    }
    line(out, "window", &edges(&case.window));
    line(
        out,
        "ends",
        &[&case.start.0, &case.start.1, &case.end.0, &case.end.1],
    );
    let block = &case.block;
    line(
        out,
        "block",
        &[&block.left, &block.top, &block.right, &block.bottom],
    );
    match &case.allow {
        None => line(out, "allow", &[&0]),
        Some(allow) => line(
            out,
            "allow",
            &[&1, &allow.left, &allow.top, &allow.right, &allow.bottom],
        ),
    }
    line(out, "limits", &[&case.states, &case.results]);
    row(out, "groups", &[], &case.groups);
    line(out, "places", &[&case.placements.len()]);
    for place in &case.placements {
        let mut values: Vec<&dyn Display> =
            vec![&place.spec, &place.group, &place.tile.0, &place.tile.1];
        values.extend(edges(&place.footprint));
        values.extend(edges(&place.collision));
        line(out, "place", &values);
    }
}

fn prepared(out: &mut String, mover: &str, answer: &Result<Vec<bool>, u32>) {
    match answer {
        Err(number) => line(out, "prepare", &[&mover, number]),
        Ok(baseline) => line(out, "prepare", &[&mover, &0, &marks(baseline)]),
    }
}

/// The route over a baseline alone, in map pixels; no point where there is none.
fn way(out: &mut String, name: &str, search: &Search, mover: Mover) {
    let window = search.case().window;
    let width = window.width();
    let points: Vec<String> = probe::route_past(search.original(), mover, &[])
        .unwrap_or_default()
        .into_iter()
        .map(|centre| {
            let x = i64::from(window.left) + centre as i64 % width;
            let y = i64::from(window.top) + centre as i64 / width;
            format!("{x} {y}")
        })
        .collect();
    row(out, "way", &[&name], &points);
}

fn marks(baseline: &[bool]) -> String {
    digits(
        &baseline
            .iter()
            .map(|&off| u8::from(off))
            .collect::<Vec<u8>>(),
    )
}

fn snapshot(out: &mut String, held: &Snapshot) {
    line(
        out,
        "record",
        &[
            &(held.reason as u32),
            &held.evaluations,
            &held.placements,
            &held.layouts.len(),
            &held.lists.len(),
            &u32::from(held.pending.is_some()),
        ],
    );
    for (number, list) in held.lists.iter().enumerate() {
        row(out, "list", &[&number, &list.next], &list.entries);
    }
    if let Some(set) = &held.pending {
        row(out, "pending", &[], set);
    }
    for (number, layout) in held.layouts.iter().enumerate() {
        row(out, "layout", &[&number], &layout.members);
        let points: Vec<String> = layout
            .route
            .iter()
            .map(|(x, y)| format!("{x} {y}"))
            .collect();
        row(out, "route", &[&number], &points);
    }
    for (number, set) in held.visited.iter().enumerate() {
        row(out, "visited", &[&number], set);
    }
}

fn digits(bytes: &[u8]) -> String {
    bytes.iter().map(|&byte| char::from(b'0' + byte)).collect()
}

fn edges(rect: &Rect) -> [&dyn Display; 4] {
    [&rect.left, &rect.top, &rect.right, &rect.bottom]
}

fn line(out: &mut String, word: &str, values: &[&dyn Display]) {
    out.push_str(word);
    for value in values {
        write!(out, " {value}").expect("text");
    }
    out.push('\n');
}

/// A word, some values, then a counted row of entries.
fn row<T: Display>(out: &mut String, word: &str, before: &[&dyn Display], entries: &[T]) {
    let length = entries.len();
    let mut values = before.to_vec();
    values.push(&length);
    values.extend(entries.iter().map(|entry| entry as &dyn Display));
    line(out, word, &values);
}
