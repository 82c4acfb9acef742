//! The stored searches and answers of the program `program_replay` are those that this crate writes,
//! and hold what they are said to hold.

use std::collections::BTreeSet;
use std::path::PathBuf;

use judge::{Case, Search, maps, stored};

fn file(name: &str) -> String {
    let path: PathBuf = [
        env!("CARGO_MANIFEST_DIR"),
        "..",
        "crates",
        "program_replay",
        name,
    ]
    .iter()
    .collect();
    std::fs::read_to_string(path).expect("a stored file")
}

#[test]
fn the_files_are_those_written() {
    let list = stored::searches();
    assert!(list.len() >= 1_000);
    assert!(
        file("stdin") == stored::input(&list),
        "crates/program_replay/stdin"
    );
    assert!(
        file("stdout") == stored::output(&list),
        "crates/program_replay/stdout"
    );
}

fn count(holds: impl Fn(&str) -> bool) -> usize {
    file("stdout").lines().filter(|line| holds(line)).count()
}

#[test]
fn every_end_and_refusal_is_among_them() {
    for number in 7..=9 {
        for mover in ["block", "allow"] {
            let start = format!("{mover} {number} ");
            assert!(count(|line| line.starts_with(&start)) > 0, "{start}");
        }
    }
    for number in 1..=5 {
        assert!(
            count(|line| line == format!("block {number}")) > 0,
            "{number}"
        );
    }
    for number in [10, 11, 12, 15] {
        let start = format!("begin {number}");
        assert!(count(|line| line.starts_with(&start)) > 0, "{start}");
    }
    for verdict in 1..=7 {
        let start = format!("judge 0 {verdict} ");
        assert!(count(|line| line.starts_with(&start)) > 0, "{start}");
    }
    for reason in 1..=4 {
        let stands = |line: &str| {
            let words: Vec<&str> = line.split(' ').collect();
            words[0] == "step" && words[3] == reason.to_string()
        };
        assert!(count(stands) >= 50, "reason {reason}");
    }
    let six = |line: &str| line.starts_with("layout") && line.split(' ').count() == 13;
    assert!(count(six) >= 10, "walls of six members");
    let kept = |line: &str| line.contains(" route ") && !line.contains(" route 0 ");
    assert!(count(kept) >= 100, "kept routes");
}

/// The walls of a search that stops Exhausted.
fn walls(case: &Case) -> BTreeSet<Vec<u32>> {
    let mut search = Search::begin(case).expect("an accepted search");
    search.step(case.states);
    let held = search.snapshot();
    assert_eq!(held.reason as u32, 2, "Exhausted");
    let walls: BTreeSet<Vec<u32>> = held
        .layouts
        .into_iter()
        .map(|layout| layout.members)
        .collect();
    walls
}

#[test]
fn the_ramp_has_four_walls_both_ways() {
    let ramp = maps::narrow_ramp();
    assert_eq!((ramp.window.width(), ramp.window.height()), (240, 200));
    let found = walls(&ramp);
    assert_eq!(found.len(), 4);
    assert!(found.iter().all(|wall| wall.len() == 2));
    assert_eq!(walls(&maps::back(ramp)), found);
}

#[test]
fn the_valley_has_walls_below_and_above_the_sixteen_bits_both_ways() {
    let valley = maps::broad_valley();
    assert_eq!((valley.window.width(), valley.window.height()), (300, 260));
    let found = walls(&valley);
    let numbers = |wall: &[u32]| -> Vec<i64> {
        let edges = |rect: judge::Rect| [rect.top, rect.bottom - 1].map(i64::from);
        let rows = wall
            .iter()
            .flat_map(|&member| edges(valley.placements[member as usize].collision));
        rows.map(|row| (row - i64::from(valley.window.top)) * 300)
            .collect()
    };
    assert!(
        found
            .iter()
            .any(|wall| numbers(wall).iter().all(|&number| number + 299 <= 65_535))
    );
    assert!(
        found
            .iter()
            .any(|wall| numbers(wall).iter().all(|&number| number > 65_535))
    );
    assert_eq!(walls(&maps::back(valley)), found);
}
