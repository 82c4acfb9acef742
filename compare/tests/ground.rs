//! The flood of `ground`: by hand on small windows, and beside the original's routes on generated ones.

use judge::generate::Generator;
use judge::ground::reached;
use judge::walls::search::probe;
use judge::{Baselines, Case, Mover, Rect, Search};

/// The ground from a column and row of the rows drawn, `#` where closed. The window stands apart from the map's corner.
fn from(rows: &[&str], (x, y): (u32, u32)) -> u32 {
    let closed: Vec<bool> = rows.concat().bytes().map(|byte| byte == b'#').collect();
    let window = Rect::new(7, 5, 7 + rows[0].len() as i32, 5 + rows.len() as i32);
    reached(&closed, window, (7 + x, 5 + y))
}

#[test]
fn one_centre() {
    assert_eq!(from(&["."], (0, 0)), 1);
    assert_eq!(from(&["#"], (0, 0)), 0);
}

#[test]
fn a_closed_start_reaches_nothing() {
    assert_eq!(from(&["..#", "...", "..."], (2, 0)), 0);
    assert_eq!(from(&["###", "###"], (1, 1)), 0);
}

/// The end is a centre like any other: a closed one is left out, and an open one is no halt.
#[test]
fn the_end_is_counted_where_it_is_open() {
    let start = (0, 1);
    assert_eq!(from(&[".....", ".....", "....."], start), 15);
    assert_eq!(from(&[".....", "....#", "....."], start), 14);
}

#[test]
fn each_side_of_a_wall_has_its_own_count() {
    let split = ["...", "...", "###", "..."];
    assert_eq!((from(&split, (0, 0)), from(&split, (2, 3))), (6, 3));
    assert_eq!(from(&split, (1, 2)), 0);
    let upright = ["..#.", "..#.", "..#."];
    assert_eq!((from(&upright, (1, 1)), from(&upright, (3, 2))), (6, 3));
}

/// The last column and the next row's first stand beside each other in the row of centres alone.
#[test]
fn no_step_leaves_the_window() {
    assert_eq!(from(&["##.", ".##"], (2, 0)), 1);
    assert_eq!(from(&["##.", ".##"], (0, 1)), 1);
}

#[test]
fn a_diagonal_step_needs_both_sides() {
    assert_eq!(from(&[".#", "#."], (0, 0)), 1);
    assert_eq!(from(&["#.", ".#"], (0, 1)), 1);
    assert_eq!(from(&[".#", ".."], (0, 0)), 3);
    let gap = ["..#..", "..#..", "##...", "....."];
    assert_eq!((from(&gap, (0, 0)), from(&gap, (4, 0))), (4, 12));
}

/// As many as there are centres to which the original has a route.
#[test]
fn the_ground_is_where_the_original_has_a_route() {
    let mut generator = Generator::new(21);
    let mut parted = 0;
    for _ in 0..600 {
        let item = generator.item();
        let prepared = || Baselines::prepare(&item.case).ok();
        let Some(baselines) = item.given.clone().or_else(prepared) else {
            continue;
        };
        let search = Search::begin_on(&item.case, &baselines).expect("an accepted search");
        let set: Vec<u32> = (0..item.case.placements.len() as u32).step_by(2).collect();
        let closed =
            probe::cover(search.original(), Mover::Block, &set).expect("the blocked mover");
        let ground = reached(&closed, item.case.window, item.case.start);
        assert_eq!(ground, routes(&item.case, &closed));
        parted += u32::from((ground as usize) < closed.iter().filter(|&&off| !off).count());
    }
    assert!(
        parted >= 100,
        "{parted} with centres that are open and cannot be reached"
    );
}

fn routes(case: &Case, closed: &[bool]) -> u32 {
    let Rect {
        left,
        top,
        right,
        bottom,
    } = case.window;
    let pixels = (top..bottom).flat_map(|y| (left..right).map(move |x| (x as u32, y as u32)));
    let to = |end| Case {
        end,
        ..case.clone()
    };
    pixels
        .filter(|&end| probe::ends_joined(&to(end), closed).is_ok())
        .count() as u32
}
