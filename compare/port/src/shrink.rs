//! A smaller search that differs too: places, obstacles, portions and limits are taken away while it does.

use judge::list::Item;

use crate::both::Difference;

/// The smallest item found that `differs` tells a difference of, and that difference.
pub fn shrink(item: &Item, difference: Difference, differs: &dyn Fn(&Item) -> Option<Difference>) -> (Item, Difference) {
    let mut best = (item.clone(), difference);
    'again: loop {
        for smaller in smaller(&best.0) {
            if let Some(difference) = differs(&smaller) {
                best = (smaller, difference);
                continue 'again;
            }
        }
        return best;
    }
}

fn smaller(item: &Item) -> Vec<Item> {
    let mut items = Vec::new();
    let mut with = |change: &dyn Fn(&mut Item)| {
        let mut changed = item.clone();
        change(&mut changed);
        items.push(changed);
    };
    for k in 0..item.portions.len() {
        with(&|changed| {
            changed.portions.remove(k);
        });
    }
    if item.held.is_none() {
        for k in 0..item.case.placements.len() {
            with(&|changed| {
                changed.case.placements.remove(k);
            });
        }
        if item.case.states > 1 {
            with(&|changed| changed.case.states /= 2);
            with(&|changed| changed.case.states -= 1);
        }
        if item.case.results > 1 {
            with(&|changed| changed.case.results -= 1);
        }
        if item.case.allow.is_some() {
            with(&|changed| {
                changed.case.allow = None;
                if let Some(given) = &mut changed.given {
                    given.allow = None;
                }
            });
        }
    }
    if item.given.is_none() {
        for k in 0..item.case.obstacles.len() {
            with(&|changed| {
                changed.case.obstacles.remove(k);
            });
        }
    }
    items
}
