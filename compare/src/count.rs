//! What a list reaches: how many of its searches list walls, keep routes, stop for which reason.

use std::fmt;

use crate::case::{Mover, Reason, Snapshot};
use crate::domain;
use crate::list::{Answers, Item};
use crate::run::Search;
use crate::walls::search::probe;

#[derive(Debug, Default, Clone, Eq, PartialEq)]
pub struct Counts {
    pub cases: usize,
    /// Cases that prepare refuses, by 7, 8, 9.
    pub refused: [usize; 3],
    pub begun: usize,
    pub set: usize,
    /// Cases over baselines made by hand.
    pub given: usize,
    pub offset_windows: usize,
    pub with_allowed_mover: usize,
    pub steps: usize,
    pub evaluations: usize,
    pub listing_a_wall: usize,
    /// Cases that list a wall of one to six members, and such walls.
    pub cases_by_members: [usize; 6],
    pub walls_by_members: [usize; 6],
    pub cases_keeping_routes: usize,
    pub routes_kept: usize,
    /// Cases by the reason after the last portion: Running, Exhausted, StateLimit, ResultLimit.
    pub last_reasons: [usize; 4],
    /// Portions after which a search still runs.
    pub running_portions: usize,
    /// Cases in which an evaluated set leaves an end blocked.
    pub blocked_ends: usize,
    /// Cases with an extension that touches the route by a side centre alone, and such extensions.
    pub cases_touching_by_side: usize,
    pub touches_by_side: usize,
    /// The most lists that a search held at once.
    pub deepest_list: usize,
}

impl Counts {
    pub fn of(list: &[(Item, Answers)]) -> Self {
        let mut counts = Self::default();
        for (item, answers) in list {
            counts.add(item, answers);
        }
        counts
    }

    fn add(&mut self, item: &Item, answers: &Answers) {
        self.cases += 1;
        self.offset_windows += usize::from((item.case.window.left, item.case.window.top) != (0, 0));
        self.with_allowed_mover += usize::from(item.case.allow.is_some());
        let (Some(search), Some(last)) = (&answers.search, answers.snapshots.last()) else {
            let allow = answers
                .allow
                .as_ref()
                .and_then(|allow| allow.as_ref().err());
            let number = answers.block.as_ref().err().or(allow).expect("a refusal");
            self.refused[*number as usize - 7] += 1;
            return;
        };
        self.given += usize::from(item.given.is_some());
        match item.held {
            None => self.begun += 1,
            Some(_) => self.set += 1,
        }
        self.steps += item.portions.len();
        self.evaluations += (last.evaluations - answers.snapshots[0].evaluations) as usize;
        self.last_reasons[last.reason as usize - 1] += 1;
        let after_steps = answers.snapshots.iter().skip(1);
        self.running_portions += after_steps
            .filter(|held| held.reason == Reason::Running)
            .count();
        let depth = answers.snapshots.iter().map(|held| held.lists.len()).max();
        self.deepest_list = self.deepest_list.max(depth.unwrap_or(0));
        if item.held.is_none() {
            self.add_walls(last);
            self.add_touches(search, last);
        }
    }

    fn add_walls(&mut self, last: &Snapshot) {
        self.listing_a_wall += usize::from(!last.layouts.is_empty());
        for members in 1..=6 {
            let walls = last
                .layouts
                .iter()
                .filter(|kept| kept.members.len() == members)
                .count();
            self.walls_by_members[members - 1] += walls;
            self.cases_by_members[members - 1] += usize::from(walls > 0);
        }
        let kept = last
            .layouts
            .iter()
            .filter(|kept| !kept.route.is_empty())
            .count();
        self.routes_kept += kept;
        self.cases_keeping_routes += usize::from(kept > 0);
    }

    fn add_touches(&mut self, search: &Search, last: &Snapshot) {
        let mut by_side = 0;
        let mut end_blocked = false;
        for set in &last.visited {
            let cover = probe::cover(search.original(), Mover::Block, set).expect("blocked mover");
            end_blocked |= matches!(probe::ends_joined(search.case(), &cover), Err(7 | 8));
            by_side += touching_by_side(search, set);
        }
        self.blocked_ends += usize::from(end_blocked);
        self.touches_by_side += by_side;
        self.cases_touching_by_side += usize::from(by_side > 0);
    }
}

/// The number of a set's extensions that cover no point of its route.
pub fn touching_by_side(search: &Search, set: &[u32]) -> usize {
    let original = search.original();
    let Some(route) = probe::route_past(original, Mover::Block, set) else {
        return 0;
    };
    (0..search.case().placements.len() as u32)
        .filter(|&entry| {
            domain::may_join(search.case(), set, entry)
                && probe::touches(original, entry, &route)
                && !route
                    .iter()
                    .any(|&point| probe::touches(original, entry, &[point]))
        })
        .count()
}

impl fmt::Display for Counts {
    fn fmt(&self, f: &mut fmt::Formatter<'_>) -> fmt::Result {
        let [seven, eight, nine] = self.refused;
        writeln!(
            f,
            "cases {} (begun {}, set {}; over given baselines {})",
            self.cases, self.begun, self.set, self.given
        )?;
        writeln!(f, "refused by prepare: 7: {seven}, 8: {eight}, 9: {nine}")?;
        writeln!(f, "windows off the corner {}", self.offset_windows)?;
        writeln!(f, "with an allowed mover {}", self.with_allowed_mover)?;
        writeln!(f, "steps {}, evaluations {}", self.steps, self.evaluations)?;
        writeln!(f, "begun cases listing a wall {}", self.listing_a_wall)?;
        writeln!(f, "  cases by members 1 to 6: {:?}", self.cases_by_members)?;
        writeln!(f, "  walls by members 1 to 6: {:?}", self.walls_by_members)?;
        writeln!(
            f,
            "  kept routes {} in {} cases",
            self.routes_kept, self.cases_keeping_routes
        )?;
        let [running, exhausted, states, results] = self.last_reasons;
        writeln!(
            f,
            "last reason: Running {running}, Exhausted {exhausted}, StateLimit {states}, ResultLimit {results}"
        )?;
        writeln!(
            f,
            "portions after which a search runs on {}",
            self.running_portions
        )?;
        writeln!(
            f,
            "cases with a set that blocks an end {}",
            self.blocked_ends
        )?;
        writeln!(
            f,
            "touches by a side centre only {} in {} cases",
            self.touches_by_side, self.cases_touching_by_side
        )?;
        write!(f, "most lists at once {}", self.deepest_list)
    }
}
