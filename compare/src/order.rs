//! The search in any order of steps, read from the words of docs/RULES.md (1.8, 2 to 5 and 7.7) with
//! that order put in. No code of the original's, which has one order alone, and no form of the port's:
//! covers are asked centre by centre, and the search for a route goes over all the ground before it
//! looks for the end.

use crate::case::{Bounds, Case, Layout, List, Mover, Reason, Rect, Snapshot};
use crate::domain;
use crate::ground::{Ground, Pixel};
use crate::run::Baselines;

/// The original's order of steps, as the calls take it: x and y of each of the eight.
pub const ORIGINAL_STEPS: [i32; 16] = [1, 0, 0, 1, -1, 0, 0, -1, 1, 1, -1, 1, -1, -1, 1, -1];

/// The original's diagonal steps, then its straight ones.
pub const DIAGONALS_FIRST: [i32; 16] = [1, 1, -1, 1, -1, -1, 1, -1, 1, 0, 0, 1, -1, 0, 0, -1];

/// What an evaluation comes to.
enum Evaluated {
    Nothing,
    Extensions(Vec<u32>),
    Wall(Vec<(u32, u32)>),
}

/// A search in some order of steps.
#[derive(Debug, Clone)]
pub struct Ordered {
    case: Case,
    baselines: Baselines,
    steps: Vec<Pixel>,
    held: Snapshot,
}

fn keeps_off(rect: Rect, mover: Bounds, (x, y): Pixel) -> bool {
    let [left, top, right, bottom] = [rect.left, rect.top, rect.right, rect.bottom].map(i64::from);
    left - i64::from(mover.right) <= x
        && x < right + i64::from(mover.left)
        && top - i64::from(mover.bottom) <= y
        && y < bottom + i64::from(mover.top)
}

fn pixel((x, y): (u32, u32)) -> Pixel {
    (i64::from(x), i64::from(y))
}

/// The two side centres of a step. Those of a straight step are its own ends.
fn sides(from: Pixel, to: Pixel) -> [Pixel; 2] {
    [(to.0, from.1), (from.0, to.1)]
}

impl Ordered {
    /// A search that holds what begin leaves, in the order of a table that fits. No check is made.
    pub fn on(case: &Case, baselines: &Baselines, table: &[i32]) -> Self {
        let step = |pair: &[i32]| (i64::from(pair[0]), i64::from(pair[1]));
        Self {
            case: case.clone(),
            baselines: baselines.clone(),
            steps: table.chunks(2).map(step).collect(),
            held: Snapshot::begun(case.placements.len() as u32),
        }
    }

    /// Begins, or tells the refusal.
    pub fn begin_on(case: &Case, baselines: &Baselines, table: &[i32]) -> Result<Self, u32> {
        domain::begin_before_routes(case)?;
        let search = Self::on(case, baselines, table);
        search.ends_joined()?;
        domain::begin_after_routes(case)?;
        Ok(search)
    }

    /// A search with a record that passes 16.
    pub fn set_on(
        case: &Case,
        baselines: &Baselines,
        table: &[i32],
        held: &Snapshot,
    ) -> Result<Self, u32> {
        domain::begin_before_routes(case)?;
        domain::begin_after_routes(case)?;
        domain::record(case, held)?;
        Ok(Self {
            held: held.clone(),
            ..Self::on(case, baselines, table)
        })
    }

    pub fn case(&self) -> &Case {
        &self.case
    }

    pub fn snapshot(&self) -> Snapshot {
        self.held.clone()
    }

    /// 7, 8 and 9 for the blocked mover, then for the allowed one.
    pub fn ends_joined(&self) -> Result<(), u32> {
        for mover in [Mover::Block, Mover::Allow] {
            if self.case.bounds(mover).is_none() {
                continue;
            }
            let closed = self.closed(mover, &[]);
            let open = |end| self.ground(&closed).is_open(pixel(end));
            if !open(self.case.start) {
                return Err(7);
            }
            if !open(self.case.end) {
                return Err(8);
            }
            self.route(&closed).ok_or(9_u32)?;
        }
        Ok(())
    }

    fn ground<'a>(&self, closed: &'a [bool]) -> Ground<'a> {
        Ground {
            window: self.case.window,
            closed,
        }
    }

    /// Where a mover is kept off, by its baseline or by a member of the set (3.4).
    fn closed(&self, mover: Mover, set: &[u32]) -> Vec<bool> {
        let baseline = match mover {
            Mover::Block => &self.baselines.block,
            Mover::Allow => self.baselines.allow.as_ref().expect("an allowed mover"),
        };
        let bounds = self.case.bounds(mover).expect("a mover of the case");
        let window = self.case.window;
        let rows = i64::from(window.top)..i64::from(window.bottom);
        let pixels = rows
            .flat_map(|y| (i64::from(window.left)..i64::from(window.right)).map(move |x| (x, y)));
        let covered = |at: Pixel| {
            set.iter().any(|&member| {
                let rect = self.case.placements[member as usize].collision;
                keeps_off(rect, bounds, at)
            })
        };
        pixels
            .zip(baseline)
            .map(|(at, &off)| off || covered(at))
            .collect()
    }

    /// The route from start to end (2.4). Every centre that can be found is found, in order, with the
    /// turn of the one that found it first; then the way is traced back from the end.
    fn route(&self, closed: &[bool]) -> Option<Vec<Pixel>> {
        let ground = self.ground(closed);
        let (start, end) = (pixel(self.case.start), pixel(self.case.end));
        if !ground.is_open(start) || !ground.is_open(end) {
            return None;
        }
        let mut known = vec![false; closed.len()];
        known[ground.number(start)] = true;
        let mut found = vec![(start, 0)];
        let mut turn = 0;
        while turn < found.len() {
            let at = found[turn].0;
            for step in &self.steps {
                let to = (at.0 + step.0, at.1 + step.1);
                let free = ground.is_open(to) && sides(at, to).iter().all(|&at| ground.is_open(at));
                if free && !known[ground.number(to)] {
                    known[ground.number(to)] = true;
                    found.push((to, turn));
                }
            }
            turn += 1;
        }
        let mut turn = found.iter().position(|&(at, _)| at == end)?;
        let mut route = vec![end];
        while turn > 0 {
            turn = found[turn].1;
            route.push(found[turn].0);
        }
        route.reverse();
        Some(route)
    }

    /// A mover's route past a set, in map pixels.
    pub fn route_past(&self, mover: Mover, set: &[u32]) -> Option<Vec<(u32, u32)>> {
        let route = self.route(&self.closed(mover, set))?;
        Some(route.iter().map(|&(x, y)| (x as u32, y as u32)).collect())
    }

    /// Whether a placement keeps the blocked mover off a point of the route.
    fn by_point(&self, entry: u32, route: &[Pixel]) -> bool {
        let rect = self.case.placements[entry as usize].collision;
        route.iter().any(|&at| keeps_off(rect, self.case.block, at))
    }

    /// Whether a placement keeps the blocked mover off a side centre of one of the route's steps.
    fn by_side(&self, entry: u32, route: &[Pixel]) -> bool {
        let rect = self.case.placements[entry as usize].collision;
        let off = |&at: &Pixel| keeps_off(rect, self.case.block, at);
        route
            .windows(2)
            .any(|pair| sides(pair[0], pair[1]).iter().any(off))
    }

    /// The placements that may join a set, in index order.
    fn joining(&self, set: &[u32]) -> impl Iterator<Item = u32> {
        let entries = 0..self.case.placements.len() as u32;
        entries.filter(|&entry| domain::may_join(&self.case, set, entry))
    }

    /// A set's extensions for a route (4.2).
    fn extensions(&self, set: &[u32], route: &[Pixel]) -> Vec<u32> {
        let touches = |&entry: &u32| self.by_point(entry, route) || self.by_side(entry, route);
        self.joining(set).filter(touches).collect()
    }

    /// The number of a set's extensions that cover no point of its route.
    pub fn touching_by_side(&self, set: &[u32]) -> usize {
        let Some(route) = self.route(&self.closed(Mover::Block, set)) else {
            return 0;
        };
        let alone = |&entry: &u32| !self.by_point(entry, &route) && self.by_side(entry, &route);
        self.joining(set).filter(alone).count()
    }

    /// Whether the blocked mover has a route past the set without any one of its members (4.3).
    fn is_minimal(&self, set: &[u32]) -> bool {
        set.iter().all(|lifted| {
            let others: Vec<u32> = set
                .iter()
                .copied()
                .filter(|other| other != lifted)
                .collect();
            self.route(&self.closed(Mover::Block, &others)).is_some()
        })
    }

    fn ends_open(&self, closed: &[bool]) -> bool {
        let ground = self.ground(closed);
        ground.is_open(pixel(self.case.start)) && ground.is_open(pixel(self.case.end))
    }

    /// The evaluation of a set (4.1).
    fn evaluate(&self, set: &[u32]) -> Evaluated {
        let closed = self.closed(Mover::Block, set);
        if !self.ends_open(&closed) {
            return Evaluated::Nothing;
        }
        if let Some(route) = self.route(&closed) {
            return Evaluated::Extensions(self.extensions(set, &route));
        }
        if !self.is_minimal(set) {
            return Evaluated::Nothing;
        }
        if self.case.allow.is_none() {
            return Evaluated::Wall(Vec::new());
        }
        match self.route_past(Mover::Allow, set) {
            Some(route) => Evaluated::Wall(route),
            None => Evaluated::Nothing,
        }
    }

    /// Frames until so many sets are evaluated or the search has stopped (5.6).
    pub fn step(&mut self, n: u32) {
        let mut left = n;
        while left > 0 && self.held.reason == Reason::Running {
            left -= u32::from(self.frame());
        }
    }

    /// One frame (5.4), and whether it evaluated a set.
    fn frame(&mut self) -> bool {
        if self.held.evaluations == self.case.states {
            self.held.reason = Reason::StateLimit;
            return false;
        }
        if let Some(set) = self.held.pending.take() {
            if self.held.visited.contains(&set) {
                return false;
            }
            let evaluated = self.evaluate(&set);
            self.held.evaluations += 1;
            self.held.visited.push(set.clone());
            self.enter(set, evaluated);
            return true;
        }
        let Some(list) = self.held.lists.last_mut() else {
            self.held.reason = Reason::Exhausted;
            return false;
        };
        if list.next as usize == list.entries.len() {
            self.held.lists.pop();
            return false;
        }
        list.next += 1;
        self.held.pending = Some(self.held.set_of_list(self.held.lists.len()));
        self.look();
        false
    }

    /// What an evaluated set leaves, and the looks after it.
    fn enter(&mut self, set: Vec<u32>, evaluated: Evaluated) {
        match evaluated {
            Evaluated::Extensions(entries) if !entries.is_empty() => {
                self.held.lists.push(List { entries, next: 0 });
            }
            Evaluated::Wall(route) => {
                let kept = self.held.layouts.iter().map(|layout| layout.route.len());
                if kept.sum::<usize>() + route.len() > domain::MAX_POINTS {
                    self.held.reason = Reason::ResultLimit;
                    return;
                }
                self.held.layouts.push(Layout {
                    members: set,
                    route,
                });
            }
            Evaluated::Extensions(_) | Evaluated::Nothing => {}
        }
        self.look();
    }

    /// The looks (5.5).
    fn look(&mut self) {
        let held = &mut self.held;
        if held.layouts.len() == self.case.results as usize {
            held.reason = Reason::ResultLimit;
        } else if held.lists.is_empty() && held.pending.is_none() {
            held.reason = Reason::Exhausted;
        } else if held.evaluations == self.case.states {
            held.reason = Reason::StateLimit;
        }
    }

    /// The number of the first verdict that applies to a selection (7.7).
    pub fn verdict(&self, set: &[u32]) -> u32 {
        let place = |member: u32| &self.case.placements[member as usize];
        let used = |group: usize| {
            let same = |&&member: &&u32| place(member).group as usize == group;
            set.iter().filter(same).count()
        };
        let mut slots = self.case.groups.iter().enumerate();
        if slots.any(|(group, &count)| used(group) > count as usize) {
            return 1;
        }
        let meet = |a: u32, b: u32| a != b && place(a).footprint.intersects(place(b).footprint);
        if set.iter().any(|&a| set.iter().any(|&b| meet(a, b))) {
            return 2;
        }
        let closed = self.closed(Mover::Block, set);
        if !self.ends_open(&closed) {
            return 3;
        }
        if self.route(&closed).is_some() {
            return 4;
        }
        if !self.is_minimal(set) {
            return 5;
        }
        if self.case.allow.is_some() && self.route_past(Mover::Allow, set).is_none() {
            return 6;
        }
        7
    }
}
