//! A plan with its movers prepared.

use std::sync::{Mutex, MutexGuard, PoisonError};

use crate::{
    answers::Judgement,
    areas::{self, Store, Work, RECORD},
    calls::{self, Asked, Change},
    refusal::{Mover, Refusal},
    search::Search,
    values::{Bounds, Limits, Plan, Rect},
};

/// A plan with its movers prepared: it begins searches and judges selections.
///
/// The planner owns the plan, the movers' baselines and the working areas. The plan cannot be altered while the planner lives, and
/// the baselines only by [`Planner::cover`] and [`Planner::lift`]. These two need the planner to themselves, and a search borrows it:
/// as long as a search is used, the compiler takes neither. So a search is on the same inputs from its first call to its last.
/// [`Planner::into_plan`] gives the plan back, for another planner.
///
/// Searches of one planner share its working areas and take turns at them, also across threads.
///
/// ```
/// use hitrovzen::{Bounds, Limits, Map, Placement, Plan, Planner, Position, Reason, Rect, Verdict};
///
/// # fn main() -> Result<(), hitrovzen::Refusal> {
/// let mut plan = Plan::new(Map::open(1, 1), Rect::new(0, 0, 5, 3), Position::new(0, 1), Position::new(4, 1), Bounds::default());
/// plan.groups = vec![2];
/// plan.placements = vec![Placement::solid(0, Rect::new(2, 0, 3, 3)), Placement::solid(0, Rect::new(2, 0, 3, 2))];
///
/// let planner = Planner::new(plan)?;
/// assert_eq!(planner.judge(&[0])?.verdict, Verdict::Wall);
/// assert_eq!(planner.judge(&[1])?.verdict, Verdict::Open);
///
/// // the ground that can be reached from the start: up to the wall, and all that the other post leaves
/// assert_eq!(planner.judge(&[0])?.ground, 6);
/// assert_eq!(planner.judge(&[1])?.ground, 13);
///
/// let mut search = planner.search(Limits::WIDEST)?;
/// assert_eq!(search.run()?, Reason::Exhausted);
/// assert_eq!(search.layouts().len(), 1);
///
/// // the same plan with another mover
/// let mut plan = planner.into_plan();
/// plan.block = Bounds::new(0, 1, 0, 1);
/// assert_eq!(Planner::new(plan)?.judge(&[1])?.verdict, Verdict::Wall);
/// # Ok(())
/// # }
/// ```
#[derive(Debug)]
pub struct Planner {
    plan: Plan,
    numbers: Vec<u32>,
    edges: Vec<i32>,
    block_base: Vec<u8>,
    allow_base: Vec<u8>,
    steps: Vec<i32>,
    work: Mutex<Work>,
}

impl Planner {
    /// Prepares the blocked mover, then the allowed one: marks where terrain, obstacles and the map's edge keep each off, and
    /// looks whether it passes from start to end.
    ///
    /// Groups and placements are looked at by [`Planner::search`] and [`Planner::judge`].
    ///
    /// # Errors
    ///
    /// Refusals 19, which is looked at first, 1 to 5 and 7 to 9.
    pub fn new(plan: Plan) -> Result<Self, Refusal> {
        let mut work = Work::new(plan.window);
        let obstacles: Vec<i32> = plan.map.obstacles.iter().flat_map(|r| r.edges()).collect();
        let steps: Vec<i32> = plan.steps.iter().flat_map(|(x, y)| [*x, *y]).collect();
        let mut prepare = |mover: Bounds| {
            let mut baseline = vec![0; areas::centres(plan.window)];
            calls::prepare(&plan, &obstacles, mover, &steps, &mut baseline, &mut work)
                .map(|()| baseline)
        };
        let block_base = prepare(plan.block).map_err(|refusal| refusal.of(Mover::Block))?;
        let allow_base = match plan.allow {
            Some(allow) => prepare(allow).map_err(|refusal| refusal.of(Mover::Allow))?,
            None => Vec::new(),
        };
        let places = &plan.placements;
        Ok(Self {
            numbers: places
                .iter()
                .flat_map(|p| [p.spec, p.group, p.tile.x, p.tile.y])
                .collect(),
            edges: places
                .iter()
                .flat_map(|p| [p.footprint.edges(), p.collision.edges()])
                .flatten()
                .collect(),
            block_base,
            allow_base,
            steps,
            work: Mutex::new(work),
            plan,
        })
    }

    /// The plan that was handed in.
    pub fn plan(&self) -> &Plan {
        &self.plan
    }

    /// Ends the planner and gives its plan back.
    pub fn into_plan(self) -> Plan {
        self.plan
    }

    /// The counts of a mover, a byte for each centre of the window, row by row: how much keeps it off there. A centre is blocked
    /// where its count is not zero. Preparing marks 0 or 1, a cover adds 1 and a lift takes 1 away. Empty where there is no allowed
    /// mover.
    pub fn baseline(&self, mover: Mover) -> &[u8] {
        match mover {
            Mover::Block => &self.block_base,
            Mover::Allow => &self.allow_base,
        }
    }

    /// Puts a building down: adds 1 to the count of each centre off which its rectangle keeps a mover, for both movers or for
    /// neither.
    ///
    /// The rectangle is what keeps movers off, as [`Placement::collision`](crate::Placement::collision) is. It may lie anywhere; one
    /// that reaches no centre of the window changes nothing. What a cover costs grows with the rectangle, not with the window, so
    /// an editor drags a building by lifting it and covering it elsewhere, and prepares nothing anew. Searches that begin later, and
    /// judgements, look at the counts as they then are, and answer as if every count that is not zero were 1.
    ///
    /// # Errors
    ///
    /// Refusals 15, for a rectangle that is empty or inverted, and 20, for a count that would pass 255. A refusal leaves the counts
    /// of both movers as they were.
    ///
    /// # Examples
    ///
    /// A gap of three pixels, a post that closes the upper two of them and one that closes the lower two, and a rock that is
    /// dragged from below to above and back:
    ///
    /// ```
    /// use hitrovzen::{Bounds, Limits, Map, Mover, Placement, Plan, Planner, Position, Rect, Refusal};
    ///
    /// fn walls(planner: &Planner) -> Result<Vec<Vec<u16>>, Refusal> {
    ///     let mut search = planner.search(Limits::WIDEST)?;
    ///     search.run()?;
    ///     Ok(search.layouts().map(|layout| layout.indexes().to_vec()).collect())
    /// }
    ///
    /// # fn main() -> Result<(), Refusal> {
    /// let mut plan = Plan::new(Map::open(1, 1), Rect::new(0, 0, 5, 3), Position::new(0, 1), Position::new(4, 1), Bounds::default());
    /// plan.groups = vec![1];
    /// plan.placements = vec![Placement::solid(0, Rect::new(2, 0, 3, 2)), Placement::solid(0, Rect::new(2, 1, 3, 3))];
    /// let mut planner = Planner::new(plan)?;
    /// let (above, below) = (Rect::new(2, 0, 3, 1), Rect::new(2, 2, 3, 3));
    /// assert!(walls(&planner)?.is_empty());
    ///
    /// planner.cover(below)?;
    /// assert_eq!(walls(&planner)?, [[0]]);
    /// let counts = planner.baseline(Mover::Block).to_vec();
    ///
    /// planner.lift(below)?;
    /// planner.cover(above)?;
    /// assert_eq!(walls(&planner)?, [[1]]);
    ///
    /// planner.lift(above)?;
    /// planner.cover(below)?;
    /// assert_eq!(walls(&planner)?, [[0]]);
    /// assert_eq!(planner.baseline(Mover::Block), counts);
    /// # Ok(())
    /// # }
    /// ```
    ///
    /// A search that is still used keeps the baselines as they are:
    ///
    /// ```compile_fail,E0502
    /// # use hitrovzen::{Limits, Planner, Rect, Refusal};
    /// # fn drag(planner: &mut Planner, building: Rect) -> Result<(), Refusal> {
    /// let mut search = planner.search(Limits::WIDEST)?;
    /// planner.cover(building)?;
    /// search.run()?;
    /// # Ok(())
    /// # }
    /// ```
    pub fn cover(&mut self, building: Rect) -> Result<(), Refusal> {
        self.change(building, Change::Cover, Change::Lift)
    }

    /// Takes a building up again: takes 1 from the counts to which [`Planner::cover`] adds 1, for both movers or for neither.
    ///
    /// A cover and then its lift leave every count as it was, and so do several covers lifted in any order; each of these lifts is
    /// accepted. A count does not tell what raised it: a rectangle that was never covered is lifted too where no count would pass
    /// zero, and centres that preparing marked may come open by it.
    ///
    /// ```
    /// use hitrovzen::{Bounds, Kind, Map, Mover, Plan, Planner, Position, Rect};
    ///
    /// # fn main() -> Result<(), hitrovzen::Refusal> {
    /// let plan = Plan::new(Map::open(1, 1), Rect::new(0, 0, 3, 2), Position::new(0, 0), Position::new(2, 0), Bounds::default());
    /// let mut planner = Planner::new(plan)?;
    /// let (rock, ruin) = (Rect::new(1, 1, 3, 2), Rect::new(2, 0, 3, 2));
    /// planner.cover(rock)?;
    /// planner.cover(ruin)?;
    /// assert_eq!(planner.baseline(Mover::Block), [0, 0, 1, 0, 1, 2]);
    /// planner.lift(rock)?;
    /// assert_eq!(planner.baseline(Mover::Block), [0, 0, 1, 0, 0, 1]);
    /// assert_eq!(planner.lift(rock).unwrap_err().kind(), Kind::CountOutOfRange);
    /// planner.lift(ruin)?;
    /// assert_eq!(planner.baseline(Mover::Block), [0; 6]);
    /// # Ok(())
    /// # }
    /// ```
    ///
    /// # Errors
    ///
    /// Refusals 15, for a rectangle that is empty or inverted, and 20, for a count that would pass zero. A refusal leaves the counts
    /// of both movers as they were.
    pub fn lift(&mut self, building: Rect) -> Result<(), Refusal> {
        self.change(building, Change::Lift, Change::Cover)
    }

    /// Alters the counts of both movers, or of neither. `undo` is the inverse of `make`.
    fn change(&mut self, building: Rect, make: Change, undo: Change) -> Result<(), Refusal> {
        let (window, block) = (self.plan.window, self.plan.block);
        calls::change(make, &mut self.block_base, window, block, building)
            .map_err(|refusal| refusal.of(Mover::Block))?;
        let Some(allow) = self.plan.allow else {
            return Ok(());
        };
        let made = calls::change(make, &mut self.allow_base, window, allow, building);
        let Err(refusal) = made else {
            return Ok(());
        };
        // Either call right after the other is proved to be accepted and to restore every count (docs/RULES.md 12.5).
        let undone = calls::change(undo, &mut self.block_base, window, block, building);
        undone.map_err(|_| Refusal::UNNAMED)?;
        Err(refusal.of(Mover::Allow))
    }

    /// Begins a search: nothing is evaluated yet.
    ///
    /// # Errors
    ///
    /// Refusals 10 to 12; 7 to 9 where buildings that were covered close an end or every route, to the blocked mover or else to the
    /// allowed one; 14 and 15, of which the last tells the index of the first placement that is not taken. Not 19: the steps of a
    /// planner were looked at when it was made.
    pub fn search(&self, limits: Limits) -> Result<Search<'_>, Refusal> {
        let mut record = [0; RECORD];
        let mut store = Store::new(&self.plan, limits);
        calls::begin(
            &self.asked(),
            limits,
            &mut record,
            &mut self.work(),
            &mut store,
        )?;
        Search::begun(self, limits, record, store)
    }

    /// Tells what a selection of placements comes to, and how much ground it leaves: to how many centres the blocked mover has a
    /// route from the start. A selection is at most 6 indexes of placements, strictly ascending.
    ///
    /// # Errors
    ///
    /// Refusals 10, 14, 15, and 17 for what is no selection. Not 19, as for [`Planner::search`].
    pub fn judge(&self, selection: &[u16]) -> Result<Judgement, Refusal> {
        calls::judge(&self.asked(), selection, &mut self.work())
    }

    /// The inputs of the calls that take placements.
    pub(crate) fn asked(&self) -> Asked<'_> {
        Asked {
            plan: &self.plan,
            numbers: &self.numbers,
            edges: &self.edges,
            block_base: &self.block_base,
            allow_base: &self.allow_base,
            steps: &self.steps,
        }
    }

    /// The working areas. The calls answer alike whatever they hold, so areas that a panic elsewhere left behind will do.
    pub(crate) fn work(&self) -> MutexGuard<'_, Work> {
        self.work.lock().unwrap_or_else(PoisonError::into_inner)
    }
}

#[cfg(test)]
mod tests {
    use super::*;
    use crate::values::{Map, Placement, Position, Rect};

    fn planner() -> Planner {
        let mut plan = Plan::new(
            Map::open(1, 1),
            Rect::new(0, 0, 7, 6),
            Position::new(1, 2),
            Position::new(5, 2),
            Bounds::new(1, 1, 1, 1),
        );
        plan.allow = Some(Bounds::default());
        plan.groups = vec![2];
        plan.placements = [(0, 5), (1, 6), (0, 2), (3, 6)]
            .map(|(top, bottom)| Placement::solid(0, Rect::new(3, top, 4, bottom)))
            .to_vec();
        Planner::new(plan).unwrap()
    }

    fn soil(planner: &Planner) {
        let mut work = planner.work();
        work.counts.fill(i32::MIN);
        work.map.fill(7);
        work.queue.fill(u32::MAX);
        work.predecessors.fill(3);
        work.route.fill(u32::MAX);
    }

    /// What prepare, begin, step and judge answer to this plan with this table of steps, 0 where they accept it. They are lent soiled
    /// areas and a search that has been stepped, and 19 must leave these as they were.
    fn answers(planner: &Planner, plan: &Plan, steps: &[i32]) -> [u32; 4] {
        let limits = Limits {
            states: 20,
            results: 5,
        };
        let mut record = [0; RECORD];
        let mut store = Store::new(&planner.plan, limits);
        let mut baseline = planner.block_base.clone();
        let begun = planner.asked();
        calls::begin(&begun, limits, &mut record, &mut planner.work(), &mut store).unwrap();
        calls::step(
            &begun,
            limits,
            &mut record,
            2,
            &mut planner.work(),
            &mut store,
        )
        .unwrap();
        soil(planner);
        let work = &mut *planner.work();
        let asked = Asked {
            plan,
            steps,
            ..begun
        };
        [0, 1, 2, 3].map(|call| {
            let before = format!("{record:?} {store:?} {baseline:?} {work:?}");
            let answer = match call {
                0 => calls::prepare(plan, &[], plan.block, steps, &mut baseline, work),
                1 => calls::begin(&asked, limits, &mut record, work, &mut store),
                2 => calls::step(&asked, limits, &mut record, 1, work, &mut store),
                _ => calls::judge(&asked, &[0], work).map(|_| ()),
            };
            let after = format!("{record:?} {store:?} {baseline:?} {work:?}");
            let number = answer.map_or_else(|refusal| refusal.number(), |()| 0);
            assert!(number != 19 || before == after, "19 writes nothing");
            number
        })
    }

    /// The next is 1 in prepare, 10 in the others. No plan has a table of another length, so the calls themselves are handed one.
    #[test]
    fn steps_are_looked_at_before_all_else() {
        let planner = planner();
        let mut wrong = planner.plan.clone();
        wrong.map.cells.clear();
        wrong.groups = vec![0];
        let fits = &planner.steps[..];
        let longer = [fits, &[1, 0]].concat();
        let twice = [&fits[..14], &fits[..2]].concat();
        for steps in [&[], &fits[..15], &longer[..17], &longer, &twice] {
            assert_eq!(answers(&planner, &planner.plan, steps), [19; 4]);
            assert_eq!(answers(&planner, &wrong, steps), [19; 4]);
        }
        assert_eq!(answers(&planner, &planner.plan, fits), [0; 4]);
        assert_eq!(answers(&planner, &wrong, fits), [1, 10, 10, 10]);
    }

    /// What the working areas hold before a call makes no difference, and they are zero after it.
    #[test]
    fn working_areas_may_hold_anything() {
        let (clean, soiled) = (planner(), planner());
        let mut one = clean.search(Limits::WIDEST).unwrap();
        soil(&soiled);
        let mut other = soiled.search(Limits::WIDEST).unwrap();
        loop {
            let reason = one.step(1).unwrap();
            soil(&soiled);
            assert_eq!(other.step(1), Ok(reason));
            assert!(soiled.work().counts.iter().all(|count| *count == 0));
            assert!(soiled.work().map.iter().all(|byte| *byte == 0));
            if reason != crate::Reason::Running {
                break;
            }
        }
        assert_eq!(one.layouts().len(), 3);
        let all = |search: &Search<'_>| -> Vec<(Vec<u16>, Vec<Position>)> {
            let layouts = search.layouts();
            layouts
                .map(|l| (l.indexes().to_vec(), l.route().unwrap().collect()))
                .collect()
        };
        assert_eq!(all(&one), all(&other));
        for selection in [&[][..], &[0], &[2], &[0, 1]] {
            soil(&soiled);
            assert_eq!(clean.judge(selection), soiled.judge(selection));
        }
    }
}
