//! The calls: prepare, begin and step of the original search, and what it holds after each.

use std::collections::HashSet;

use crate::case::{Case, Mover, Snapshot};
use crate::domain;
use crate::walls::search::{WallSearch, probe};

/// The baseline of one mover, true where it is kept off; or the refusal. 1 to 5 are the
/// checks of [`crate::domain`], 7 to 9 come from the original `prepare_mover`.
pub fn prepare(case: &Case, mover: Mover) -> Result<Vec<bool>, u32> {
    let bounds = case.bounds(mover).expect("a mover that the case has");
    domain::prepare(case, bounds)?;
    probe::prepare(case, bounds)
}

/// The baselines of the blocked mover and of the allowed one, if there is one.
#[derive(Debug, Clone, Eq, PartialEq)]
pub struct Baselines {
    pub block: Vec<bool>,
    pub allow: Option<Vec<bool>>,
}

impl Baselines {
    /// Prepares the blocked mover, then the allowed one.
    pub fn prepare(case: &Case) -> Result<Self, u32> {
        let block = prepare(case, Mover::Block)?;
        let allow = case
            .allow
            .map(|_| prepare(case, Mover::Allow))
            .transpose()?;
        Ok(Self { block, allow })
    }
}

/// An original search, with the order in which its sets were evaluated.
///
/// The original keeps its visited sets without order. A second search of the same inputs is
/// therefore stepped one evaluation at a time up to the first one's count, and each step's set is
/// noted. Every note is checked: the set is in the original's visited set and was not noted before,
/// and both have equally many, so the notes are that set, in order of entry.
#[derive(Debug)]
pub struct Search {
    case: Case,
    judged: WallSearch,
    by_ones: WallSearch,
    noted: HashSet<Vec<usize>>,
    visited: Vec<Vec<u32>>,
}

impl Search {
    /// Prepares both movers and begins.
    pub fn begin(case: &Case) -> Result<Self, u32> {
        Self::begin_on(case, &Baselines::prepare(case)?)
    }

    /// Begins over the given baselines. 7 to 9 come from the original `route`.
    pub fn begin_on(case: &Case, baselines: &Baselines) -> Result<Self, u32> {
        domain::begin_before_routes(case)?;
        probe::ends_joined(case, &baselines.block)?;
        if let Some(allow) = &baselines.allow {
            probe::ends_joined(case, allow)?;
        }
        domain::begin_after_routes(case)?;
        let held = Snapshot::begun(case.placements.len() as u32);
        Ok(Self::holding(case, baselines, &held))
    }

    /// A search that holds what `held` says: the state in which an accepted step finds it. Made by
    /// step's checks, which look for no route.
    pub fn set_on(case: &Case, baselines: &Baselines, held: &Snapshot) -> Result<Self, u32> {
        domain::begin_before_routes(case)?;
        domain::begin_after_routes(case)?;
        domain::record(case, held)?;
        Ok(Self::holding(case, baselines, held))
    }

    fn holding(case: &Case, baselines: &Baselines, held: &Snapshot) -> Self {
        let Baselines { block, allow } = baselines;
        assert_eq!(block.len(), case.centres(), "one entry for each centre");
        assert_eq!(
            allow.is_some(),
            case.allow.is_some(),
            "a baseline for each mover"
        );
        let judged = probe::build(case, block, allow.as_deref(), held);
        let by_ones = probe::build(case, block, allow.as_deref(), held);
        Self {
            case: case.clone(),
            noted: probe::visited(&judged).clone(),
            judged,
            by_ones,
            visited: held.visited.clone(),
        }
    }

    /// The original `step`.
    pub fn step(&mut self, evaluations: u32) {
        self.judged.step(evaluations);
        let reached = self.judged.result().explored_states;
        let mut count = self.by_ones.result().explored_states;
        while count < reached {
            self.by_ones.step(1);
            count += 1;
            assert_eq!(
                self.by_ones.result().explored_states,
                count,
                "one evaluation"
            );
            let set = probe::last_evaluated(&self.by_ones);
            assert!(
                probe::visited(&self.judged).contains(&set),
                "a set not visited"
            );
            assert!(self.noted.insert(set.clone()), "a set noted twice");
            self.visited
                .push(set.iter().map(|&member| member as u32).collect());
        }
        assert_eq!(
            self.noted.len(),
            probe::visited(&self.judged).len(),
            "sets not noted"
        );
    }

    pub fn snapshot(&self) -> Snapshot {
        probe::read(&self.judged, &self.case, self.visited.clone())
    }

    pub fn case(&self) -> &Case {
        &self.case
    }

    /// The original itself, for the functions of `probe`.
    pub fn original(&self) -> &WallSearch {
        &self.judged
    }
}
