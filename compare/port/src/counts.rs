//! What a run reached, and what it is held to.

use std::collections::BTreeMap;
use std::fmt;

use judge::Snapshot;
use judge::verdict::NAMES as VERDICTS;

use crate::both::Held;
use crate::rules::{Ground, Judged};

pub const CALLS: [&str; 7] = ["prepare", "begin", "step", "read", "judge", "cover", "lift"];
pub const PREPARE: usize = 0;
pub const BEGIN: usize = 1;
pub const STEP: usize = 2;
pub const READ: usize = 3;
pub const JUDGE: usize = 4;
pub const COVER: usize = 5;
pub const LIFT: usize = 6;

/// The calls that take no window, numbered after those.
pub const WITHOUT_WINDOW: [&str; 2] = ["rank", "closer"];
pub const RANK: usize = 7;
pub const CLOSER: usize = 8;

/// By call and answer, 0 for accepted.
pub type Answers = [[u64; 21]; 7];

/// The alteration of a world that is no fault: a baseline with counts above 1.
pub const COUNTS_ABOVE_ONE: &str = "counts above 1";

/// Touches by a side centre are counted for windows of so many centres.
const SMALL: usize = 4_096;

/// The refusals that each call can give.
const NUMBERS: [&[usize]; 7] = [
    &[1, 2, 3, 4, 5, 6, 7, 8, 9],
    &[2, 3, 4, 6, 7, 8, 9, 10, 11, 12, 14, 15],
    &[2, 3, 4, 6, 10, 11, 12, 14, 15, 16],
    &[2, 3, 4, 6, 10, 11, 12, 14, 15, 16, 17],
    &[2, 3, 4, 6, 10, 14, 15, 17],
    &[2, 4, 6, 15, 20],
    &[2, 4, 6, 15, 20],
];

/// A kind of ground left, the verdicts that can have it, by their places in `VERDICTS`, and what makes it.
type Kind = (&'static str, &'static [usize], fn(&Ground) -> bool);

/// Where a wrong count shows: one from a closed start, none where the end is closed, one of all open centres, one from the end, and one
/// that stops at the end.
const GROUNDS: [Kind; 6] = [
    ("none, the baseline closes the start", &[0, 1, 2], |ground| ground.left == 0 && ground.start_shut),
    ("none, a member closes the start", &[0, 1, 2], |ground| ground.left == 0 && !ground.start_shut),
    ("some, and the end is closed", &[0, 1, 2], |ground| ground.left > 0 && ground.from_end == 0),
    ("less than all open centres", &[0, 1, 2, 3, 4, 5, 6], |ground| ground.left < ground.open),
    ("less than from the end", &[0, 1, 2, 4, 5, 6], |ground| ground.left < ground.from_end),
    ("some reached past the end alone", &[0, 1, 3], |ground| ground.left > ground.without_end + 1),
];

#[derive(Debug, Default, Clone)]
pub struct Counts {
    /// Searches that a begin started, or that a record was set for.
    pub begun: u64,
    pub set: u64,
    /// Random searches that prepare refused.
    pub refused: u64,
    pub evaluations: u64,
    pub listing: u64,
    /// Searches that list a wall of one to six members, and such walls.
    pub listing_members: [u64; 6],
    pub walls: [u64; 6],
    pub keeping_routes: u64,
    pub routes: u64,
    pub points: u64,
    pub side_touches: u64,
    /// Searches by the reason after the last portion.
    pub reasons: [u64; 4],
    pub verdicts: [u64; 7],
    /// Accepted judgings by the kind of ground left and the verdict.
    pub grounds: [[u64; 7]; GROUNDS.len()],
    pub answers: Answers,
    /// Calls whose inputs have two faults or more.
    pub double_faults: u64,
    pub dirty_calls: u64,
    /// By the one fault of a world: worlds, and refusals of each call.
    pub faults: BTreeMap<&'static str, (u64, [u64; 7])>,
}

impl Counts {
    pub fn answer(&mut self, call: usize, number: u32) {
        self.answers[call][number as usize] += 1;
    }

    /// A judging was answered.
    pub fn judged(&mut self, judged: Result<Judged, u32>) {
        self.answer(JUDGE, judged.err().unwrap_or(0));
        let Ok(Judged { verdict, ground }) = judged else {
            return;
        };
        let verdict = verdict as usize - 1;
        self.verdicts[verdict] += 1;
        for (found, (_, _, is)) in self.grounds.iter_mut().zip(GROUNDS) {
            found[verdict] += u64::from(is(&ground));
        }
    }

    /// A world with one fault was called; `before` is what was answered before it.
    pub fn fault(&mut self, name: &'static str, before: &Answers) {
        let (worlds, refused) = self.faults.entry(name).or_default();
        *worlds += 1;
        for call in 0..CALLS.len() {
            refused[call] += u64::from(self.answers[call][0] == before[call][0]);
        }
    }

    /// A search after its last portion.
    pub fn search(&mut self, search: &Held, last: &Snapshot) {
        self.begun += 1;
        self.evaluations += u64::from(last.evaluations);
        self.reasons[last.reason as usize - 1] += 1;
        self.listing += u64::from(!last.layouts.is_empty());
        for members in 1..=6 {
            let walls = last.layouts.iter().filter(|layout| layout.members.len() == members).count() as u64;
            self.walls[members - 1] += walls;
            self.listing_members[members - 1] += u64::from(walls > 0);
        }
        let kept = last.layouts.iter().filter(|layout| !layout.route.is_empty()).count() as u64;
        self.routes += kept;
        self.keeping_routes += u64::from(kept > 0);
        self.points += last.layouts.iter().map(|layout| layout.route.len() as u64).sum::<u64>();
        let small = search.case().centres() <= SMALL;
        self.side_touches += u64::from(small && last.visited.iter().any(|set| search.touching_by_side(set) > 0));
    }

    /// The calls of searches whose walls and reasons are printed by themselves and not held to anything here.
    pub fn add_calls(&mut self, other: &Self) {
        for (answers, more) in self.answers.iter_mut().flatten().zip(other.answers.iter().flatten()) {
            *answers += more;
        }
        for (verdicts, more) in self.verdicts.iter_mut().zip(other.verdicts) {
            *verdicts += more;
        }
        for (grounds, more) in self.grounds.iter_mut().flatten().zip(other.grounds.iter().flatten()) {
            *grounds += more;
        }
        self.dirty_calls += other.dirty_calls;
    }

    /// What the small searches and the refusals fall short of; `whole` is the number of searches asked for.
    pub fn short_of(&self, whole: u64) -> Vec<String> {
        let mut short = Vec::new();
        let mut hold = |what: String, found: u64, least: u64| {
            if found < least {
                short.push(format!("{what}: {found}, held to {least}"));
            }
        };
        hold("searches begun".into(), self.begun, whole);
        hold("searches that list a wall".into(), self.listing, self.begun.div_ceil(5));
        let thousand = whole.min(1_000);
        for members in [2, 4, 6] {
            hold(format!("searches with a wall of {members} members"), self.listing_members[members - 1], thousand);
        }
        hold("searches with kept routes".into(), self.keeping_routes, thousand);
        hold("searches with a touch by a side centre only".into(), self.side_touches, thousand);
        for (name, found) in ["Running", "Exhausted", "StateLimit", "ResultLimit"].iter().zip(self.reasons) {
            hold(format!("searches left {name}"), found, thousand);
        }
        for (name, found) in VERDICTS.iter().zip(self.verdicts) {
            hold(format!("verdicts {name}"), found, thousand);
        }
        for ((kind, verdicts, _), found) in GROUNDS.iter().zip(self.grounds) {
            for &verdict in *verdicts {
                hold(format!("{} with ground: {kind}", VERDICTS[verdict]), found[verdict], 200);
            }
        }
        for (call, numbers) in NUMBERS.iter().enumerate() {
            hold(format!("{} accepted", CALLS[call]), self.answers[call][0], thousand);
            for &number in *numbers {
                hold(format!("{} refused with {number}", CALLS[call]), self.answers[call][number], 200);
            }
        }
        for (name, (worlds, refused)) in &self.faults {
            if *name == COUNTS_ABOVE_ONE {
                hold(format!("steps over {name}"), worlds - refused[STEP], *worlds);
                hold(format!("judgings over {name}"), worlds - refused[JUDGE], *worlds);
                continue;
            }
            let most = *refused.iter().max().expect("seven calls");
            hold(format!("refusals of the fault {name}"), most, worlds.min(&50) / 2);
        }
        short
    }
}

impl fmt::Display for Counts {
    fn fmt(&self, f: &mut fmt::Formatter<'_>) -> fmt::Result {
        let Self { begun, set, refused, evaluations, listing, .. } = self;
        writeln!(f, "searches begun {begun}, records set {set}, searches refused by prepare {refused}; evaluations {evaluations}")?;
        writeln!(f, "searches that list a wall {listing}; by members 1 to 6: {:?}; walls {:?}", self.listing_members, self.walls)?;
        writeln!(f, "searches with kept routes {}: {} routes of {} points", self.keeping_routes, self.routes, self.points)?;
        writeln!(f, "searches with a touch by a side centre only {}", self.side_touches)?;
        let [running, exhausted, states, results] = self.reasons;
        writeln!(f, "last reason: Running {running}, Exhausted {exhausted}, StateLimit {states}, ResultLimit {results}")?;
        write!(f, "verdicts:")?;
        for (name, found) in VERDICTS.iter().zip(self.verdicts) {
            write!(f, " {name} {found}")?;
        }
        writeln!(f)?;
        writeln!(f, "judgings by the ground left, and how many of them have each verdict, in the same order:")?;
        for ((kind, _, _), found) in GROUNDS.iter().zip(self.grounds) {
            writeln!(f, "  {kind}: {}, {found:?}", found.iter().sum::<u64>())?;
        }
        writeln!(f, "calls on dirty areas {}, worlds with two faults {}", self.dirty_calls, self.double_faults)?;
        for (call, answers) in CALLS.iter().zip(&self.answers) {
            write!(f, "{call}: accepted {}", answers[0])?;
            for (number, found) in answers.iter().enumerate().skip(1).filter(|(_, found)| **found > 0) {
                write!(f, ", {number}: {found}")?;
            }
            writeln!(f)?;
        }
        writeln!(f, "worlds with one fault, and how many of them prepare, begin, step, read, judge, cover and lift refused:")?;
        for (name, (worlds, refused)) in &self.faults {
            writeln!(f, "  {name}: {worlds}, {refused:?}")?;
        }
        Ok(())
    }
}
