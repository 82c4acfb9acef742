//! The original, driven through the judge's probe. Its visited sets have no order and none is noted.

use judge::walls::search::{WallSearch, probe};
use judge::{Baselines, Case, Mover, PixelRect, Rect, Snapshot, TerrainGrid, ground, verdict};

use crate::side::{Buffers, Judged, Outcome, Side};

pub struct Original<'a> {
    case: &'a Case,
    baselines: &'a Baselines,
    grid: TerrainGrid,
    obstacles: Vec<PixelRect>,
    /// The obstacles, and a dragged building where it is put down.
    with_building: Vec<PixelRect>,
    made: Option<Vec<bool>>,
    search: Option<WallSearch>,
    /// The case as `walk` takes it.
    deeper: Case,
    /// The selection last judged, and its verdict.
    judged: Option<(Vec<u32>, u32)>,
    ranks: Vec<Option<u64>>,
}

/// The case with the window two rows higher and the end in the last row.
fn deeper(case: &Case) -> Case {
    let bottom = case.window.bottom + 2;
    Case {
        window: Rect {
            bottom,
            ..case.window
        },
        end: (case.window.left as u32, bottom as u32 - 1),
        ..case.clone()
    }
}

impl<'a> Original<'a> {
    pub fn new(case: &'a Case, baselines: &'a Baselines) -> Self {
        Self {
            case,
            baselines,
            grid: probe::terrain(case),
            obstacles: case.obstacles.iter().copied().map(probe::rect).collect(),
            with_building: Vec::new(),
            made: None,
            search: None,
            deeper: deeper(case),
            judged: None,
            ranks: Vec::new(),
        }
    }

    fn build(&self, held: &Snapshot) -> WallSearch {
        let Baselines { block, allow } = self.baselines;
        probe::build(self.case, block, allow.as_deref(), held)
    }

    fn held(&self) -> &WallSearch {
        self.search.as_ref().expect("a search that was begun")
    }

    fn cover(&self, set: &[u32]) -> Vec<bool> {
        probe::cover(self.held(), Mover::Block, set).expect("the blocked mover")
    }

    /// Walks over all the ground that the start is joined with: looks for a route to an open row below
    /// the window, which a closed row keeps apart, and finds none.
    fn walk(&self, mut cover: Vec<bool>) {
        let width = self.case.window.width() as usize;
        cover.resize(cover.len() + width, true);
        cover.resize(cover.len() + width, false);
        let answer = probe::ends_joined(&self.deeper, &cover);
        assert_eq!(answer, Err(9), "a row that is kept apart");
    }
}

impl Side for Original<'_> {
    fn prepare(&mut self) {
        let made = probe::prepare_on(&self.grid, &self.obstacles, self.case, self.case.block);
        self.made = Some(made.expect("an accepted prepare"));
    }

    /// The looks of begin at the baselines, then the struct: `WallSearch::new` would prepare again.
    fn begin(&mut self) {
        probe::ends_joined(self.case, &self.baselines.block).expect("an accepted begin");
        if let Some(allow) = &self.baselines.allow {
            probe::ends_joined(self.case, allow).expect("an accepted begin");
        }
        self.search = Some(self.build(&Snapshot::begun(self.case.placements.len() as u32)));
    }

    fn step(&mut self, evaluations: u32) {
        let search = self.search.as_mut().expect("a search that was begun");
        search.step(evaluations);
    }

    fn is_running(&self) -> bool {
        !self.held().is_done()
    }

    fn forget(&mut self) {
        self.made = None;
        self.search = None;
    }

    fn hold(&mut self, held: &Snapshot) {
        self.search = Some(self.build(held));
    }

    fn lend(&mut self, _: Buffers) {}

    fn stand(&mut self, _: Rect, to: Rect) {
        self.made = None;
        self.with_building = self.obstacles.clone();
        self.with_building.push(probe::rect(to));
    }

    fn drag(&mut self, _: Rect, _: Rect) {
        let (case, obstacles) = (self.case, &self.with_building);
        let made = probe::prepare_on(&self.grid, obstacles, case, case.block);
        self.made = Some(made.expect("an accepted prepare"));
    }

    /// The verdict, put together from the original's functions, and a walk over the ground by its search for
    /// a route. How many centres these are it does not tell.
    fn judge(&mut self, selection: &[u16]) {
        let set: Vec<u32> = selection.iter().map(|&member| u32::from(member)).collect();
        let cover = self.cover(&set);
        let number = verdict::number(self.case, self.held(), &set, &cover);
        self.walk(cover);
        self.judged = Some((set, number));
    }

    fn rank(&mut self, radius: u32) {
        let entrance = [self.case.start, self.case.end];
        self.ranks.clear();
        self.ranks.extend(self.case.placements.iter().map(|place| {
            let rank = probe::distance_rank(place.footprint, entrance, radius);
            rank.map(|whole| whole as u64)
        }));
    }

    fn baseline(&self) -> Vec<bool> {
        self.made.clone().expect("a baseline that was prepared")
    }

    /// With the ground flooded by the judge.
    fn judged(&self) -> Judged {
        let (set, verdict) = self.judged.as_ref().expect("a judged selection");
        Judged {
            verdict: *verdict,
            ground: ground::reached(&self.cover(set), self.case.window, self.case.start),
        }
    }

    fn ranks(&self) -> &[Option<u64>] {
        &self.ranks
    }

    fn outcome(&self) -> Outcome {
        Outcome::of(&probe::read(self.held(), self.case, Vec::new()))
    }

    fn visited(&self) -> Vec<Vec<usize>> {
        probe::visited(self.held()).iter().cloned().collect()
    }
}
