//! The port, driven through the C functions of its static library, with every area that they ask for.

use hitrovzen::raw;
use judge::{Baselines, Bounds, Case, Layout, Reason, Rect, Snapshot};

use crate::side::{Buffers, Judged, Outcome, Side};

const RECORD: usize = 50;
const ROUTES: usize = 6;
const LENGTHS: usize = 38;
const NEXTS: usize = 44;
const ROW: usize = 7;
const MOST_POINTS: usize = 1_000_000;

pub struct Port<'a> {
    case: &'a Case,
    obstacles: Vec<i32>,
    numbers: Vec<u32>,
    edges: Vec<i32>,
    block_base: Vec<u8>,
    allow_base: Vec<u8>,
    steps: &'static [i32],
    baseline: Vec<u8>,
    rec: [u32; RECORD],
    counts: Vec<i32>,
    map: Vec<u8>,
    queue: Vec<u32>,
    predecessors: Vec<u32>,
    route: Vec<u32>,
    lists: Vec<u16>,
    visited: Vec<u16>,
    layouts: Vec<u16>,
    points: Vec<u32>,
    /// Where a dragged building stands, once `baseline` holds the counts of a drag.
    standing: Option<Rect>,
    judged: Judged,
    ranks: Vec<Option<u64>>,
}

/// Cover and lift: window, mover, rectangle, baseline.
type Alter = unsafe extern "C" fn(
    i32,
    i32,
    i32,
    i32,
    u32,
    u32,
    u32,
    u32,
    i32,
    i32,
    i32,
    i32,
    *mut u8,
    usize,
) -> u32;

fn edges_of(rect: Rect) -> [i32; 4] {
    [rect.left, rect.top, rect.right, rect.bottom]
}

fn bytes_of(baseline: &[bool]) -> Vec<u8> {
    baseline.iter().map(|&off| u8::from(off)).collect()
}

impl<'a> Port<'a> {
    pub fn new(case: &'a Case, baselines: &Baselines, steps: &'static [i32]) -> Self {
        let centres = case.centres();
        let corners = (case.window.width() as usize + 1) * (case.window.height() as usize + 1);
        let places = &case.placements;
        let points = match case.allow {
            Some(_) => 2 * MOST_POINTS.min(case.results as usize * centres),
            None => 0,
        };
        Self {
            case,
            obstacles: case.obstacles.iter().flat_map(|&r| edges_of(r)).collect(),
            numbers: places
                .iter()
                .flat_map(|p| [p.spec, p.group, p.tile.0, p.tile.1])
                .collect(),
            edges: places
                .iter()
                .flat_map(|p| [edges_of(p.footprint), edges_of(p.collision)])
                .flatten()
                .collect(),
            block_base: bytes_of(&baselines.block),
            allow_base: bytes_of(baselines.allow.as_deref().unwrap_or(&[])),
            steps,
            baseline: vec![0; centres],
            rec: [0; RECORD],
            counts: vec![0; corners],
            map: vec![0; centres],
            queue: vec![0; centres],
            predecessors: vec![0; centres],
            route: vec![0; centres],
            lists: vec![0; 6 * places.len()],
            visited: vec![0; ROW * case.states as usize],
            layouts: vec![0; ROW * case.results as usize],
            points: vec![0; points],
            standing: None,
            judged: Judged {
                verdict: 0,
                ground: 0,
            },
            ranks: Vec::new(),
        }
    }

    /// Covers the baseline with a building, or lifts it off.
    fn alter(&mut self, call: Alter, rect: Rect) {
        let Case { window, block, .. } = self.case;
        // As in prepare.
        let answer = unsafe {
            call(
                window.left,
                window.top,
                window.right,
                window.bottom,
                block.left,
                block.top,
                block.right,
                block.bottom,
                rect.left,
                rect.top,
                rect.right,
                rect.bottom,
                self.baseline.as_mut_ptr(),
                self.baseline.len(),
            )
        };
        assert_eq!(answer, 0, "an accepted cover or lift");
    }

    /// Given or not, then the bounds of the allowed mover.
    fn allow(&self) -> (u32, Bounds) {
        match self.case.allow {
            Some(bounds) => (1, bounds),
            None => (0, Bounds::new(0, 0, 0, 0)),
        }
    }

    fn put_row(area: &mut [u16], row: usize, members: &[u32]) {
        area[ROW * row] = members.len() as u16;
        for (i, &member) in members.iter().enumerate() {
            area[ROW * row + 1 + i] = member as u16;
        }
    }

    fn rows(area: &[u16], count: usize) -> impl Iterator<Item = &[u16]> {
        area.chunks(ROW)
            .take(count)
            .map(|row| &row[1..1 + usize::from(row[0])])
    }
}

impl Side for Port<'_> {
    fn prepare(&mut self) {
        let Case {
            map,
            cells,
            window,
            start,
            end,
            block,
            ..
        } = self.case;
        // Each area is a vector of its own, and its own length goes with it.
        let answer = unsafe {
            raw::hitrovzen_prepare(
                map.0,
                map.1,
                cells.as_ptr(),
                cells.len(),
                self.obstacles.as_ptr(),
                self.obstacles.len(),
                window.left,
                window.top,
                window.right,
                window.bottom,
                start.0,
                start.1,
                end.0,
                end.1,
                block.left,
                block.top,
                block.right,
                block.bottom,
                self.steps.as_ptr(),
                self.steps.len(),
                self.baseline.as_mut_ptr(),
                self.baseline.len(),
                self.counts.as_mut_ptr(),
                self.counts.len(),
                self.map.as_mut_ptr(),
                self.map.len(),
                self.queue.as_mut_ptr(),
                self.queue.len(),
                self.predecessors.as_mut_ptr(),
                self.predecessors.len(),
                self.route.as_mut_ptr(),
                self.route.len(),
            )
        };
        assert_eq!(answer, 0, "an accepted prepare");
    }

    fn begin(&mut self) {
        let Case {
            window,
            start,
            end,
            block,
            groups,
            ..
        } = self.case;
        let (given, allow) = self.allow();
        let mut index = 0;
        // As in prepare.
        let answer = unsafe {
            raw::hitrovzen_begin(
                window.left,
                window.top,
                window.right,
                window.bottom,
                start.0,
                start.1,
                end.0,
                end.1,
                block.left,
                block.top,
                block.right,
                block.bottom,
                given,
                allow.left,
                allow.top,
                allow.right,
                allow.bottom,
                self.case.states,
                self.case.results,
                groups.as_ptr(),
                groups.len(),
                self.numbers.as_ptr(),
                self.numbers.len(),
                self.edges.as_ptr(),
                self.edges.len(),
                self.block_base.as_ptr(),
                self.block_base.len(),
                self.allow_base.as_ptr(),
                self.allow_base.len(),
                self.steps.as_ptr(),
                self.steps.len(),
                self.rec.as_mut_ptr(),
                self.rec.len(),
                self.counts.as_mut_ptr(),
                self.counts.len(),
                self.map.as_mut_ptr(),
                self.map.len(),
                self.queue.as_mut_ptr(),
                self.queue.len(),
                self.predecessors.as_mut_ptr(),
                self.predecessors.len(),
                self.route.as_mut_ptr(),
                self.route.len(),
                self.lists.as_mut_ptr(),
                self.lists.len(),
                self.visited.as_mut_ptr(),
                self.visited.len(),
                self.layouts.as_mut_ptr(),
                self.layouts.len(),
                self.points.as_mut_ptr(),
                self.points.len(),
                &mut index,
            )
        };
        assert_eq!(answer, 0, "an accepted begin");
    }

    fn step(&mut self, evaluations: u32) {
        let Case {
            window,
            start,
            end,
            block,
            groups,
            ..
        } = self.case;
        let (given, allow) = self.allow();
        let mut index = 0;
        // As in prepare.
        let answer = unsafe {
            raw::hitrovzen_step(
                window.left,
                window.top,
                window.right,
                window.bottom,
                start.0,
                start.1,
                end.0,
                end.1,
                block.left,
                block.top,
                block.right,
                block.bottom,
                given,
                allow.left,
                allow.top,
                allow.right,
                allow.bottom,
                self.case.states,
                self.case.results,
                groups.as_ptr(),
                groups.len(),
                self.numbers.as_ptr(),
                self.numbers.len(),
                self.edges.as_ptr(),
                self.edges.len(),
                self.block_base.as_ptr(),
                self.block_base.len(),
                self.allow_base.as_ptr(),
                self.allow_base.len(),
                self.steps.as_ptr(),
                self.steps.len(),
                self.rec.as_mut_ptr(),
                self.rec.len(),
                evaluations,
                self.counts.as_mut_ptr(),
                self.counts.len(),
                self.map.as_mut_ptr(),
                self.map.len(),
                self.queue.as_mut_ptr(),
                self.queue.len(),
                self.predecessors.as_mut_ptr(),
                self.predecessors.len(),
                self.route.as_mut_ptr(),
                self.route.len(),
                self.lists.as_mut_ptr(),
                self.lists.len(),
                self.visited.as_mut_ptr(),
                self.visited.len(),
                self.layouts.as_mut_ptr(),
                self.layouts.len(),
                self.points.as_mut_ptr(),
                self.points.len(),
                &mut index,
            )
        };
        assert_eq!(answer, 0, "an accepted step");
    }

    fn is_running(&self) -> bool {
        self.rec[0] == 1
    }

    fn forget(&mut self) {}

    fn hold(&mut self, held: &Snapshot) {
        assert!(held.layouts.is_empty(), "the driver sets no layouts");
        self.begin();
        self.rec[0] = held.reason as u32;
        self.rec[1] = held.evaluations;
        self.rec[4] = held.lists.len() as u32;
        self.rec[5] = u32::from(held.pending.is_some());
        let places = self.case.placements.len();
        for (k, list) in held.lists.iter().enumerate() {
            self.rec[LENGTHS + k] = list.entries.len() as u32;
            self.rec[NEXTS + k] = list.next;
            for (i, &entry) in list.entries.iter().enumerate() {
                self.lists[k * places + i] = entry as u16;
            }
        }
        for (k, set) in held.visited.iter().enumerate() {
            Self::put_row(&mut self.visited, k, set);
        }
    }

    fn lend(&mut self, buffers: Buffers) {
        let byte: u8 = match buffers {
            Buffers::AsLeft => return,
            Buffers::Cleared => 0,
            Buffers::Rubbish => 0xa5,
        };
        let wide = u32::from_ne_bytes([byte; 4]);
        self.baseline.fill(byte);
        self.counts.fill(wide as i32);
        self.map.fill(byte);
        self.queue.fill(wide);
        self.predecessors.fill(wide);
        self.route.fill(wide);
    }

    /// The first time over the prepared ground; later the building is dragged back.
    fn stand(&mut self, from: Rect, _: Rect) {
        match self.standing.replace(from) {
            Some(at) => self.alter(raw::hitrovzen_lift, at),
            None => self.baseline.copy_from_slice(&self.block_base),
        }
        self.alter(raw::hitrovzen_cover, from);
    }

    fn drag(&mut self, from: Rect, to: Rect) {
        self.alter(raw::hitrovzen_lift, from);
        self.alter(raw::hitrovzen_cover, to);
        self.standing = Some(to);
    }

    fn judge(&mut self, selection: &[u16]) {
        let Case {
            window,
            start,
            end,
            block,
            groups,
            ..
        } = self.case;
        let (given, allow) = self.allow();
        let mut index = 0;
        // As in prepare.
        let answer = unsafe {
            raw::hitrovzen_judge(
                window.left,
                window.top,
                window.right,
                window.bottom,
                start.0,
                start.1,
                end.0,
                end.1,
                block.left,
                block.top,
                block.right,
                block.bottom,
                given,
                allow.left,
                allow.top,
                allow.right,
                allow.bottom,
                groups.as_ptr(),
                groups.len(),
                self.numbers.as_ptr(),
                self.numbers.len(),
                self.edges.as_ptr(),
                self.edges.len(),
                self.block_base.as_ptr(),
                self.block_base.len(),
                self.allow_base.as_ptr(),
                self.allow_base.len(),
                self.steps.as_ptr(),
                self.steps.len(),
                selection.as_ptr(),
                selection.len(),
                self.counts.as_mut_ptr(),
                self.counts.len(),
                self.map.as_mut_ptr(),
                self.map.len(),
                self.queue.as_mut_ptr(),
                self.queue.len(),
                self.predecessors.as_mut_ptr(),
                self.predecessors.len(),
                self.route.as_mut_ptr(),
                self.route.len(),
                &mut index,
                &mut self.judged.verdict,
                &mut self.judged.ground,
            )
        };
        assert_eq!(answer, 0, "an accepted judging");
    }

    fn rank(&mut self, radius: u32) {
        let Case {
            map, start, end, ..
        } = self.case;
        self.ranks.clear();
        self.ranks.extend(self.case.placements.iter().map(|place| {
            let footprint = place.footprint;
            let (mut quotient, mut remainder, mut divisor) = (0, 0, 0);
            // The three pointers are to numbers of their own.
            let answer = unsafe {
                raw::hitrovzen_rank(
                    map.0,
                    map.1,
                    start.0,
                    start.1,
                    end.0,
                    end.1,
                    radius,
                    footprint.left,
                    footprint.top,
                    footprint.right,
                    footprint.bottom,
                    &mut quotient,
                    &mut remainder,
                    &mut divisor,
                )
            };
            assert_eq!(answer, 0, "an accepted footprint");
            (divisor != 0).then_some(quotient)
        }));
    }

    fn baseline(&self) -> Vec<bool> {
        self.baseline.iter().map(|&count| count != 0).collect()
    }

    fn judged(&self) -> Judged {
        self.judged
    }

    fn ranks(&self) -> &[Option<u64>] {
        &self.ranks
    }

    fn outcome(&self) -> Outcome {
        let rec = &self.rec;
        let mut kept = self.points.chunks(2).map(|point| (point[0], point[1]));
        let layouts = Self::rows(&self.layouts, rec[3] as usize)
            .enumerate()
            .map(|(k, row)| Layout {
                members: row.iter().map(|&member| u32::from(member)).collect(),
                route: kept.by_ref().take(rec[ROUTES + k] as usize).collect(),
            });
        Outcome {
            reason: match rec[0] {
                1 => Reason::Running,
                2 => Reason::Exhausted,
                3 => Reason::StateLimit,
                4 => Reason::ResultLimit,
                other => panic!("{other} is no reason"),
            },
            evaluations: rec[1],
            layouts: layouts.collect(),
        }
    }

    fn visited(&self) -> Vec<Vec<usize>> {
        Self::rows(&self.visited, self.rec[1] as usize)
            .map(|row| row.iter().map(|&member| usize::from(member)).collect())
            .collect()
    }
}
