//! The ground that can be reached from a centre, flooded by the words of docs/RULES.md, 2.2 and 2.3:
//! no code of the original's, and depth first where its search for a route goes breadth first.

use crate::case::Rect;

/// A pixel of the window, or one beside it.
pub(crate) type Pixel = (i64, i64);

/// A window's centres, row by row, true where closed.
pub(crate) struct Ground<'a> {
    pub(crate) window: Rect,
    pub(crate) closed: &'a [bool],
}

impl Ground<'_> {
    pub(crate) fn number(&self, (x, y): Pixel) -> usize {
        let (left, top) = (i64::from(self.window.left), i64::from(self.window.top));
        ((y - top) * self.window.width() + x - left) as usize
    }

    pub(crate) fn is_open(&self, (x, y): Pixel) -> bool {
        let across = i64::from(self.window.left)..i64::from(self.window.right);
        let down = i64::from(self.window.top)..i64::from(self.window.bottom);
        across.contains(&x) && down.contains(&y) && !self.closed[self.number((x, y))]
    }

    /// Where a step may lead from an open centre: there and at both sides it is open. The sides of a
    /// straight step are its two ends.
    fn steps(&self, (x, y): Pixel) -> impl Iterator<Item = Pixel> {
        let around =
            (x - 1..=x + 1).flat_map(move |to_x| (y - 1..=y + 1).map(move |to_y| (to_x, to_y)));
        around.filter(move |&to| {
            [to, (to.0, y), (x, to.1)]
                .iter()
                .all(|&at| self.is_open(at))
        })
    }
}

/// How many centres are joined with the one at a pixel, itself counted; 0 where it is closed.
pub fn reached(closed: &[bool], window: Rect, from: (u32, u32)) -> u32 {
    let ground = Ground { window, closed };
    let from = (i64::from(from.0), i64::from(from.1));
    if !ground.is_open(from) {
        return 0;
    }
    let mut found = vec![false; closed.len()];
    found[ground.number(from)] = true;
    let mut waiting = vec![from];
    while let Some(at) = waiting.pop() {
        let new = |&to: &Pixel| !std::mem::replace(&mut found[ground.number(to)], true);
        waiting.extend(ground.steps(at).filter(new));
    }
    found.iter().filter(|&&is_found| is_found).count() as u32
}
