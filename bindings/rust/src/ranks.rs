//! How far footprints lie from an entrance.

use std::cmp::Ordering;

use crate::{
    calls,
    refusal::Refusal,
    values::{Rect, Site},
};

/// The squared distance of a footprint from an entrance, in pixels: quotient + remainder / divisor. Made by [`rank`].
///
/// The lesser of two ranks is the closer one. Footprints at the same whole distance are told apart by their remainders, each over its
/// divisor. Ranks with equal fractions are equal, also where their divisors differ; there is no `Hash`, which would have to agree
/// with that.
///
/// ```
/// use hitrovzen::{rank, Position, Rect, Site};
///
/// # fn main() -> Result<(), hitrovzen::Refusal> {
/// let site = Site::new(Position::new(1, 1), Position::new(3, 4), 2);
/// let between = rank(1, 1, site, Rect::new(3, 1, 4, 6))?.unwrap();
/// let beside = rank(1, 1, site, Rect::new(3, 3, 4, 6))?.unwrap();
///
/// // 0 + 25/52 is less than 0 + 2/4
/// assert_eq!((between.quotient(), between.remainder(), between.divisor()), (0, 25, 52));
/// assert_eq!((beside.quotient(), beside.remainder(), beside.divisor()), (0, 2, 4));
/// assert!(between < beside);
/// # Ok(())
/// # }
/// ```
#[derive(Clone, Copy, Debug)]
pub struct Rank {
    quotient: u64,
    remainder: u64,
    divisor: u64,
}

impl Rank {
    /// The squared distance without its fraction.
    pub fn quotient(&self) -> u64 {
        self.quotient
    }

    /// What is left over, below the divisor.
    pub fn remainder(&self) -> u64 {
        self.remainder
    }

    /// 4 where the nearest point is an end of the entrance, otherwise 4 times the squared length of the entrance.
    pub fn divisor(&self) -> u64 {
        self.divisor
    }

    fn numbers(&self) -> [u64; 3] {
        [self.quotient, self.remainder, self.divisor]
    }
}

impl Ord for Rank {
    fn cmp(&self, other: &Self) -> Ordering {
        let (a, b) = (self.numbers(), other.numbers());
        calls::closer(b, a).cmp(&calls::closer(a, b))
    }
}

impl PartialOrd for Rank {
    fn partial_cmp(&self, other: &Self) -> Option<Ordering> {
        Some(self.cmp(other))
    }
}

impl PartialEq for Rank {
    fn eq(&self, other: &Self) -> bool {
        self.cmp(other) == Ordering::Equal
    }
}

impl Eq for Rank {}

/// Tells how far a footprint lies from the entrance of a site: the squared distance from the footprint's centre to the nearest point
/// of the entrance. There is none where that point is farther away than the site's radius; one exactly as far has a rank.
///
/// The map is `across` by `down` walk cells, as [`Map::across`](crate::Map::across) and [`Map::down`](crate::Map::down) tell.
///
/// # Errors
///
/// Refusals 1, for a map that is not 1 to 1,024 cells each way; then 22, for a radius above 1,024, an entrance point with x above the
/// map's width or y above its height in pixels, or two equal points; then 15, for a footprint that is empty or not inside the map. No
/// index goes with that 15.
///
/// # Examples
///
/// Footprints sorted, the nearest first. `None` is less than any rank, so those beyond the radius are taken out before:
///
/// ```
/// use hitrovzen::{rank, Position, Rect, Refusal, Site};
///
/// # fn main() -> Result<(), Refusal> {
/// // a map of 64 by 64 pixels, and an entrance straight across it
/// let site = Site::new(Position::new(16, 32), Position::new(48, 32), 20);
/// let footprints = [(40, 40), (0, 24), (32, 0), (20, 24)].map(|(x, y)| Rect::new(x, y, x + 16, y + 16));
/// let ranked: Result<Vec<_>, Refusal> = footprints
///     .into_iter()
///     .map(|footprint| Ok((rank(8, 8, site, footprint)?, footprint)))
///     .collect();
/// let mut near: Vec<_> = ranked?.into_iter().filter_map(|(rank, footprint)| Some((rank?, footprint))).collect();
/// near.sort_by_key(|(rank, _)| *rank);
/// let lefts: Vec<i32> = near.iter().map(|(_, footprint)| footprint.left).collect();
/// assert_eq!(lefts, [20, 0, 40]);
/// # Ok(())
/// # }
/// ```
pub fn rank(across: u32, down: u32, site: Site, footprint: Rect) -> Result<Option<Rank>, Refusal> {
    let [quotient, remainder, divisor] = calls::rank(across, down, site, footprint)?;
    // no rank has the divisor 0
    Ok((divisor != 0).then_some(Rank {
        quotient,
        remainder,
        divisor,
    }))
}
