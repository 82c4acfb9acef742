//! Rank and closer, read anew in 128 bits: the refusals 1, 22 and 15 in this order, a squared distance as a fraction, and which of two
//! fractions is lower. A distance is had from the three squared lengths of the triangle of the centre and the two ends, with no dot and
//! no cross product; nothing is shared with `rules`, and nothing with the original.

use std::cmp::Ordering;

use crate::values::{Asked, Rank};

/// What a refusal is for, in the order in which they are given.
pub const NUMBERS: [u32; 3] = [1, 22, 15];

/// For each of `NUMBERS`, whether there is reason for it.
pub fn faults(asked: &Asked) -> [bool; 3] {
    let [across, down] = [asked.across, asked.down].map(i64::from);
    let side_fits = |cells: i64| (1..=1_024).contains(&cells);
    let (right_edge, bottom_edge) = (8 * across, 8 * down);
    let on_map = |[x, y]: [u32; 2]| i64::from(x) <= right_edge && i64::from(y) <= bottom_edge;
    let [left, top, right, bottom] = asked.footprint.map(i64::from);
    let has_pixels = left < right && top < bottom;
    let inside = left >= 0 && top >= 0 && right <= right_edge && bottom <= bottom_edge;
    [
        !side_fits(across) || !side_fits(down),
        asked.radius > 1_024 || !on_map(asked.first) || !on_map(asked.second) || asked.first == asked.second,
        !has_pixels || !inside,
    ]
}

/// The refusal, if there is one.
pub fn refusal(asked: &Asked) -> Option<u32> {
    NUMBERS.into_iter().zip(faults(asked)).find(|(_, fault)| *fault).map(|(number, _)| number)
}

/// Where the centre lies: beside an end, the line across the entrance at that end included, or between the ends.
#[derive(Debug, Clone, Copy, PartialEq, Eq)]
pub enum Side {
    First,
    Between,
    Second,
}

/// A squared distance in pixels: numerator / divisor, up to limit / divisor, the radius squared.
#[derive(Debug, Clone, Copy)]
pub struct Measured {
    pub side: Side,
    pub numerator: i128,
    pub divisor: i128,
    pub limit: i128,
    /// The centre lies on the line across the entrance at its first end, at its second.
    pub square_to: [bool; 2],
}

impl Measured {
    pub fn has_rank(&self) -> bool {
        self.numerator <= self.limit
    }

    pub fn rank(&self) -> Option<Rank> {
        let numbers = [self.numerator / self.divisor, self.numerator % self.divisor, self.divisor];
        self.has_rank().then(|| numbers.map(|number| u64::try_from(number).expect("a number of an accepted footprint")))
    }
}

/// Of accepted values. Everything is in half pixels, so that the centre is whole.
pub fn measured(asked: &Asked) -> Measured {
    let [left, top, right, bottom] = asked.footprint.map(i128::from);
    let centre = [left + right, top + bottom];
    let [first, second] = [asked.first, asked.second].map(|end| end.map(|pixels| 2 * i128::from(pixels)));
    let squared = |a: [i128; 2], b: [i128; 2]| (a[0] - b[0]).pow(2) + (a[1] - b[1]).pow(2);
    let (to_first, to_second, entrance) = (squared(centre, first), squared(centre, second), squared(first, second));
    // Pythagoras: beside an end the angle there is a right one or wider
    let (side, numerator, divisor) = if to_second >= to_first + entrance {
        (Side::First, to_first, 4)
    } else if to_first >= to_second + entrance {
        (Side::Second, to_second, 4)
    } else {
        // Heron: sixteen times the squared area is four times the squared entrance times the squared height
        let sixteen_areas = 4 * to_first * entrance - (to_first + entrance - to_second).pow(2);
        (Side::Between, sixteen_areas / 16, entrance)
    };
    Measured {
        side,
        numerator,
        divisor,
        limit: i128::from(asked.radius).pow(2) * divisor,
        square_to: [to_second == to_first + entrance, to_first == to_second + entrance],
    }
}

/// Whether three numbers are a rank: the rest of a division by at most four times the squared diagonal of the largest map.
pub fn is_rank([_, remainder, divisor]: Rank) -> bool {
    remainder < divisor && divisor <= 4 * (8_192 * 8_192 + 8_192 * 8_192)
}

/// By the fractions; what is no rank comes last.
pub fn order(a: Rank, b: Rank) -> Ordering {
    if !is_rank(a) || !is_rank(b) {
        return is_rank(b).cmp(&is_rank(a));
    }
    let [[quotient, remainder, divisor], [other_quotient, other_remainder, other_divisor]] = [a, b].map(|rank| rank.map(u128::from));
    let whole = (quotient * divisor + remainder) * other_divisor;
    whole.cmp(&((other_quotient * other_divisor + other_remainder) * divisor))
}
