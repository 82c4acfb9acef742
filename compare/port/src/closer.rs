//! Closer: every two of a list, beside their fractions in 128 bits, and the list sorted by it. Lists are of ranks that were given, or
//! drawn: equal quotients, equal fractions with other divisors, fractions next to each other, and numbers that are no rank.

use std::cmp::Ordering;
use std::fmt;

use judge::generate::Rng;

use crate::both;
use crate::distances::{is_rank, order};
use crate::entrances::{bezout, pick};
use crate::port;
use crate::values::Rank;

/// The largest divisor of a rank.
const LARGEST: u64 = 1 << 29;

/// What the calls reached. A pair has an order: each two are asked both ways.
#[derive(Debug, Default)]
pub struct Reached {
    lists: u64,
    pairs: u64,
    closer: u64,
    /// Ranks with equal quotients and other divisors; those whose remainders alone have another order; those that are equal.
    equal_quotients: u64,
    remainders_mislead: u64,
    equal: u64,
    /// Pairs in which the first, the second or neither is a rank.
    first_alone: u64,
    second_alone: u64,
    neither: u64,
}

impl Reached {
    fn pair(&mut self, a: Rank, b: Rank, is_closer: bool) {
        self.pairs += 1;
        self.closer += u64::from(is_closer);
        match (is_rank(a), is_rank(b)) {
            (true, true) if a[0] == b[0] && a[2] != b[2] => {
                self.equal_quotients += 1;
                self.remainders_mislead += u64::from((a[1] < b[1]) != is_closer);
                self.equal += u64::from(order(a, b).is_eq());
            }
            (true, true) => (),
            (true, false) => self.first_alone += 1,
            (false, true) => self.second_alone += 1,
            (false, false) => self.neither += 1,
        }
    }

    pub fn hold(&self, what: &str, hold: &mut dyn FnMut(&str, u64, u64), least: u64) {
        hold(&format!("{what} sorted"), self.lists, least);
        hold(&format!("{what} that are closer"), self.closer, least);
        hold(&format!("{what} with equal quotients and other divisors"), self.equal_quotients, least);
        hold(&format!("{what} whose remainders mislead"), self.remainders_mislead, least);
        hold(&format!("{what} equal with other divisors"), self.equal, least);
    }

    pub fn hold_no_rank(&self, hold: &mut dyn FnMut(&str, u64, u64), least: u64) {
        hold("a rank beside no rank", self.first_alone, least);
        hold("no rank beside a rank", self.second_alone, least);
        hold("no rank beside no rank", self.neither, least);
    }
}

impl fmt::Display for Reached {
    fn fmt(&self, f: &mut fmt::Formatter<'_>) -> fmt::Result {
        let Self { lists, pairs, closer, equal_quotients, remainders_mislead, equal, first_alone, second_alone, neither } = self;
        writeln!(f, "{pairs} pairs, {closer} closer; {lists} lists sorted")?;
        write!(f, "  equal quotients and other divisors {equal_quotients}, remainders mislead {remainders_mislead}, equal {equal}")?;
        if first_alone + second_alone + neither == 0 {
            return Ok(());
        }
        write!(f, "\n  no rank is the second {first_alone}, the first {second_alone}, both {neither}")
    }
}

fn asked(a: Rank, b: Rank) -> Result<bool, String> {
    both::closer(a, b).map_err(|difference| format!("DIFFERENCE {difference}\n{a:?} {b:?}"))
}

/// Every two of a list, and the list sorted: once each two agree with their fractions, so must a sorting that keeps equal ones as they
/// stand.
pub fn list(ranks: &[Rank], reached: &mut Reached) -> Result<(), String> {
    for &a in ranks {
        for &b in ranks {
            reached.pair(a, b, asked(a, b)?);
        }
    }
    let by_closer = |a: &Rank, b: &Rank| match (port::closer(*a, *b), port::closer(*b, *a)) {
        (0, 0) => Ordering::Equal,
        (0, _) => Ordering::Greater,
        _ => Ordering::Less,
    };
    let (mut expected, mut found) = (ranks.to_vec(), ranks.to_vec());
    expected.sort_by(|a, b| order(*a, *b));
    found.sort_by(by_closer);
    reached.lists += 1;
    both::same_area("sorted by closer", "ranks", &expected, &found).map_err(|difference| format!("DIFFERENCE {difference}\n{ranks:?}"))
}

/// A list of drawn numbers, some of them about the given ranks.
pub fn drawn(given: &[Rank], rng: &mut Rng) -> Vec<Rank> {
    let quotients = [0, u64::MAX, rng.draw(), u64::from(rng.below(1 << 20))];
    let quotients = [pick(&quotients, rng), pick(&quotients, rng)];
    let mut ranks = Vec::new();
    while ranks.len() < 20 {
        let quotient = pick(&quotients, rng);
        match rng.below(6) {
            0 => ranks.extend(multiples(quotient, rng)),
            1 => ranks.extend(neighbours(quotient, rng)),
            2 => ranks.push([quotient, rng.draw() % LARGEST, LARGEST - u64::from(rng.below(3))]),
            3 if !given.is_empty() => ranks.push(pick(given, rng)),
            4 => ranks.push([quotient, any(rng), any(rng)]),
            _ => ranks.push([any(rng), any(rng), any(rng)]),
        }
    }
    ranks
}

/// A number at a border of what a rank may have, or any.
fn any(rng: &mut Rng) -> u64 {
    let near = pick(&[0, 1, 4, 1 << 29, 1 << 32, 1 << 63, u64::MAX, rng.draw(), rng.draw() % LARGEST], rng);
    pick(&[near, near, near.wrapping_add(1), near.wrapping_sub(1)], rng)
}

/// One fraction, twice, with two divisors.
fn multiples(quotient: u64, rng: &mut Rng) -> [Rank; 2] {
    let most = pick(&[4, 1_000, 1 << 20, 1 << 29], rng);
    let divisor = 1 + u64::from(rng.below(most));
    let remainder = rng.draw() % divisor;
    let fitting = (LARGEST / divisor) as u32;
    [0; 2].map(|_| {
        let times = 1 + u64::from(rng.below(fitting));
        [quotient, times * remainder, times * divisor]
    })
}

/// Two fractions as near to each other as any with these divisors: they differ by 1 over the product of the two.
fn neighbours(quotient: u64, rng: &mut Rng) -> [Rank; 2] {
    let most = pick(&[4, 1_000, 1 << 20, (1 << 29) - 2], rng);
    let whole = 2 + i64::from(rng.below(most));
    let part = 1 + i64::from(rng.below(whole as u32 - 1));
    let (common, _) = bezout(part, whole);
    let (remainder, divisor) = (part / common, whole / common);
    let (_, [inverse, _]) = bezout(remainder, divisor);
    let other_divisor = inverse.rem_euclid(divisor);
    let other_remainder = (remainder * other_divisor - 1) / divisor;
    [[remainder, divisor], [other_remainder, other_divisor]].map(|[remainder, divisor]| [quotient, remainder as u64, divisor as u64])
}

/// Fractions compared by hand.
pub fn by_hand() -> Result<(), String> {
    let rows: [(Rank, Rank, bool); 8] = [
        ([20, 1, 4], [20, 400, 1_600], false),
        ([20, 400, 1_600], [20, 1, 4], false),
        ([18, 800, 1_600], [18, 3, 4], true),
        ([18, 3, 4], [18, 800, 1_600], false),
        ([0, 3, 4], [1, 0, 1_600], true),
        ([5, 0, 4], [0, 4, 4], true),
        ([0, 0, 0], [5, 0, 4], false),
        ([0, 0, 0], [0, 4, 4], false),
    ];
    for (a, b, expected) in rows {
        both::same("closer by hand", &expected, &asked(a, b)?).map_err(|difference| format!("DIFFERENCE {difference}\n{a:?} {b:?}"))?;
    }
    Ok(())
}
