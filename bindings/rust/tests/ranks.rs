//! Ranks: the squared distance of a footprint from an entrance, which footprints have none, which inputs are refused, and that ranks
//! are an order to sort by.

use std::cmp::Ordering;

use hitrovzen::{rank, raw, Kind, Position, Rank, Rect, Refusal, Site};

mod dice;
#[allow(dead_code)]
#[path = "../examples/nearest_first.rs"]
mod nearest_first;

use dice::Dice;

/// 24 × 16 pixels.
const MAP: (u32, u32) = (3, 2);

/// An entrance of five pixels, four across and three down: between its ends the divisor is 100.
const SITE: Site = site((8, 8), (12, 11), 5);

const INSIDE: Rect = Rect::new(9, 9, 11, 10);
const EMPTY: Rect = Rect::new(9, 9, 9, 10);

const fn site(first: (u32, u32), second: (u32, u32), radius: u32) -> Site {
    Site::new(
        Position::new(first.0, first.1),
        Position::new(second.0, second.1),
        radius,
    )
}

/// The same entrance from its other end.
fn exchanged(site: Site) -> Site {
    Site::new(site.second, site.first, site.radius)
}

type Numbers = (u64, u64, u64);

fn numbers(rank: Rank) -> Numbers {
    (rank.quotient(), rank.remainder(), rank.divisor())
}

/// The numbers of a rank, or of a refusal; the entrance's other end gives the same.
fn ranked(map: (u32, u32), site: Site, footprint: Rect) -> Result<Option<Numbers>, u32> {
    let answer = |site| -> Result<Option<Numbers>, Refusal> {
        Ok(rank(map.0, map.1, site, footprint)?.map(numbers))
    };
    let there = answer(site);
    assert_eq!(answer(exchanged(site)), there, "{site:?} {footprint:?}");
    there.map_err(|refusal| refusal.number())
}

/// The rank of a footprint on the map above, around the entrance above.
fn near(left: i32, top: i32, right: i32, bottom: i32) -> Option<Numbers> {
    ranked(MAP, SITE, Rect::new(left, top, right, bottom)).unwrap()
}

#[test]
fn the_nearest_point_is_an_end_or_lies_between() {
    // on the entrance, and on each of its ends
    assert_eq!(near(9, 9, 11, 10), Some((0, 0, 100)));
    assert_eq!(near(7, 7, 9, 9), Some((0, 0, 4)));
    assert_eq!(near(11, 10, 13, 12), Some((0, 0, 4)));
    // along the first end: before it, straight beside it, and a little behind it
    assert_eq!(near(7, 8, 8, 9), Some((0, 2, 4)));
    assert_eq!(near(9, 5, 10, 7), Some((6, 1, 4)));
    assert_eq!(near(8, 7, 9, 8), Some((0, 49, 100)));
    // along the second end: a little before it, straight beside it, and behind it
    assert_eq!(near(12, 9, 14, 10), Some((3, 24, 100)));
    assert_eq!(near(13, 8, 14, 10), Some((6, 1, 4)));
    assert_eq!(near(13, 8, 15, 9), Some((10, 1, 4)));
}

/// The centre alone counts.
#[test]
fn a_larger_footprint_around_the_same_centre_has_the_same_rank() {
    let small = near(8, 7, 9, 8);
    assert_eq!(near(4, 3, 13, 12), small);
    assert_eq!(near(1, 0, 16, 15), small);
}

#[test]
fn a_rank_as_far_as_the_radius_and_none_beyond() {
    assert_eq!(near(3, 4, 5, 6), Some((25, 0, 4)));
    assert_eq!(near(16, 10, 18, 12), Some((25, 0, 4)));
    assert_eq!(near(12, 5, 14, 6), Some((25, 0, 100)));
    assert_eq!(near(12, 4, 13, 6), None);
    // 25 + 1/4, where the whole number is still the radius squared
    assert_eq!(near(2, 7, 4, 8), None);
    assert_eq!(near(16, 11, 18, 12), None);
    // 0 + 49/100 and 0 + 2/4, with no radius at all
    let none = Site { radius: 0, ..SITE };
    assert_eq!(ranked(MAP, none, INSIDE), Ok(Some((0, 0, 100))));
    assert_eq!(
        ranked(MAP, none, Rect::new(7, 7, 9, 9)),
        Ok(Some((0, 0, 4)))
    );
    assert_eq!(ranked(MAP, none, Rect::new(8, 7, 9, 8)), Ok(None));
    assert_eq!(ranked(MAP, none, Rect::new(7, 8, 8, 9)), Ok(None));
}

#[test]
fn the_largest_map() {
    let map = (1_024, 1_024);
    let diagonal = site((0, 0), (8_192, 8_192), 1_024);
    let most = 536_870_912;
    let at = |footprint| ranked(map, diagonal, footprint).unwrap();
    assert_eq!(at(Rect::new(0, 0, 1, 3)), Some((0, most / 2, most)));
    assert_eq!(
        at(Rect::new(1_448, 0, 1_450, 2)),
        Some((1_048_352, 0, most))
    );
    assert_eq!(at(Rect::new(1_448, 0, 1_451, 2)), None);
    assert_eq!(at(Rect::new(8_191, 0, 8_192, 1)), None);
    let corners = site((8_192, 0), (0, 8_192), 0);
    let whole = Rect::new(0, 0, 8_192, 8_192);
    assert_eq!(ranked(map, corners, whole), Ok(Some((0, 0, most))));
}

#[test]
fn the_map_size_is_looked_at_first() {
    let refusal = rank(0, 2, SITE, INSIDE).unwrap_err();
    assert_eq!((refusal.kind(), refusal.number()), (Kind::MapInvalid, 1));
    assert_eq!((refusal.index(), refusal.mover()), (None, None));
    let wrong = site((9_999, 9_999), (9_999, 9_999), 1_025);
    for map in [
        (0, 2),
        (3, 0),
        (1_025, 2),
        (3, 1_025),
        (536_870_915, 2),
        (u32::MAX, u32::MAX),
    ] {
        assert_eq!(ranked(map, SITE, INSIDE), Err(1), "{map:?}");
        assert_eq!(ranked(map, wrong, EMPTY), Err(1), "{map:?}");
    }
    for map in [(1_024, 2), (3, 1_024)] {
        assert_eq!(ranked(map, SITE, INSIDE), Ok(Some((0, 0, 100))), "{map:?}");
    }
    let cell = Rect::new(0, 0, 8, 8);
    let across = site((0, 0), (8, 8), 8);
    assert_eq!(ranked((1, 1), across, cell), Ok(Some((0, 0, 512))));
}

#[test]
fn then_the_site() {
    let far = Site {
        radius: 1_025,
        ..SITE
    };
    let refusal = rank(3, 2, far, INSIDE).unwrap_err();
    assert_eq!((refusal.kind(), refusal.number()), (Kind::SiteInvalid, 22));
    assert_eq!((refusal.index(), refusal.mover()), (None, None));
    assert_eq!(
        refusal.to_string(),
        "refused with 22: The radius is above 1,024, an entrance point lies beyond the map, or the two entrance points are equal."
    );
    for wrong in [
        far,
        Site {
            radius: u32::MAX,
            ..SITE
        },
        site((25, 8), (8, 8), 5),
        site((8, 17), (8, 8), 5),
        site((u32::MAX, 8), (8, 8), 5),
        site((8, u32::MAX), (8, 8), 5),
        site((8, 8), (8, 8), 5),
        site((0, 0), (0, 0), 0),
    ] {
        assert_eq!(ranked(MAP, wrong, INSIDE), Err(22), "{wrong:?}");
        assert_eq!(ranked(MAP, wrong, EMPTY), Err(22), "{wrong:?}");
    }
    // the largest radius, the map's right and lower edge, and points that differ in one number
    for right in [
        Site {
            radius: 1_024,
            ..SITE
        },
        site((24, 8), (8, 8), 5),
        site((8, 16), (8, 8), 5),
        site((24, 16), (0, 0), 5),
        site((8, 8), (9, 8), 5),
        site((8, 8), (8, 9), 5),
    ] {
        assert!(ranked(MAP, right, INSIDE).is_ok(), "{right:?}");
    }
}

#[test]
fn then_the_footprint() {
    let refusal = rank(3, 2, SITE, EMPTY).unwrap_err();
    assert_eq!(
        (refusal.kind(), refusal.number()),
        (Kind::PlacementInvalid, 15)
    );
    assert_eq!((refusal.index(), refusal.mover()), (None, None));
    assert!(refusal
        .to_string()
        .ends_with("or the footprint to rank is empty or not wholly inside the map."));
    let whole = Rect::new(0, 0, 24, 16);
    for wrong in [
        EMPTY,
        Rect::new(9, 9, 11, 9),
        Rect::new(11, 9, 9, 10),
        Rect::new(9, 10, 11, 9),
        Rect { left: -1, ..whole },
        Rect { top: -1, ..whole },
        Rect { right: 25, ..whole },
        Rect {
            bottom: 17,
            ..whole
        },
        Rect::new(i32::MIN, i32::MIN, i32::MAX, i32::MAX),
        Rect::new(i32::MAX, i32::MAX, i32::MIN, i32::MIN),
    ] {
        assert_eq!(ranked(MAP, SITE, wrong), Err(15), "{wrong:?}");
    }
    assert_eq!(ranked(MAP, SITE, whole), Ok(Some((5, 76, 100))));
}

// ---- any inputs

/// Numerator and divisor of the squared distance, by the nearest of the points (a × first + b × second) / (a + b): an end, or the foot
/// of the perpendicular, for which a + b is twice the squared length. Other points of the entrance are not nearer.
fn nearest(site: Site, r: Rect) -> (i128, i128) {
    let [x, y, to_x, to_y] =
        [site.first.x, site.first.y, site.second.x, site.second.y].map(i128::from);
    let [left, top, right, bottom] = [r.left, r.top, r.right, r.bottom].map(i128::from);
    let scaled = |a: i128, b: i128| {
        let way_x = (a + b) * (left + right) - 2 * (a * x + b * to_x);
        let way_y = (a + b) * (top + bottom) - 2 * (a * y + b * to_y);
        let scale = 2 * (a + b);
        (way_x * way_x + way_y * way_y, scale * scale)
    };
    let by_size = |a: &(i128, i128), b: &(i128, i128)| (a.0 * b.1).cmp(&(b.0 * a.1));
    let (dx, dy) = (to_x - x, to_y - y);
    let twice = 2 * (dx * dx + dy * dy);
    let along = (left + right - 2 * x) * dx + (top + bottom - 2 * y) * dy;
    let ends = [scaled(1, 0), scaled(0, 1)];
    let (point, divisor) = if 0 < along && along < twice {
        (scaled(twice - along, along), 2 * twice)
    } else {
        (ends.into_iter().min_by(by_size).unwrap(), 4)
    };
    let others = [(5, 1), (2, 1), (1, 1), (1, 2), (1, 5)].map(|(a, b)| scaled(a, b));
    let mut farther = ends.iter().chain(&others);
    assert!(farther.all(|other| by_size(&point, other).is_le()));
    assert_eq!(point.0 * divisor % point.1, 0);
    (point.0 * divisor / point.1, divisor)
}

/// A map, a site and a footprint that are taken. Short entrances and even numbers are frequent, so that borders are met.
fn taken(dice: &mut Dice) -> ((u32, u32), Site, Rect) {
    let side = |dice: &mut Dice| match dice.below(3) {
        0 => 1 + dice.below(4) as u32,
        1 => 1 + dice.below(40) as u32,
        _ => dice.one_of(&[1, 2, 512, 1_023, 1_024]),
    };
    let map = (side(dice), side(dice));
    let (width, height) = (u64::from(8 * map.0), u64::from(8 * map.1));
    let point = |dice: &mut Dice| (dice.below(width + 1) as u32, dice.below(height + 1) as u32);
    let (first, second) = loop {
        let first = point(dice);
        let near =
            |from: u32, by: u64, most: u64| (u64::from(from) + by).saturating_sub(4).min(most);
        let second = match dice.below(3) {
            0 => point(dice),
            1 => (first.0, point(dice).1),
            _ => (
                near(first.0, dice.below(9), width) as u32,
                near(first.1, dice.below(9), height) as u32,
            ),
        };
        if first != second {
            break (first, second);
        }
    };
    let radius = dice.one_of(&[0, 1, 5, 8, 40, 300, 1_023, 1_024]);
    let span = |dice: &mut Dice, around: u32, most: u64| {
        let from = match dice.below(2) {
            0 => dice.below(most),
            _ => (u64::from(around) + dice.below(20))
                .saturating_sub(10)
                .min(most - 1),
        };
        let to = from + 1 + dice.below((most - from).min(12));
        (from as i32, to as i32)
    };
    let (left, right) = span(dice, first.0, width);
    let (top, bottom) = span(dice, second.1, height);
    (
        map,
        site(first, second, radius),
        Rect::new(left, top, right, bottom),
    )
}

#[test]
fn a_rank_is_the_squared_distance() {
    let mut dice = Dice(20_261_120);
    let (mut ends, mut between, mut none, mut fractions) = (0, 0, 0, 0);
    for _ in 0..200_000 {
        let (map, site, footprint) = taken(&mut dice);
        let (numerator, divisor) = nearest(site, footprint);
        let within = numerator <= i128::from(site.radius).pow(2) * divisor;
        let expected = within.then(|| {
            let [quotient, remainder, divisor] =
                [numerator / divisor, numerator % divisor, divisor].map(|n| n as u64);
            (quotient, remainder, divisor)
        });
        let found = ranked(map, site, footprint);
        assert_eq!(found, Ok(expected), "{map:?} {site:?} {footprint:?}");
        match expected {
            None => none += 1,
            Some((_, _, 4)) => ends += 1,
            Some(_) => between += 1,
        }
        fractions += usize::from(expected.is_some_and(|(_, remainder, _)| remainder != 0));
    }
    let least = [ends, between, none, fractions].into_iter().min();
    assert!(least > Some(10_000), "{ends} {between} {none} {fractions}");
}

/// Numbers at the ends of their types and around the bounds: a rank, none, or the first refusal in the order 1, 22, 15.
#[test]
fn every_input_is_answered() {
    const SIDES: [u32; 8] = [0, 1, 2, 3, 1_024, 1_025, 536_870_913, u32::MAX];
    const POINTS: [u32; 9] = [0, 1, 8, 9, 16, 24, 8_192, 8_193, u32::MAX];
    const RADII: [u32; 5] = [0, 7, 1_024, 1_025, u32::MAX];
    const EDGES: [i32; 9] = [i32::MIN, -1, 0, 1, 8, 9, 16, 8_192, i32::MAX];
    let mut dice = Dice(20_261_121);
    let mut answers = [0; 4];
    for _ in 0..400_000 {
        let map = match dice.below(4) {
            0 => (dice.one_of(&SIDES), dice.one_of(&SIDES)),
            _ => (dice.one_of(&[1, 2, 3]), dice.one_of(&[1, 2, 1_024])),
        };
        let point = |dice: &mut Dice| match dice.below(4) {
            0 => (dice.one_of(&POINTS), dice.one_of(&POINTS)),
            _ => (dice.below(9) as u32, dice.below(9) as u32),
        };
        let radius = match dice.below(4) {
            0 => dice.one_of(&RADII),
            _ => 7,
        };
        let site = site(point(&mut dice), point(&mut dice), radius);
        let [left, top, right, bottom] = [(); 4].map(|()| match dice.below(3) {
            0 => dice.one_of(&EDGES),
            _ => dice.below(9) as i32,
        });
        let (width, height) = (8 * u64::from(map.0), 8 * u64::from(map.1));
        let side = 1..=1_024;
        let on_map = |p: Position| u64::from(p.x) <= width && u64::from(p.y) <= height;
        let inside = |low: i32, high: i32, most: u64| {
            0 <= low && low < high && u64::try_from(high).is_ok_and(|high| high <= most)
        };
        let footprint = Rect::new(left, top, right, bottom);
        let expected = if !side.contains(&map.0) || !side.contains(&map.1) {
            1
        } else if radius > 1_024
            || !on_map(site.first)
            || !on_map(site.second)
            || site.first == site.second
        {
            22
        } else if !inside(left, right, width) || !inside(top, bottom, height) {
            15
        } else {
            0
        };
        let found = ranked(map, site, footprint).map_or_else(|number| number, |_| 0);
        assert_eq!(found, expected, "{map:?} {site:?} {footprint:?}");
        answers[[1, 22, 15, 0].iter().position(|n| *n == expected).unwrap()] += 1;
    }
    assert!(answers.iter().min() > Some(&5_000), "{answers:?}");
}

// ---- the order

/// The order of the fractions, whatever the ranks themselves say.
fn by_fraction(a: Rank, b: Rank) -> Ordering {
    let whole = |rank: Rank| {
        u128::from(rank.quotient()) * u128::from(rank.divisor()) + u128::from(rank.remainder())
    };
    (whole(a) * u128::from(b.divisor())).cmp(&(whole(b) * u128::from(a.divisor())))
}

/// Ranks around entrances of several lengths on one map, many of which are at the same whole distance.
fn pool(dice: &mut Dice, count: usize) -> Vec<Rank> {
    let mut ranks = Vec::new();
    while ranks.len() < count {
        let second = dice.one_of(&[(30, 20), (20, 30), (24, 23), (21, 21), (40, 20)]);
        let (left, top) = (dice.below(50) as i32, dice.below(50) as i32);
        let (width, height) = (1 + dice.below(6) as i32, 1 + dice.below(6) as i32);
        let footprint = Rect::new(left, top, left + width, top + height);
        ranks.extend(rank(8, 8, site((20, 20), second, 12), footprint).unwrap());
    }
    ranks
}

#[test]
fn ranks_are_ordered_by_their_fractions() {
    let mut dice = Dice(20_261_122);
    let ranks = pool(&mut dice, 600);
    let (mut fractions, mut unlike) = (0, 0);
    for a in &ranks {
        for b in &ranks {
            let order = by_fraction(*a, *b);
            assert_eq!(a.cmp(b), order, "{a:?} {b:?}");
            assert_eq!(a.partial_cmp(b), Some(order));
            assert_eq!(a == b, order == Ordering::Equal);
            assert_eq!(b.cmp(a), order.reverse());
            let level = a.quotient() == b.quotient() && order == Ordering::Less;
            fractions += usize::from(level && a.remainder() > b.remainder());
            unlike += usize::from(a == b && a.divisor() != b.divisor());
        }
    }
    assert!(fractions > 100, "{fractions}");
    assert!(unlike > 500, "{unlike}");
}

#[test]
fn equal_fractions_are_equal_with_any_divisor() {
    // 1 + 0/4 beside the ends of one entrance, 1 + 0/100 between those of another
    let beside = rank(3, 2, site((8, 8), (12, 8), 5), Rect::new(6, 7, 8, 9));
    let between = rank(3, 2, site((4, 9), (4, 4), 5), Rect::new(4, 6, 6, 7));
    let [a, b] = [beside, between].map(|answer| answer.unwrap().unwrap());
    assert_eq!((numbers(a), numbers(b)), ((1, 0, 4), (1, 0, 100)));
    assert_eq!(a, b);
    assert_eq!(a.max(b).divisor(), 100);
    assert_eq!(a.min(b).divisor(), 4);
}

/// Sorted, the fractions ascend, and equal ones stay in their order.
#[test]
fn sorting_is_stable() {
    let mut dice = Dice(20_261_123);
    let mut ties = 0;
    for _ in 0..200 {
        let count = 2 + dice.below(80) as usize;
        let mut ranks: Vec<(usize, Rank)> =
            pool(&mut dice, count).into_iter().enumerate().collect();
        ranks.sort_by_key(|(_, rank)| *rank);
        for two in ranks.windows(2) {
            let [(before, a), (after, b)] = [two[0], two[1]];
            match by_fraction(a, b) {
                Ordering::Less => {}
                Ordering::Equal => {
                    assert!(before < after);
                    ties += 1;
                }
                Ordering::Greater => panic!("{a:?} before {b:?}"),
            }
        }
        // whatever order they were in before, the same fractions come out
        let mut shuffled: Vec<Rank> = ranks.iter().map(|(_, rank)| *rank).collect();
        for last in (1..shuffled.len()).rev() {
            shuffled.swap(last, dice.below(last as u64 + 1) as usize);
        }
        shuffled.sort_unstable();
        assert!(shuffled.iter().eq(ranks.iter().map(|(_, rank)| rank)));
        assert_eq!(shuffled.first(), ranks.iter().map(|(_, rank)| rank).min());
    }
    assert!(ties > 500, "{ties}");
}

fn closer(a: [u64; 3], b: [u64; 3]) -> bool {
    // SAFETY: there is no pointer, and numbers of any value are answered.
    let answer = unsafe { raw::hitrovzen_closer(a[0], a[1], a[2], b[0], b[1], b[2]) };
    assert!(answer <= 1);
    answer == 1
}

/// Any three numbers: a strict weak order, by the fractions of those that are ranks, with all others behind these.
#[test]
fn three_numbers_of_any_value_are_ordered() {
    const MOST: u64 = 1 << 29;
    const QUOTIENTS: [u64; 6] = [0, 1, 2, 1 << 32, u64::MAX - 1, u64::MAX];
    const PARTS: [u64; 13] = [
        0,
        1,
        2,
        3,
        4,
        8,
        99,
        100,
        MOST - 1,
        MOST,
        MOST + 1,
        1 << 32,
        u64::MAX,
    ];
    let mut dice = Dice(20_261_124);
    let is_rank = |n: &[u64; 3]| n[1] < n[2] && n[2] <= MOST;
    let lower = |a: &[u64; 3], b: &[u64; 3]| {
        let [part, other] = [a[1] * b[2], b[1] * a[2]];
        (a[0], part) < (b[0], other)
    };
    let given: Vec<[u64; 3]> = (0..160)
        .map(|_| {
            [
                dice.one_of(&QUOTIENTS),
                dice.one_of(&PARTS),
                dice.one_of(&PARTS),
            ]
        })
        .collect();
    for a in &given {
        assert!(!closer(*a, *a));
        for b in &given {
            let expected = is_rank(a) && (!is_rank(b) || lower(a, b));
            assert_eq!(closer(*a, *b), expected, "{a:?} {b:?}");
            let alike = !closer(*a, *b) && !closer(*b, *a);
            for c in &given {
                assert!(!(closer(*a, *b) && closer(*b, *c)) || closer(*a, *c));
                assert!(!alike || closer(*a, *c) == closer(*b, *c));
                assert!(!alike || closer(*c, *a) == closer(*c, *b));
            }
        }
    }
    let ranks = given.iter().filter(|n| is_rank(n)).count();
    assert!(ranks > 20 && given.len() - ranks > 20, "{ranks}");
}

// ---- the example

/// Row by row the place at tile (2, 1) comes first, and has the same whole distance as the one at (3, 1).
#[test]
fn the_example_tells_places_apart_by_a_fraction() {
    let places = nearest_first::nearest_first().unwrap();
    assert_eq!((places.len(), nearest_first::tiles().len()), (9, 36));
    let tiles: Vec<_> = places.iter().map(|place| place.tile).collect();
    assert_eq!(tiles[..4], [(3, 1), (2, 1), (1, 1), (1, 2)]);
    let [first, second, third, fourth] = [0, 1, 2, 3].map(|i| places[i].rank);
    assert_eq!(numbers(first), (50, 0, 4));
    assert_eq!(numbers(second), (50, 4_700, 11_156));
    assert!(first < second && third == fourth);
    assert!(places.iter().map(|place| place.rank).is_sorted());
}
