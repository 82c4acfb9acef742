//! What the calls turn away.

use std::{error, fmt};

/// What was wrong with a call. The number of each is the one that the library answers with.
#[derive(Clone, Copy, Debug, PartialEq, Eq, Hash)]
pub enum Kind {
    /// The archive answered with a number that its contract excludes, so it is not the one that this crate was written for.
    Unnamed = 0,
    /// The map's size, its number of cells, or a cell byte.
    MapInvalid = 1,
    /// The window is empty, negative, beyond the map or too large.
    WindowInvalid = 2,
    /// An end lies outside the window.
    EndOutside = 3,
    /// A bound above 256.
    BoundTooLarge = 4,
    /// Over 4,096 obstacles, or an empty one.
    ObstacleInvalid = 5,
    /// A lent area is too short. This crate lends whole areas, so a planner does not meet it.
    AreaTooShort = 6,
    /// The start is closed to the mover.
    StartBlocked = 7,
    /// The end is closed to the mover.
    EndBlocked = 8,
    /// The mover has no route from start to end.
    NoRoute = 9,
    /// Groups or slots.
    GroupsInvalid = 10,
    /// The state limit is not 1 to 100,000.
    StateLimitInvalid = 11,
    /// The result limit is not 1 to 32.
    ResultLimitInvalid = 12,
    // 13 is reserved: no call gives it.
    /// Over 6,144 placements.
    TooManyPlacements = 14,
    /// Spec index, group or a rectangle of the placement whose index is given; or an empty rectangle to cover or lift; or a footprint
    /// to rank that is empty or not inside the map.
    PlacementInvalid = 15,
    /// The record is not that of a search over these inputs. A [`Search`](crate::Search) keeps its own, so it does not meet it.
    RecordInvalid = 16,
    /// No layout of that number, or no selection.
    SelectionInvalid = 17,
    // 18 is an answer of the program that reads drive sheets.
    /// The steps of a plan are not each of the eight exactly once.
    StepsInvalid = 19,
    /// A cover that would pass 255, or a lift that would pass zero.
    CountOutOfRange = 20,
    // No call gives 21.
    /// The radius or the ends of an entrance.
    SiteInvalid = 22,
}

const KINDS: [(Kind, &str); 20] = [
    (Kind::Unnamed, "The archive gave a number that its contract excludes."),
    (Kind::MapInvalid, "The map is not 1 to 1,024 cells each way, has not one byte a cell, or has a cell byte that is neither 0 nor 1."),
    (Kind::WindowInvalid, "The window is empty, has a negative edge, reaches beyond the map or has more than 1,048,576 centres."),
    (Kind::EndOutside, "The start or the end lies outside the window."),
    (Kind::BoundTooLarge, "A mover's bound is above 256."),
    (Kind::ObstacleInvalid, "There are more than 4,096 obstacles, or one of them is empty."),
    (Kind::AreaTooShort, "A lent area is too short."),
    (Kind::StartBlocked, "The start is closed to the mover."),
    (Kind::EndBlocked, "The end is closed to the mover."),
    (Kind::NoRoute, "The mover has no route from start to end."),
    (Kind::GroupsInvalid, "There are more than 6 groups, a group has not 1 to 6 slots, or there are more than 6 slots together."),
    (Kind::StateLimitInvalid, "The state limit is not 1 to 100,000."),
    (Kind::ResultLimitInvalid, "The result limit is not 1 to 32."),
    (Kind::TooManyPlacements, "There are more than 6,144 placements."),
    (Kind::PlacementInvalid, "A placement has a spec index above 5, no such group, an empty rectangle or a footprint not wholly inside the window; or the rectangle to cover or lift is empty; or the footprint to rank is empty or not wholly inside the map."),
    (Kind::RecordInvalid, "The record and its areas are not those of a search over these inputs."),
    (Kind::SelectionInvalid, "No layout has this number, or the selection does not ascend strictly, names no placement or has more than 6."),
    (Kind::StepsInvalid, "The table of steps is not 16 numbers, or does not hold each of the eight steps exactly once."),
    (Kind::CountOutOfRange, "A cover would take a count above 255, or a lift one below zero."),
    (Kind::SiteInvalid, "The radius is above 1,024, an entrance point lies beyond the map, or the two entrance points are equal."),
];

/// One of a planner's two movers.
#[derive(Clone, Copy, Debug, PartialEq, Eq, Hash)]
pub enum Mover {
    /// The one that a wall keeps out.
    Block,
    /// The one that a wall lets pass.
    Allow,
}

/// The answer to a call that was turned away: a number, a sentence, and where there is one the placement or the mover in question.
///
/// ```
/// use hitrovzen::{Bounds, Kind, Map, Plan, Planner, Position, Rect};
///
/// let plan = Plan::new(Map::open(1, 1), Rect::new(0, 0, 5, 9), Position::new(0, 1), Position::new(4, 1), Bounds::default());
/// let refusal = Planner::new(plan).unwrap_err();
/// assert_eq!(refusal.kind(), Kind::WindowInvalid);
/// assert_eq!(refusal.number(), 2);
/// assert_eq!(refusal.to_string(), "refused with 2: The window is empty, has a negative edge, reaches beyond the map or has more than 1,048,576 centres.");
/// ```
#[derive(Clone, Copy, Debug, PartialEq, Eq, Hash)]
pub struct Refusal {
    kind: Kind,
    index: Option<usize>,
    mover: Option<Mover>,
}

impl Refusal {
    /// The refusal that the library answered with. Calls that take placements give an index, which
    /// counts for 15 alone.
    pub(crate) fn numbered(number: u32, index: Option<u32>) -> Self {
        let named = KINDS.iter().find(|(kind, _)| *kind as u32 == number);
        let kind = named.map_or(Kind::Unnamed, |(kind, _)| *kind);
        let index = index.filter(|_| kind == Kind::PlacementInvalid);
        Self {
            kind,
            index: index.map(|index| index as usize),
            mover: None,
        }
    }

    pub(crate) const UNNAMED: Self = Self {
        kind: Kind::Unnamed,
        index: None,
        mover: None,
    };

    pub(crate) fn of(self, mover: Mover) -> Self {
        Self {
            mover: Some(mover),
            ..self
        }
    }

    /// What was wrong.
    pub fn kind(&self) -> Kind {
        self.kind
    }

    /// The number of the refusal, which is that of its kind.
    pub fn number(&self) -> u32 {
        self.kind as u32
    }

    /// What was wrong, in a sentence.
    pub fn sentence(&self) -> &'static str {
        let named = KINDS.iter().find(|(kind, _)| *kind == self.kind);
        named.map_or("", |(_, sentence)| sentence)
    }

    /// The index of the first placement that is not taken, where a search or a judgement was refused with 15. A rectangle to cover
    /// or lift and a footprint to rank have none.
    pub fn index(&self) -> Option<usize> {
        self.index
    }

    /// The mover that was being prepared, or whose baseline was being covered or lifted off.
    pub fn mover(&self) -> Option<Mover> {
        self.mover
    }
}

impl fmt::Display for Refusal {
    fn fmt(&self, f: &mut fmt::Formatter<'_>) -> fmt::Result {
        write!(f, "refused with {}: {}", self.number(), self.sentence())?;
        if let Some(index) = self.index {
            write!(f, " It is placement {index}.")?;
        }
        match (self.kind, self.mover) {
            (Kind::StartBlocked | Kind::EndBlocked | Kind::NoRoute, Some(Mover::Block)) => {
                write!(f, " It is the blocked mover.")
            }
            (Kind::StartBlocked | Kind::EndBlocked | Kind::NoRoute, Some(Mover::Allow)) => {
                write!(f, " It is the allowed mover.")
            }
            (Kind::CountOutOfRange, Some(Mover::Block)) => {
                write!(f, " It is a count of the blocked mover.")
            }
            (Kind::CountOutOfRange, Some(Mover::Allow)) => {
                write!(f, " It is a count of the allowed mover.")
            }
            _ => Ok(()),
        }
    }
}

impl error::Error for Refusal {}

#[cfg(test)]
mod tests {
    use super::*;

    #[test]
    fn numbers_are_those_of_the_library() {
        let numbers = (0..=12).chain(14..=17).chain(19..=20).chain([22]);
        assert!(numbers.eq(KINDS.iter().map(|(kind, _)| *kind as u32)));
        for (kind, _) in KINDS {
            assert_eq!(Refusal::numbered(kind as u32, None).kind(), kind);
        }
        for number in [13, 18, 21, 23, 99, u32::MAX] {
            assert_eq!(Refusal::numbered(number, Some(7)), Refusal::UNNAMED);
        }
    }

    #[test]
    fn only_a_placement_has_an_index() {
        for (kind, _) in KINDS {
            let index = Refusal::numbered(kind as u32, Some(7)).index();
            assert_eq!(index, (kind == Kind::PlacementInvalid).then_some(7));
            assert_eq!(Refusal::numbered(kind as u32, None).index(), None);
        }
    }

    /// The header has the same numbers with the same sentences, and no others.
    #[test]
    fn sentences_are_those_of_the_header() {
        let header = include_str!("../../walls.h");
        let answers = header.split("enum hitrovzen_answer {").nth(1).unwrap();
        let lines = answers.split("};").next().unwrap().lines();
        let answers: Vec<(&str, &str)> = lines.filter_map(|line| line.split_once(" = ")).collect();
        assert_eq!(answers.len(), KINDS.len());
        for ((_, said), (kind, sentence)) in answers.iter().zip(&KINDS).skip(1) {
            let digits = said.split(|c: char| !c.is_ascii_digit()).next();
            assert_eq!(digits, Some((*kind as u32).to_string().as_str()));
            assert!(said.contains(&format!("/* {sentence} */")), "{said}");
        }
    }
}
