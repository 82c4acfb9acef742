//! The drive sheet (docs/RULES.md, 9), read and answered with the original search.
//!
//! A text is taken apart by looking for the spelling of each line in turn; a number is read and then
//! spelled again, so that leading zeros, a plus sign and `-0` are no spelling.

use std::fmt::Write;

use crate::case::{Bounds, Case, Placement, Reason, Rect};
use crate::run::Search;

/// The program's own refusal.
const REFUSED: u32 = 18;

/// The answer to a text.
pub fn answer(text: &[u8]) -> String {
    let result = read(text).ok_or(REFUSED).and_then(|case| drive(&case));
    match result {
        Ok(answer) => answer,
        Err(number) => format!("(refused {number})\n"),
    }
}

fn drive(case: &Case) -> Result<String, u32> {
    let mut search = Search::begin(case)?;
    search.step(case.states);
    let held = search.snapshot();
    let reason = match held.reason {
        Reason::Running => "Running",
        Reason::Exhausted => "Exhausted",
        Reason::StateLimit => "StateLimit",
        Reason::ResultLimit => "ResultLimit",
    };
    let mut out = format!(
        "(result {reason} {} {} {})\n",
        held.evaluations,
        held.placements,
        held.layouts.len()
    );
    for (k, layout) in held.layouts.iter().enumerate() {
        let members: Vec<String> = layout.members.iter().map(u32::to_string).collect();
        let route: Vec<String> = layout
            .route
            .iter()
            .map(|(x, y)| format!("({x} {y})"))
            .collect();
        writeln!(
            out,
            "(layout {k} ({}) ({}))",
            members.join(" "),
            route.join(" ")
        )
        .expect("a string takes all");
    }
    Ok(out)
}

/// The sheet's case, if the text is a sheet within the caps.
fn read(text: &[u8]) -> Option<Case> {
    if text.len() > 8_192 {
        return None;
    }
    let mut lines = Lines {
        rest: std::str::from_utf8(text).ok()?,
    };
    let map = lines.form("map")?;
    let (size, digits) = map.rsplit_once(' ')?;
    let map: [u32; 2] = numbers(size)?;
    let cells = cells(digits)?;
    let mut obstacles = Vec::new();
    while let Some(edges) = lines.form("obstacle") {
        obstacles.push(rect(edges)?);
    }
    let window = rect(lines.form("window")?)?;
    let [x, y, end_x, end_y] = numbers(lines.form("ends")?)?;
    let block = bounds(lines.form("block")?)?;
    let allow = match lines.form("allow") {
        Some(values) => Some(bounds(values)?),
        None => None,
    };
    let [states, results] = numbers(lines.form("limits")?)?;
    let groups = lines.groups()?;
    let mut placements = Vec::new();
    while let Some(place) = lines.form("place") {
        placements.push(placement(place)?);
    }
    let small = window.is_empty() || window.width() * window.height() <= 256;
    let within = cells.len() <= 64
        && small
        && obstacles.len() <= 32
        && placements.len() <= 64
        && states <= 500;
    (lines.rest.is_empty() && within).then_some(Case {
        map: (map[0], map[1]),
        cells,
        obstacles,
        window,
        start: (x, y),
        end: (end_x, end_y),
        block,
        allow,
        states,
        results,
        groups,
        placements,
    })
}

struct Lines<'a> {
    rest: &'a str,
}

impl<'a> Lines<'a> {
    /// The next line, without its newline.
    fn line(&self) -> Option<(&'a str, &'a str)> {
        self.rest.split_once('\n')
    }

    /// What stands between `(name ` and `)` on the next line, if it has that name.
    fn form(&mut self, name: &str) -> Option<&'a str> {
        let (line, rest) = self.line()?;
        let values = line
            .strip_prefix('(')?
            .strip_prefix(name)?
            .strip_prefix(' ')?
            .strip_suffix(')')?;
        self.rest = rest;
        Some(values)
    }

    /// The slot counts; `(groups)` has none.
    fn groups(&mut self) -> Option<Vec<u32>> {
        let (line, rest) = self.line()?;
        let values = line.strip_prefix("(groups")?.strip_suffix(')')?;
        self.rest = rest;
        let mut words = values.split(' ');
        (words.next() == Some("")).then_some(())?;
        words.map(number).collect()
    }
}

/// A number whose spelling the word is.
fn number<T: std::str::FromStr + ToString>(word: &str) -> Option<T> {
    let value: T = word.parse().ok()?;
    (value.to_string() == word).then_some(value)
}

/// As many numbers as asked for, single spaces between.
fn numbers<T: std::str::FromStr + ToString, const N: usize>(text: &str) -> Option<[T; N]> {
    let values: Option<Vec<T>> = text.split(' ').map(number).collect();
    values?.try_into().ok()
}

fn cells(digits: &str) -> Option<Vec<u8>> {
    let values: Option<Vec<u8>> = digits
        .bytes()
        .map(|b| b.is_ascii_digit().then(|| b - b'0'))
        .collect();
    values.filter(|cells| !cells.is_empty())
}

fn rect(text: &str) -> Option<Rect> {
    let [left, top, right, bottom] = numbers(text)?;
    Some(Rect::new(left, top, right, bottom))
}

fn bounds(text: &str) -> Option<Bounds> {
    let [left, top, right, bottom] = numbers(text)?;
    Some(Bounds::new(left, top, right, bottom))
}

fn placement(text: &str) -> Option<Placement> {
    let (head, rest) = text.split_once(" (")?;
    let (footprint, collision) = rest.strip_suffix(')')?.split_once(") (")?;
    let [spec, group, x, y] = numbers(head)?;
    Some(Placement {
        spec,
        group,
        tile: (x, y),
        footprint: rect(footprint)?,
        collision: rect(collision)?,
    })
}
