//! The searches that the program `program_replay` makes and the answers that it must print. README.md
//! says how both are written.

use std::fmt::Write;

use crate::case::{Case, Mover, Placement, Rect, Snapshot};
use crate::list::Item;
use crate::run::{Baselines, Search, prepare};
use crate::walls::search::probe;
use crate::{directed, domain, generate, ground, maps, verdict};

/// One search with the selections that are judged after it.
#[derive(Debug, Clone)]
pub struct Stored {
    pub item: Item,
    pub selections: Vec<Vec<u32>>,
}

pub const SEED: u64 = 65_535;
const SEARCHES: usize = 1_200;
/// Of the generated searches, at most so many are refused by prepare, and at most so many stop after
/// one or two evaluations.
const REFUSED: usize = 60;
const SHORT: usize = 100;

/// The sizes of the program's areas.
const CENTRES: usize = 78_000;
const COUNTS: usize = 78_561;
const PLACES: usize = 64;
const STATES: u32 = 500;
const POINTS: usize = 624_000;
const LINE: usize = 4_096;

/// The directed searches that begin and fit, refusals before any route, the two maps there and back,
/// then generated searches.
pub fn searches() -> Vec<Stored> {
    let mut list: Vec<Stored> = directed::items()
        .into_iter()
        .filter(|item| item.held.is_none() && fits(&item.case))
        .map(|item| Stored {
            selections: vec![Vec::new(), vec![0], vec![0, 1]],
            item,
        })
        .collect();
    list.extend(refusals());
    list.extend(full_size());
    let mut generator = generate::Generator::new(SEED);
    let mut rng = generate::Rng::new(SEED);
    let (mut refused, mut short) = (0, 0);
    while list.len() < SEARCHES {
        let mut item = generator.item();
        item.portions = portions(list.len(), item.case.states);
        let last = begun(&item).ok().map(|mut search| {
            search.step(item.case.states);
            search.snapshot()
        });
        let room = match &last {
            None => room(&mut refused, REFUSED),
            Some(last) if last.evaluations <= 2 => room(&mut short, SHORT),
            Some(_) => true,
        };
        if room {
            let selections = selections(&mut rng, &item.case, last.as_ref());
            list.push(Stored { item, selections });
        }
    }
    list
}

fn room(count: &mut usize, most: usize) -> bool {
    *count += 1;
    *count <= most
}

/// Portions of one size, by the search's number: 1, 2, 3, 7, 100 or all, six of them at most, then
/// sometimes the rest and one more.
fn portions(number: usize, states: u32) -> Vec<u32> {
    let size = [states, 1, 2, 3, 7, 100][number % 6];
    let mut row = match number % 6 {
        0 => vec![states],
        5 => vec![100, 100, 100],
        _ => vec![size; 2 + number % 5],
    };
    match number / 6 % 3 {
        0 => row.push(states),
        1 => row.extend([0, states, 1]),
        _ => {}
    }
    row
}

/// The empty selection, one that was evaluated, one at random, and sometimes one that is none.
fn selections(rng: &mut generate::Rng, case: &Case, last: Option<&Snapshot>) -> Vec<Vec<u32>> {
    let mut row = Vec::new();
    let Some(last) = last else { return row };
    let places = case.placements.len() as u32;
    row.push(last.visited[rng.below(last.visited.len() as u32) as usize].clone());
    let mut any: Vec<u32> = (0..places).filter(|_| rng.chance(1, 3)).collect();
    any.truncate(6);
    row.push(any);
    match rng.below(12) {
        0 => row.push(vec![places]),
        1 => row.push(vec![1, 0]),
        2 => row.push(vec![0, 0]),
        3 => row.push(Vec::new()),
        _ => {}
    }
    row
}

/// P with one thing wrong, for each of the numbers that need no route.
fn refusals() -> Vec<Stored> {
    let p = directed::p;
    let place = |change: fn(&mut Placement)| {
        let mut case = p();
        change(&mut case.placements[1]);
        case
    };
    let mut cases = vec![
        Case {
            cells: vec![2],
            ..p()
        },
        Case {
            cells: vec![1, 1],
            ..p()
        },
        Case { map: (0, 1), ..p() },
        Case {
            window: Rect::new(0, 0, 0, 3),
            ..p()
        },
        Case {
            window: Rect::new(-1, 0, 5, 3),
            ..p()
        },
        Case {
            window: Rect::new(0, 0, 9, 3),
            ..p()
        },
        Case {
            start: (0, 3),
            ..p()
        },
        Case { end: (5, 1), ..p() },
        Case {
            obstacles: vec![Rect::new(1, 1, 1, 2)],
            ..p()
        },
        Case {
            groups: vec![0],
            ..p()
        },
        Case {
            groups: vec![7],
            ..p()
        },
        Case {
            groups: vec![3, 4],
            ..p()
        },
        Case {
            groups: vec![1; 7],
            ..p()
        },
        Case { states: 0, ..p() },
        Case {
            states: 100_001,
            ..p()
        },
        Case { results: 0, ..p() },
        Case { results: 33, ..p() },
        place(|place| place.spec = 6),
        place(|place| place.group = 1),
        place(|place| place.footprint = Rect::new(2, 0, 2, 2)),
        place(|place| place.footprint = Rect::new(2, 0, 6, 2)),
        place(|place| place.collision = Rect::new(2, 1, 3, 0)),
    ];
    let mut large = p();
    large.block.bottom = 257;
    cases.push(large);
    let stored = |case| Stored {
        item: item("refused", case, vec![1]),
        selections: Vec::new(),
    };
    cases.into_iter().map(stored).collect()
}

/// The two maps, each also from end to start, in portions and at once.
fn full_size() -> Vec<Stored> {
    let there = [maps::narrow_ramp(), maps::broad_valley()];
    let stored = |name, case: Case, portions| Stored {
        item: item(name, case, portions),
        selections: vec![Vec::new(), vec![0], vec![0, 1], vec![0, 2], vec![1, 3]],
    };
    there
        .into_iter()
        .flat_map(|case| {
            [
                stored("full size", case.clone(), vec![1, 2, 3, 7, 100]),
                stored("full size, back", maps::back(case), vec![100]),
            ]
        })
        .collect()
}

fn item(name: &'static str, case: Case, portions: Vec<u32>) -> Item {
    Item {
        name,
        case,
        given: None,
        held: None,
        portions,
    }
}

fn fits(case: &Case) -> bool {
    let (width, height) = (case.window.width() as usize, case.window.height() as usize);
    width * height <= CENTRES
        && (width + 1) * (height + 1) <= COUNTS
        && case.placements.len() <= PLACES
        && case.states <= STATES
        && points(case) <= POINTS
        && case.cells.len() + 12 * case.placements.len() < LINE / 2
}

fn centres(case: &Case) -> usize {
    let (width, height) = (case.window.width().max(0), case.window.height().max(0));
    (width * height) as usize
}

/// How many numbers of the points area a search may write.
fn points(case: &Case) -> usize {
    match case.allow {
        None => 0,
        Some(_) => 2 * domain::MAX_POINTS.min(case.results as usize * centres(case)),
    }
}

fn begun(item: &Item) -> Result<Search, u32> {
    match &item.given {
        Some(given) => Search::begin_on(&item.case, given),
        None => Search::begin(&item.case),
    }
}

/// The program's input: one search a line.
pub fn input(list: &[Stored]) -> String {
    let mut out = String::new();
    for (number, stored) in list.iter().enumerate() {
        let row = numbers(number, stored);
        assert!(row.len() <= LINE, "a line that the program holds");
        let words: Vec<String> = row.iter().map(i64::to_string).collect();
        out += &words.join(" ");
        out.push('\n');
    }
    out
}

/// A search's line: 31 numbers, then its runs.
fn numbers(number: usize, stored: &Stored) -> Vec<i64> {
    let Stored { item, selections } = stored;
    let case = &item.case;
    let edges = |r: &Rect| [r.left, r.top, r.right, r.bottom].map(i64::from);
    let allow = case
        .allow
        .map_or([0; 5], |b| [1, b.left, b.top, b.right, b.bottom]);
    let mut row = vec![number as i64];
    let mut put = |values: &[u32]| row.extend(values.iter().map(|&value| i64::from(value)));
    put(&[case.map.0, case.map.1]);
    put(&[case.cells.len() as u32, case.obstacles.len() as u32]);
    row.extend(edges(&case.window));
    let mut put = |values: &[u32]| row.extend(values.iter().map(|&value| i64::from(value)));
    put(&[case.start.0, case.start.1, case.end.0, case.end.1]);
    put(&[
        case.block.left,
        case.block.top,
        case.block.right,
        case.block.bottom,
    ]);
    put(&allow);
    put(&[case.states, case.results]);
    put(&[case.groups.len() as u32, case.placements.len() as u32]);
    put(&[item.portions.len() as u32, selections.len() as u32]);
    put(&[
        centres(case) as u32,
        points(case) as u32,
        u32::from(item.given.is_some()),
    ]);
    row.extend(case.cells.iter().map(|&cell| i64::from(cell)));
    row.extend(case.obstacles.iter().flat_map(edges));
    let mut put = |values: &[u32]| row.extend(values.iter().map(|&value| i64::from(value)));
    put(&case.groups);
    for place in &case.placements {
        put(&[place.spec, place.group, place.tile.0, place.tile.1]);
    }
    for place in &case.placements {
        row.extend(edges(&place.footprint));
        row.extend(edges(&place.collision));
    }
    let mut put = |values: &[u32]| row.extend(values.iter().map(|&value| i64::from(value)));
    put(&item.portions);
    for selection in selections {
        put(&seven(selection));
    }
    if let Some(given) = &item.given {
        let marks = given.block.iter().chain(given.allow.iter().flatten());
        row.extend(marks.map(|&off| i64::from(off)));
    }
    row
}

/// A row of the visited and layouts areas: the length and six members.
fn seven(set: &[u32]) -> [u32; 7] {
    let mut row = [0; 7];
    row[0] = set.len() as u32;
    row[1..=set.len()].copy_from_slice(set);
    row
}

/// What the program must print.
pub fn output(list: &[Stored]) -> String {
    let mut out = String::new();
    for (number, stored) in list.iter().enumerate() {
        writeln!(out, "search {number}").expect("text");
        answer(&mut out, stored);
    }
    out
}

fn answer(out: &mut String, stored: &Stored) {
    let Some(baselines) = baselines(out, &stored.item) else {
        return;
    };
    let case = &stored.item.case;
    let mut search = match Search::begin_on(case, &baselines) {
        Ok(search) => search,
        Err(15) => {
            writeln!(out, "begin 15 {}", first_wrong(case)).expect("text");
            return;
        }
        Err(number) => {
            writeln!(out, "begin {number}").expect("text");
            return;
        }
    };
    writeln!(out, "begin 0 {}", record(case, &search.snapshot())).expect("text");
    for portion in &stored.item.portions {
        search.step(*portion);
        writeln!(out, "step {portion} 0 {}", record(case, &search.snapshot())).expect("text");
    }
    let last = search.snapshot();
    for (k, layout) in last.layouts.iter().enumerate() {
        let members: String = layout
            .members
            .iter()
            .map(|member| format!(" {member}"))
            .collect();
        let route: Vec<u32> = layout.route.iter().flat_map(|&(x, y)| [x, y]).collect();
        writeln!(
            out,
            "layout {k} 0 0{members} route {} {}",
            route.len(),
            digest(0, route.iter().copied())
        )
        .expect("text");
    }
    writeln!(out, "layout {} 17 0 route 0 0", last.layouts.len()).expect("text");
    let walls = last.layouts.iter().map(|layout| &layout.members);
    for selection in walls.chain(&stored.selections) {
        writeln!(out, "judge {}", judged(&search, selection)).expect("text");
    }
}

/// The baselines given, or those that prepare makes, with its answers; none where it refuses.
fn baselines(out: &mut String, item: &Item) -> Option<Baselines> {
    if let Some(given) = &item.given {
        return Some(given.clone());
    }
    let mut prepared = |name: &str, mover| {
        let answer = prepare(&item.case, mover);
        let zeros = vec![false; centres(&item.case)];
        let marks = match &answer {
            Ok(baseline) => format!("0 {}", marks(baseline)),
            Err(number @ 7..=9) => format!("{number} {}", marks(&zeros)),
            Err(number) => number.to_string(),
        };
        writeln!(out, "{name} {marks}").expect("text");
        answer.ok()
    };
    let block = prepared("block", Mover::Block);
    let allow = item.case.allow.map(|_| prepared("allow", Mover::Allow));
    Some(Baselines {
        block: block?,
        allow: match allow {
            None => None,
            Some(baseline) => Some(baseline?),
        },
    })
}

fn marks(baseline: &[bool]) -> u32 {
    digest(0, baseline.iter().map(|&off| u32::from(off)))
}

/// The index of the first placement that 15 turns away.
fn first_wrong(case: &Case) -> usize {
    let alone = |place: &Placement| Case {
        placements: vec![*place],
        ..case.clone()
    };
    let wrong = |place| domain::begin_after_routes(&alone(place)).is_err();
    case.placements
        .iter()
        .position(wrong)
        .expect("a refused placement")
}

/// The record, and the digest of the areas and of its rows, each laid out as docs/RULES.md, 6, says.
fn record(case: &Case, held: &Snapshot) -> String {
    let places = case.placements.len();
    let mut lists = vec![0; 6 * places];
    let (mut lengths, mut nexts, mut routes) = ([0; 6], [0; 6], [0; 32]);
    for (k, list) in held.lists.iter().enumerate() {
        lists[k * places..][..list.entries.len()].copy_from_slice(&list.entries);
        lengths[k] = list.entries.len() as u32;
        nexts[k] = list.next;
    }
    let rows = |sets: Vec<&Vec<u32>>, limit: u32| {
        let mut row: Vec<u32> = sets.into_iter().flat_map(|set| seven(set)).collect();
        row.resize(7 * limit as usize, 0);
        row
    };
    let visited = rows(held.visited.iter().collect(), case.states);
    let layouts = rows(
        held.layouts.iter().map(|layout| &layout.members).collect(),
        case.results,
    );
    let kept = held.layouts.iter().flat_map(|layout| &layout.route);
    let mut kept: Vec<u32> = kept.flat_map(|&(x, y)| [x, y]).collect();
    kept.resize(points(case), 0);
    for (route, layout) in routes.iter_mut().zip(&held.layouts) {
        *route = layout.route.len() as u32;
    }
    let areas = lists.into_iter().chain(visited).chain(layouts).chain(kept);
    let all = areas.chain(lengths).chain(nexts).chain(routes);
    format!(
        "{} {} {} {} {} {} {}",
        held.reason as u32,
        held.evaluations,
        held.placements,
        held.layouts.len(),
        held.lists.len(),
        u32::from(held.pending.is_some()),
        digest(0, all)
    )
}

/// Each number in turn: the digest times 1,000,003, plus the number, plus 1, modulo 4,294,967,291.
fn digest(start: u32, numbers: impl IntoIterator<Item = u32>) -> u32 {
    numbers.into_iter().fold(start, |digest, number| {
        ((u64::from(digest) * 1_000_003 + u64::from(number) + 1) % 4_294_967_291) as u32
    })
}

/// The judgement: the answer, then the verdict's number and the ground left.
fn judged(search: &Search, set: &[u32]) -> String {
    let (case, original) = (search.case(), search.original());
    let places = case.placements.len();
    let ascends = set.windows(2).all(|pair| pair[0] < pair[1]);
    if !ascends || set.len() > 6 || set.iter().any(|&member| member as usize >= places) {
        return String::from("17");
    }
    let block = probe::cover(original, Mover::Block, set).expect("the blocked mover");
    let number = verdict::number(case, original, set, &block);
    let ground = ground::reached(&block, case.window, case.start);
    format!("0 {number} {ground}")
}

/// How many lines of each kind an output has, and how many searches last stood at each reason.
pub fn summary(output: &str) -> String {
    let count = |word: &str| output.lines().filter(|line| line.starts_with(word)).count();
    let mut last = [0; 5];
    let mut walls = 0;
    for search in output.split("search ").skip(1) {
        let mut steps = search.lines().filter_map(|line| line.strip_prefix("step "));
        let Some(step) = steps.next_back() else {
            continue;
        };
        let values: Vec<usize> = step
            .split(' ')
            .map(|word| word.parse().expect("a number"))
            .collect();
        last[values[2]] += 1;
        walls += usize::from(values[5] > 0);
    }
    format!(
        "{} searches, {} steps, {} readings, {} judgements; at the end {} running, {} exhausted, {} at the state limit, {} at the result limit, {walls} with walls",
        count("search "),
        count("step "),
        count("layout "),
        count("judge "),
        last[1],
        last[2],
        last[3],
        last[4]
    )
}
