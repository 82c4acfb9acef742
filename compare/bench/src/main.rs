//! Times the original search and its port: same inputs, same driver, in turn. A line a case. The lines "diagonals first" have the port's
//! search in that order of steps, which is compared with the judge's reading, beside the original's in its own.
//!
//! `bench` prints the lines, `bench --markdown` the rows of the table in docs/PERFORMANCE.md. `bench --only TEXT` takes the cases whose
//! name or window has the text, so `bench --only drag` those of cover and lift, `bench --only judge` those of judging,
//! `bench --only footprints` those of rank and `bench --only diagonals` those in another order. With `--port` or `--original` besides
//! it runs one side once, for a profiler. `--cpu` takes the processor's time of this thread in place of the time on the wall: on a
//! machine that does other work too, what it does meanwhile is then left out.

mod clock;
mod inputs;
mod measure;
mod original;
mod port;
mod side;

use inputs::{Corridor, LARGE, MIDDLE, SMALL, Size};
use judge::order::{DIAGONALS_FIRST, ORIGINAL_STEPS};
use judge::{Baselines, Case};
use measure::{Line, Measured, Work, measure, read, timed};
use original::Original;
use port::Port;
use side::Buffers;

fn line(
    name: impl Into<String>,
    size: Size,
    case: impl Fn(Size) -> Case + 'static,
    work: Work,
    buffers: Buffers,
) -> Line {
    Line {
        name: name.into(),
        size,
        case: Box::new(move || case(size)),
        work,
        buffers,
        steps: &ORIGINAL_STEPS,
    }
}

fn steps(evaluations: u32, portion: u32) -> Work {
    Work::Steps {
        evaluations,
        portion,
        held: None,
    }
}

fn portions(portion: u32, evaluations: u32) -> String {
    if portion == evaluations {
        "one call".into()
    } else {
        format!("portions of {portion}")
    }
}

/// How many evaluations a search of some length has: as many as keep a line below twenty seconds.
fn several(size: Size) -> u32 {
    match size {
        SMALL => 1_000,
        MIDDLE => 200,
        _ => 20,
    }
}

fn at_every_size(size: Size) -> Vec<Line> {
    let few = several(size);
    let six = Work::Steps {
        evaluations: 1,
        portion: 1,
        held: Some(inputs::all_six_taken()),
    };
    let search = move |size| inputs::search(size, few);
    let allowing = move |size| inputs::allowing(size, few);
    let crowded = |size| inputs::crowded(size, 20);
    let mut lines = vec![
        line(
            "prepare",
            size,
            inputs::rough,
            Work::Prepare,
            Buffers::Cleared,
        ),
        line(
            "prepare",
            size,
            inputs::rough,
            Work::Prepare,
            Buffers::Rubbish,
        ),
        line("begin", size, search, Work::Begin, Buffers::AsLeft),
        line(
            "one evaluation",
            size,
            search,
            steps(1, 1),
            Buffers::Cleared,
        ),
        line(
            "one evaluation",
            size,
            search,
            steps(1, 1),
            Buffers::Rubbish,
        ),
        line(
            "minimality, six members",
            size,
            inputs::barrier,
            six,
            Buffers::AsLeft,
        ),
        line(
            "allowed mover",
            size,
            allowing,
            steps(few, few),
            Buffers::AsLeft,
        ),
        line(
            "6,144 placements, 20 evaluations",
            size,
            crowded,
            steps(20, 20),
            Buffers::AsLeft,
        ),
    ];
    let portioned: &[u32] = match size {
        SMALL => &[],
        MIDDLE => &[few, 100, 1],
        _ => &[few, 1],
    };
    for &portion in portioned {
        let name = format!("{few} evaluations, {}", portions(portion, few));
        lines.push(line(
            name,
            size,
            search,
            steps(few, portion),
            Buffers::AsLeft,
        ));
    }
    lines
}

/// Long routes and many placements that do not touch them.
fn winding(size: Size) -> Vec<Line> {
    const FEW: u32 = 3;
    let mut lines = Vec::new();
    for (corridor, inside) in [
        ("winding corridor", Corridor::Clear),
        ("winding corridor with stones", Corridor::Stones),
    ] {
        let across = move |size| inputs::winding(size, FEW, inside);
        let down =
            move |(width, height)| inputs::turned(inputs::winding((height, width), FEW, inside));
        let words = |runs: &str| format!("{corridor}, runs {runs}, {FEW} evaluations");
        let work = || steps(FEW, FEW);
        lines.push(line(words("across"), size, across, work(), Buffers::AsLeft));
        lines.push(line(words("down"), size, down, work(), Buffers::AsLeft));
    }
    lines
}

fn many_on_small() -> Vec<Line> {
    let mut lines = Vec::new();
    for (words, many) in [("10,000", 10_000), ("100,000", 100_000)] {
        for portion in [many, 100, 1] {
            let name = format!("{words} evaluations, {}", portions(portion, many));
            let search = move |size| inputs::search(size, many);
            lines.push(line(
                name,
                SMALL,
                search,
                steps(many, portion),
                Buffers::AsLeft,
            ));
        }
    }
    lines
}

/// A building dragged, beside the same ground prepared anew with the building as one more obstacle, and one of four times the area.
fn drags(size: Size) -> Vec<Line> {
    let drag = |tiles: (i32, i32)| {
        let (from, to) = inputs::dragged(tiles);
        let name = format!("drag of a building of {} × {} tiles", tiles.0, tiles.1);
        let work = Work::Drag { from, to };
        line(name, size, inputs::dragged_on, work, Buffers::AsLeft)
    };
    let anew = |size| inputs::with(&inputs::dragged_on(size), inputs::dragged((4, 3)).1);
    let prepare = "prepare in place of the drag, 4 × 3 tiles";
    vec![
        drag((4, 3)),
        line(prepare, size, anew, Work::Prepare, Buffers::AsLeft),
        drag((8, 6)),
    ]
}

/// A selection that leaves a way, and a wall, which is the costliest verdict: each of its members is lifted once.
fn judgings(size: Size) -> Vec<Line> {
    let judge = |name, members: u16| {
        let work = Work::Judge((0..members).collect());
        line(name, size, inputs::barrier, work, Buffers::AsLeft)
    };
    vec![
        judge("judge, five members", 5),
        judge("judge, six members that are a wall", 6),
    ]
}

/// 6,144 calls of rank, with a radius of a quarter of the window's height.
fn ranks(size: Size) -> Vec<Line> {
    let radius = size.1 as u32 / 4;
    let work = Work::Rank { radius };
    let name = "rank of 6,144 footprints";
    vec![line(
        name,
        size,
        inputs::about_entrance,
        work,
        Buffers::AsLeft,
    )]
}

/// Searches of lines above in another order of steps: one route, several, kept routes, long routes with many placements beside them.
fn diagonals_first(size: Size) -> Vec<Line> {
    let few = several(size);
    let names = [
        "one evaluation".into(),
        format!("{few} evaluations, one call"),
        "allowed mover".into(),
        "winding corridor with stones, runs across, 3 evaluations".into(),
    ];
    let above = at_every_size(size).into_iter().chain(winding(size));
    let named = above.filter(|line| names.contains(&line.name) && line.buffers != Buffers::Rubbish);
    named
        .map(|line| Line {
            name: format!("{}, diagonals first", line.name),
            steps: &DIAGONALS_FIRST,
            ..line
        })
        .collect()
}

fn window((width, height): Size) -> String {
    format!("{width} × {height}")
}

fn ratio(ratio: f64) -> String {
    if ratio < 0.05 {
        format!("{ratio:.4}")
    } else {
        format!("{ratio:.2}")
    }
}

fn tell(line: &Line, measured: &Measured, markdown: bool) {
    let (name, window, buffers) = (&line.name, window(line.size), line.buffers.words());
    let Measured {
        port,
        original,
        runs,
        repeats: [calls, others],
        done,
    } = measured;
    let ratio = ratio(port / original);
    let repeats = if calls == others {
        calls.to_string()
    } else {
        format!("{calls} and {others}")
    };
    if markdown {
        println!(
            "| {name} | {window} | {port:.4} | {original:.4} | {buffers} | {runs} × {repeats} | {done} | {ratio} |"
        );
    } else {
        println!(
            "{name}; {window}; port {port:.4} ms; Rust {original:.4} ms; {buffers}; runs {runs} × {repeats}; {done}; ratio {ratio}"
        );
    }
}

fn main() {
    let words: Vec<String> = std::env::args().skip(1).collect();
    let has = |word: &str| words.iter().any(|given| given == word);
    let only = words
        .iter()
        .position(|given| given == "--only")
        .map(|at| words[at + 1].clone());
    let lines = [SMALL, MIDDLE, LARGE]
        .into_iter()
        .flat_map(at_every_size)
        .chain([MIDDLE, LARGE].into_iter().flat_map(winding))
        .chain(many_on_small())
        .chain([MIDDLE, LARGE].into_iter().flat_map(drags))
        .chain([SMALL, MIDDLE, LARGE].into_iter().flat_map(judgings))
        .chain([MIDDLE, LARGE].into_iter().flat_map(ranks))
        .chain([MIDDLE, LARGE].into_iter().flat_map(diagonals_first));
    if has("--cpu") {
        clock::take_processor_time();
    }
    for line in lines {
        let called = format!("{}; {}", line.name, window(line.size));
        if only
            .as_ref()
            .is_some_and(|text| !called.contains(text.as_str()))
        {
            continue;
        }
        let case = (line.case)();
        let baselines = Baselines::prepare(&case).expect("accepted ground");
        let read = read(&case, &baselines, &line);
        let mut port = Port::new(&case, &baselines, line.steps);
        let mut original = Original::new(&case, &baselines);
        if has("--port") || has("--original") {
            let side: &mut dyn side::Side = if has("--port") {
                &mut port
            } else {
                &mut original
            };
            println!("{called}: {:?}", timed(side, &line));
            continue;
        }
        tell(
            &line,
            &measure(&mut port, &mut original, read.as_ref(), &line),
            has("--markdown"),
        );
    }
}
