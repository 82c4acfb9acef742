//! One line: the same work by the port and by the original in turn, results compared, medians taken.

use std::collections::HashSet;
use std::time::Duration;

use judge::order::{ORIGINAL_STEPS, Ordered};
use judge::{Baselines, Case, Rect, Snapshot};

use crate::clock;
use crate::inputs::Size;
use crate::original::Original;
use crate::port::Port;
use crate::side::{Buffers, Outcome, Side};

pub enum Work {
    Prepare,
    Begin,
    /// So many evaluations in portions, from what begin leaves or from a record that is set.
    Steps {
        evaluations: u32,
        portion: u32,
        held: Option<Snapshot>,
    },
    /// A building lifted at one place and covered at another.
    Drag {
        from: Rect,
        to: Rect,
    },
    /// A selection judged.
    Judge(Vec<u16>),
    /// Every placement ranked, a call each.
    Rank {
        radius: u32,
    },
}

pub struct Line {
    pub name: String,
    pub size: Size,
    /// Makes the inputs.
    pub case: Box<dyn Fn() -> Case>,
    pub work: Work,
    pub buffers: Buffers,
    /// The port's order of steps. The original has its own alone.
    pub steps: &'static [i32],
}

pub struct Measured {
    pub port: f64,
    pub original: f64,
    pub runs: usize,
    /// Of the port's call and of the original's.
    pub repeats: [u32; 2],
    /// What both came to, in words.
    pub done: String,
}

/// The timed part alone: what comes before it makes ready.
pub fn timed(side: &mut dyn Side, line: &Line) -> Duration {
    match &line.work {
        Work::Prepare => {
            side.forget();
            side.lend(line.buffers);
            clock(|| side.prepare())
        }
        Work::Begin => {
            side.forget();
            side.lend(line.buffers);
            clock(|| side.begin())
        }
        Work::Steps {
            evaluations,
            portion,
            held,
        } => {
            match held {
                Some(held) => side.hold(held),
                None => side.begin(),
            }
            side.lend(line.buffers);
            clock(|| steps(side, *evaluations, *portion))
        }
        &Work::Drag { from, to } => {
            side.stand(from, to);
            clock(|| side.drag(from, to))
        }
        Work::Judge(selection) => {
            side.begin();
            side.lend(line.buffers);
            clock(|| side.judge(selection))
        }
        Work::Rank { radius } => clock(|| side.rank(*radius)),
    }
}

fn steps(side: &mut dyn Side, evaluations: u32, portion: u32) {
    let mut done = 0;
    while done < evaluations && side.is_running() {
        side.step(portion);
        done += portion;
    }
}

fn clock(call: impl FnOnce()) -> Duration {
    let from = clock::now();
    call();
    clock::now() - from
}

/// The time of one run: the median of its calls, in milliseconds.
fn run(side: &mut dyn Side, line: &Line, repeats: u32) -> f64 {
    let call = |_| timed(side, line).as_secs_f64() * 1e3;
    median((0..repeats).map(call).collect())
}

fn median(mut times: Vec<f64>) -> f64 {
    times.sort_by(f64::total_cmp);
    times[times.len() / 2]
}

/// What a search in another order of steps than the original's comes to, by the judge's reading. It is not timed.
pub fn read(case: &Case, baselines: &Baselines, line: &Line) -> Option<Snapshot> {
    if line.steps == ORIGINAL_STEPS {
        return None;
    }
    let Work::Steps {
        evaluations,
        held: None,
        ..
    } = line.work
    else {
        panic!("{}: only a begun search is read", line.name);
    };
    let mut search = Ordered::begin_on(case, baselines, line.steps).expect("an accepted begin");
    search.step(evaluations);
    Some(search.snapshot())
}

/// What both came to, in words; it must be the same. `whole` compares the visited sets as well. In another order of steps the port's
/// search must be the one that was read.
fn compared(
    port: &dyn Side,
    original: &dyn Side,
    read: Option<&Snapshot>,
    line: &Line,
    whole: bool,
) -> String {
    let name = &line.name;
    if let Some(read) = read {
        let outcome = port.outcome();
        assert!(outcome == Outcome::of(read), "{name}: two outcomes");
        let wide = |set: &Vec<u32>| set.iter().map(|&member| member as usize).collect();
        let visited: Vec<Vec<usize>> = read.visited.iter().map(wide).collect();
        assert!(port.visited() == visited, "{name}: two visited rows");
        return outcome.to_string();
    }
    match line.work {
        Work::Prepare | Work::Drag { .. } => {
            let same = port.baseline() == original.baseline();
            assert!(same, "{name}: two baselines");
            "-".into()
        }
        Work::Judge(_) => {
            let judged = port.judged();
            assert_eq!(judged, original.judged(), "{name}: two judgements");
            judged.to_string()
        }
        Work::Rank { .. } => {
            let ranks = port.ranks();
            assert!(ranks == original.ranks(), "{name}: two rows of ranks");
            let ranked = ranks.iter().flatten().count();
            format!("{ranked} of {} ranked", ranks.len())
        }
        Work::Begin | Work::Steps { .. } => {
            let outcome = port.outcome();
            assert!(outcome == original.outcome(), "{name}: two outcomes");
            if whole {
                compare_visited(port, original, name, outcome.evaluations as usize);
            }
            outcome.to_string()
        }
    }
}

fn compare_visited(port: &dyn Side, original: &dyn Side, name: &str, evaluations: usize) {
    let rows: HashSet<_> = port.visited().into_iter().collect();
    assert!(rows.len() == evaluations, "{name}: a set visited twice");
    let others = original.visited().into_iter().collect();
    assert!(rows == others, "{name}: two visited sets");
}

/// How often the port's call and the original's are repeated in a run. A drag is so much shorter than the preparing beside it that each
/// has a number of its own; all else is repeated equally often.
fn repeats(line: &Line, first: [f64; 2]) -> [u32; 2] {
    let often = |time: f64| (50.0 / time).clamp(1.0, 500.0) as u32;
    match line.work {
        Work::Drag { .. } => first.map(often),
        _ => [often(first[0] + first[1]); 2],
    }
}

/// The first pair tells how often a call is repeated in a run and how many runs there are: 9, 5 where the pair takes above half a second,
/// 3 above two seconds; above eight the pair is all.
pub fn measure(
    port: &mut Port,
    original: &mut Original,
    read: Option<&Snapshot>,
    line: &Line,
) -> Measured {
    let first = [timed(port, line), timed(original, line)].map(|time| time.as_secs_f64() * 1e3);
    let done = compared(port, original, read, line, true);
    let pair = first[0] + first[1];
    let repeats = repeats(line, first);
    let runs = match pair {
        pair if pair > 8_000.0 => 0,
        pair if pair > 2_000.0 => 3,
        pair if pair > 500.0 => 5,
        _ => 9,
    };
    let mut times = [Vec::new(), Vec::new()];
    for _ in 0..runs {
        times[0].push(run(port, line, repeats[0]));
        times[1].push(run(original, line, repeats[1]));
        compared(port, original, read, line, false);
    }
    if runs == 0 {
        times = first.map(|time| vec![time]);
    }
    let [port, original] = times;
    Measured {
        runs: port.len(),
        port: median(port),
        original: median(original),
        repeats,
        done,
    }
}
