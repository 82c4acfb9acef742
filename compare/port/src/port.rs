//! The port's nine calls, over the values of `values`.

use hitrovzen::raw;

use crate::counts::{BEGIN, CLOSER, COVER, JUDGE, LIFT, PREPARE, RANK, READ, STEP};
use crate::spoil::Spoiler;
use crate::values::{Asked, Building, Inputs, Query, Rank, Store, Terrain, Word, Work};

/// A call's answer and the index that goes with it.
pub type Answer = (u32, u32);

#[derive(Debug, Clone, Copy, PartialEq, Eq)]
pub struct Part {
    pub answer: Answer,
    pub first: u32,
    pub count: u32,
}

#[derive(Debug, Clone, Copy, PartialEq, Eq)]
pub struct Judgement {
    pub answer: Answer,
    pub verdict: u32,
    pub ground: u32,
}

/// Calls a function with numbers, slices (pointer and length), areas and places for numbers.
macro_rules! call {
    ($name:ident, $query:expr; $($rest:tt)*) => {{
        let query: &Query = $query;
        let [wl, wt, wr, wb] = query.window;
        let [bl, bt, br, bb] = query.block;
        let [al, at, ar, ab] = query.allow;
        call!(@ $name, (wl, wt, wr, wb, query.start[0], query.start[1], query.end[0], query.end[1], bl, bt, br, bb,
            query.allow_given, al, at, ar, ab,); $($rest)*)
    }};
    (@ $name:ident, ($($done:tt)*);) => {
        // Safety: every pointer comes with its own vector's length, and the areas are vectors of their own.
        unsafe { raw::$name($($done)*) }
    };
    (@ $name:ident, ($($done:tt)*); number $e:expr; $($rest:tt)*) => { call!(@ $name, ($($done)* $e,); $($rest)*) };
    (@ $name:ident, ($($done:tt)*); slice $e:expr; $($rest:tt)*) => {
        call!(@ $name, ($($done)* $e.as_ptr(), $e.len(),); $($rest)*)
    };
    (@ $name:ident, ($($done:tt)*); area $e:expr; $($rest:tt)*) => {
        call!(@ $name, ($($done)* $e.as_mut_ptr(), $e.len(),); $($rest)*)
    };
    (@ $name:ident, ($($done:tt)*); place $e:expr; $($rest:tt)*) => { call!(@ $name, ($($done)* &raw mut $e,); $($rest)*) };
}

pub fn prepare(terrain: &Terrain, query: &Query, mover: [u32; 4], steps: &[i32], baseline: &mut [u8], work: &mut Work) -> u32 {
    let [left, top, right, bottom] = query.window;
    let mut answer = call!(@ hitrovzen_prepare, ();
        number terrain.across; number terrain.down; slice terrain.cells; slice terrain.obstacles;
        number left; number top; number right; number bottom;
        number query.start[0]; number query.start[1]; number query.end[0]; number query.end[1];
        number mover[0]; number mover[1]; number mover[2]; number mover[3];
        slice steps; area baseline; area work.counts; area work.map; area work.queue; area work.predecessors; area work.route;);
    let spoil = Spoiler::after(PREPARE, answer);
    spoil.number("answer", &mut answer);
    spoil.area("baseline", "past the baseline", baseline);
    spoil.work(work);
    answer
}

pub fn begin(inputs: &Inputs, store: &mut Store, work: &mut Work) -> Answer {
    let mut index = u32::PAST;
    let mut answer = call!(hitrovzen_begin, &inputs.query;
        number inputs.states; number inputs.results;
        slice inputs.groups; slice inputs.numbers; slice inputs.edges; slice inputs.block_base; slice inputs.allow_base;
        slice inputs.steps; area store.record;
        area work.counts; area work.map; area work.queue; area work.predecessors; area work.route;
        area store.lists; area store.visited; area store.layouts; area store.points; place index;);
    let spoil = Spoiler::after(BEGIN, answer);
    spoil.number("answer", &mut answer);
    spoil.number("index", &mut index);
    spoil.store(store);
    spoil.work(work);
    (answer, index)
}

pub fn step(inputs: &Inputs, store: &mut Store, n: u32, work: &mut Work) -> Answer {
    let mut index = u32::PAST;
    let mut answer = call!(hitrovzen_step, &inputs.query;
        number inputs.states; number inputs.results;
        slice inputs.groups; slice inputs.numbers; slice inputs.edges; slice inputs.block_base; slice inputs.allow_base;
        slice inputs.steps; area store.record; number n;
        area work.counts; area work.map; area work.queue; area work.predecessors; area work.route;
        area store.lists; area store.visited; area store.layouts; area store.points; place index;);
    let spoil = Spoiler::after(STEP, answer);
    spoil.number("answer", &mut answer);
    spoil.number("index", &mut index);
    spoil.store(store);
    spoil.work(work);
    (answer, index)
}

pub fn read(inputs: &Inputs, store: &Store, k: u32) -> Part {
    let (mut index, mut first, mut count) = (u32::PAST, u32::PAST, u32::PAST);
    let mut answer = call!(hitrovzen_read, &inputs.query;
        number inputs.states; number inputs.results;
        slice inputs.groups; slice inputs.numbers; slice inputs.edges; slice inputs.block_base; slice inputs.allow_base;
        slice store.record; number k;
        slice store.lists; slice store.visited; slice store.layouts; slice store.points;
        place index; place first; place count;);
    let spoil = Spoiler::after(READ, answer);
    spoil.number("answer", &mut answer);
    spoil.number("index", &mut index);
    spoil.number("first", &mut first);
    spoil.number("count", &mut count);
    Part { answer: (answer, index), first, count }
}

pub fn judge(inputs: &Inputs, selection: &[u16], work: &mut Work) -> Judgement {
    let (mut index, mut verdict, mut ground) = (u32::PAST, u32::PAST, u32::PAST);
    let mut answer = call!(hitrovzen_judge, &inputs.query;
        slice inputs.groups; slice inputs.numbers; slice inputs.edges; slice inputs.block_base; slice inputs.allow_base;
        slice inputs.steps; slice selection;
        area work.counts; area work.map; area work.queue; area work.predecessors; area work.route;
        place index; place verdict; place ground;);
    let spoil = Spoiler::after(JUDGE, answer);
    spoil.number("answer", &mut answer);
    spoil.number("index", &mut index);
    spoil.number("verdict", &mut verdict);
    spoil.number("ground", &mut ground);
    spoil.work(work);
    Judgement { answer: (answer, index), verdict, ground }
}

pub fn cover(building: &Building, baseline: &mut [u8]) -> u32 {
    let Building { window, mover, rect } = building;
    let mut answer = call!(@ hitrovzen_cover, ();
        number window[0]; number window[1]; number window[2]; number window[3];
        number mover[0]; number mover[1]; number mover[2]; number mover[3];
        number rect[0]; number rect[1]; number rect[2]; number rect[3];
        area baseline;);
    let spoil = Spoiler::after(COVER, answer);
    spoil.number("answer", &mut answer);
    spoil.area("baseline", "past the baseline", baseline);
    answer
}

pub fn lift(building: &Building, baseline: &mut [u8]) -> u32 {
    let Building { window, mover, rect } = building;
    let mut answer = call!(@ hitrovzen_lift, ();
        number window[0]; number window[1]; number window[2]; number window[3];
        number mover[0]; number mover[1]; number mover[2]; number mover[3];
        number rect[0]; number rect[1]; number rect[2]; number rect[3];
        area baseline;);
    let spoil = Spoiler::after(LIFT, answer);
    spoil.number("answer", &mut answer);
    spoil.area("baseline", "past the baseline", baseline);
    answer
}

pub fn rank(asked: &Asked) -> (u32, Rank) {
    let Asked { across, down, first, second, radius, footprint } = *asked;
    let (mut quotient, mut remainder, mut divisor) = (u64::PAST, u64::PAST, u64::PAST);
    let mut answer = call!(@ hitrovzen_rank, ();
        number across; number down; number first[0]; number first[1]; number second[0]; number second[1]; number radius;
        number footprint[0]; number footprint[1]; number footprint[2]; number footprint[3];
        place quotient; place remainder; place divisor;);
    let spoil = Spoiler::after(RANK, answer);
    spoil.number("answer", &mut answer);
    spoil.wide("quotient", &mut quotient);
    spoil.wide("remainder", &mut remainder);
    spoil.wide("divisor", &mut divisor);
    (answer, [quotient, remainder, divisor])
}

pub fn closer(a: Rank, b: Rank) -> u32 {
    let mut answer = call!(@ hitrovzen_closer, ();
        number a[0]; number a[1]; number a[2]; number b[0]; number b[1]; number b[2];);
    Spoiler::after(CLOSER, answer).number("answer", &mut answer);
    answer
}
