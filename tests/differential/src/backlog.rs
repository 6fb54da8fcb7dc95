//! The work that waits, kept as a figure (document 02, 8/13): the sum over the queue, apart from the second implementation's own; figures
//! that are not the sum; and what calls show of it.

use second::state::QUEUE;
use second::State;

use crate::call::Call;
use crate::idle::{by_budget, given};
use crate::random::Random;

/// How many of the queue's slots are in use: all, if more are said to wait.
pub fn slots_used(state: &State) -> usize {
    state.waiting.min(QUEUE as u32) as usize
}

fn sum_of_first(state: &State, slots: usize) -> u64 {
    let mut sum = 0;
    for request in &state.queue[..slots] {
        sum += request.work as u64;
    }
    sum
}

/// The ticks of work waiting.
pub fn sum(state: &State) -> u64 {
    sum_of_first(state, slots_used(state))
}

/// What a state is to hold: the sum, or its lower 32 bits, which it has only with a work that makes the state unfit by itself.
pub fn figure(state: &State) -> u32 {
    sum(state) as u32
}

/// A figure of a state that is to be wrong.
type Wrong = fn(&mut Random, &mut State) -> u32;

const WRONG: &[Wrong] = &[
    one_too_high,
    one_too_high,
    one_too_high,
    one_too_low,
    one_too_low,
    one_too_low,
    |_, _| 0,
    |_, _| u32::MAX,
    |_, state| figure(state).wrapping_add(0x1_0000),
    |_, state| figure(state).wrapping_sub(0x1_0000),
    |_, state| figure(state).wrapping_add(0x8000_0000),
    |_, state| state.waiting,
    of_every_slot,
    of_one_slot_more,
    of_one_slot_less,
    |_, state| figure(state).wrapping_sub(state.queue[0].work),
    |random, state| random.from(0, 2 * figure(state)),
    |random, _| random.word(),
];

fn one_too_high(_: &mut Random, state: &mut State) -> u32 {
    figure(state).wrapping_add(1)
}

fn one_too_low(_: &mut Random, state: &mut State) -> u32 {
    figure(state).wrapping_sub(1)
}

/// The slots that are not in use hold good works, so that a sum over more of them is a sum like any other.
fn good_works(random: &mut Random, state: &mut State) {
    for request in &mut state.queue[state.waiting as usize..] {
        request.work = random.from(1, 5);
    }
}

fn of_every_slot(random: &mut Random, state: &mut State) -> u32 {
    good_works(random, state);
    sum_of_first(state, QUEUE) as u32
}

fn of_one_slot_more(random: &mut Random, state: &mut State) -> u32 {
    good_works(random, state);
    sum_of_first(state, QUEUE.min(state.waiting as usize + 1)) as u32
}

fn of_one_slot_less(_: &mut Random, state: &mut State) -> u32 {
    sum_of_first(state, (state.waiting as usize).saturating_sub(1)) as u32
}

/// Makes a fit state unfit by its figure alone.
pub fn spoil(random: &mut Random, state: &mut State) {
    let wrong = random.pick(WRONG)(random, state);
    state.backlog = if wrong == figure(state) { one_too_high(random, state) } else { wrong };
}

/// How far the figure is from the sum, if it alone makes the state unfit.
pub fn off(state: &State) -> Option<u32> {
    let right = State { backlog: figure(state), ..*state };
    (state.backlog != right.backlog && right.is_fit()).then(|| state.backlog.wrapping_sub(right.backlog))
}

const TOO_LOW: &str = "with the figure one too low";
const TOO_HIGH: &str = "with the figure one too high";
const EMPTY: &str = "figure told of an empty queue";
const FULL: &str = "figure told with 24 waiting";
const LARGEST: &str = "figure 1440000 told";
const TOLD: &str = "figure told";
const ADDS: &str = "request adds its work";
const BAD_LEAVES: &str = "request refused 4 leaves the figure";
const FULL_LEAVES: &str = "request refused 5 leaves the figure";
const BY_BUDGET: &str = "tick by the budget takes one off";
const GIVEN: &str = "idle tick given takes one off";
const ROW: &str = "row's tick takes nothing off";
const NEXT_SERVED: &str = "run in which the head finishes and the next is served";

fn under(what: &str, kind: u32) -> String {
    format!("{what} under kind {kind}")
}

/// What calls can show; under kind 0 nobody has a budget.
pub fn shown_by_calls() -> Vec<String> {
    let of_one = [EMPTY, FULL, LARGEST, ADDS, BAD_LEAVES, FULL_LEAVES, NEXT_SERVED].map(String::from);
    let refused = ["request", "tick", "run", "waiting call"].into_iter().flat_map(|call| [TOO_LOW, TOO_HIGH].map(|off| wrong(call, off)));
    let under_each = (0..5).flat_map(|kind| [TOLD, GIVEN, ROW].map(|what| under(what, kind)));
    of_one.into_iter().chain(refused).chain(under_each).chain((1..5).map(|kind| under(BY_BUDGET, kind))).collect()
}

fn wrong(call: &str, off: &str) -> String {
    format!("{call} refused 11 {off}")
}

/// What a call shows: the state before it, its name and number, the state after it. The figures stand here for themselves.
pub fn shown(before: &State, call: &Call, ending: &str, after: &State) -> Vec<String> {
    match (off(before), call) {
        (_, Call::SetUp(_) | Call::Admit(_) | Call::Damaged { .. }) => Vec::new(),
        (Some(1), _) => vec![format!("{ending} {TOO_HIGH}")],
        (Some(u32::MAX), _) => vec![format!("{ending} {TOO_LOW}")],
        _ if before.is_fit() => shown_by_fit(before, call, ending, after),
        _ => Vec::new(),
    }
}

fn shown_by_fit(before: &State, call: &Call, ending: &str, after: &State) -> Vec<String> {
    match *call {
        Call::Waiting => told(before),
        Call::Request { work, .. } => requested(before, work, ending, after),
        Call::Tick if ending == "tick done" => ticked(before, after),
        Call::Run { .. } if sum(before) - sum(after) > before.queue[0].work as u64 => vec![NEXT_SERVED.to_string()],
        _ => Vec::new(),
    }
}

fn words<const N: usize>(all: [(&str, bool); N]) -> Vec<String> {
    all.into_iter().filter(|&(_, holds)| holds).map(|(what, _)| what.to_string()).collect()
}

fn told(state: &State) -> Vec<String> {
    let told = under(TOLD, state.table.server.kind);
    words([
        (&told, true),
        (EMPTY, state.waiting == 0 && state.backlog == 0),
        (FULL, state.waiting == 24 && state.backlog >= 24),
        (LARGEST, state.backlog == 1_440_000),
    ])
}

fn requested(before: &State, work: u32, ending: &str, after: &State) -> Vec<String> {
    let left = sum(after) == sum(before) && after.backlog == before.backlog;
    words([
        (ADDS, ending == "request done" && after.backlog == before.backlog + work && sum(after) == sum(before) + work as u64),
        (BAD_LEAVES, ending == "request refused 4" && work > 0 && left),
        (FULL_LEAVES, ending == "request refused 5" && left),
    ])
}

fn ticked(before: &State, after: &State) -> Vec<String> {
    let takes = |off: u32| after.backlog + off == before.backlog && sum(after) + off as u64 == sum(before);
    let [by, gives, leaves] = [BY_BUDGET, GIVEN, ROW].map(|what| under(what, before.table.server.kind));
    let (by_budget, given) = (by_budget(before), given(before));
    words([(&by, by_budget && takes(1)), (&gives, given && takes(1)), (&leaves, before.waiting > 0 && !by_budget && !given && takes(0))])
}
