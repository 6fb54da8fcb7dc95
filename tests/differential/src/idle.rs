//! What a state and its next ticks show of idle ticks that go to waiting requests (document 02, 5/13).

use std::ops::Range;

use second::state::CLOCK_LAST;
use second::table::{RETURNING, SPORADIC};
use second::State;

use crate::returns::{goes_on, no_place};

/// How a request has a tick.
#[derive(PartialEq)]
enum How {
    ByBudget,
    /// The tick would be idle.
    Given,
}

/// How a request has the next tick of a state, if one has: read off between steps 3 and 4.
fn how(before: &State) -> Option<How> {
    if before.waiting == 0 || before.clock >= CLOCK_LAST || !before.is_fit() {
        return None;
    }
    let mut within = *before;
    let opened = within.begin_tick();
    let by_budget = within.service.budget > 0 && !no_place(&within);
    match (opened.above, opened.below) {
        (Some(_), _) => None,
        (None, _) if by_budget => Some(How::ByBudget),
        (None, Some(_)) => None,
        (None, None) => Some(How::Given),
    }
}

/// Whether the next tick would be idle, and a request has it.
pub fn given(before: &State) -> bool {
    how(before) == Some(How::Given)
}

/// Whether a request has the next tick, by the budget.
pub fn by_budget(before: &State) -> bool {
    how(before) == Some(How::ByBudget)
}

const GIVEN: &str = "idle tick given";
const EMPTIES: &str = "idle tick given that leaves nobody waiting";
const THEN: &str = "idle tick given, then one by the budget";
const BLOCKED: &str = "idle tick given with 32 held and budget left";
const BETWEEN: &str = "idle tick given between two stretches";
const WAKES: &str = "idle tick given, then rows wake";
/// With a budget of 0: no run from a fresh state leads there.
const UNSERVED: &str = "idle tick given without service since tr";

fn under(what: &str, kind: u32) -> String {
    format!("{what} under kind {kind}")
}

/// What the ticks of plans can show.
pub fn shown_by_plans() -> Vec<String> {
    let each = |what: &'static str, kinds: Range<u32>| kinds.map(move |kind| under(what, kind));
    let of_one = [(BLOCKED, RETURNING), (BETWEEN, RETURNING), (WAKES, SPORADIC)].map(|(what, kind)| under(what, kind));
    each(GIVEN, 0..5).chain(each(EMPTIES, 0..5)).chain(each(THEN, 1..5)).chain(of_one).collect()
}

/// What ticks from any fit states can show.
pub fn shown_by_calls() -> Vec<String> {
    shown_by_plans().into_iter().chain([under(UNSERVED, SPORADIC)]).collect()
}

/// What the next tick of a state shows, if it would be idle and a request has it.
pub fn shown(before: &State) -> Vec<String> {
    if !given(before) {
        return Vec::new();
    }
    let kind = before.table.server.kind;
    let mut after = *before;
    after.tick().expect("a tick that a request has");
    let then = how(&after) == Some(How::ByBudget);
    let all = [
        (GIVEN, true),
        (EMPTIES, after.waiting == 0),
        (THEN, then),
        (BLOCKED, kind == RETURNING && after.service.budget > 0),
        (BETWEEN, kind == RETURNING && then && goes_on(&after.returns, before.clock)),
        (WAKES, kind == SPORADIC && opens(&after)),
        (UNSERVED, kind == SPORADIC && !before.service.served),
    ];
    all.into_iter().filter(|&(_, holds)| holds).map(|(what, _)| under(what, kind)).collect()
}

/// Whether a row is open in the next tick.
fn opens(state: &State) -> bool {
    let opened = { *state }.begin_tick();
    opened.above.is_some() || opened.below.is_some()
}
