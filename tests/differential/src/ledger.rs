//! Request 8/13 of document 02, "the work that waits, kept as a figure", tried by the library's calls alone: lists of calls from a fresh
//! state, and what the library tells of the work waiting after each of them.

use second::refusal::UNFIT_STATE;
use second::state::{QUEUE, WORK_MOST};

use crate::abi::{Calls, State, Table};
use crate::convert::from_state;
use crate::idle::given;
use crate::made::{make, must, Made};
use crate::pair::{list_for, table, ticks, Call};
use crate::program::Seen;
use crate::random::Random;

#[derive(Clone, Copy, Debug)]
pub enum Step {
    Call(Call),
    /// The state with its figure off by one, in both directions, handed to every call; the list goes on with the state as it is.
    OffByOne,
}

#[derive(Clone, Debug)]
pub struct List {
    pub table: Table,
    pub steps: Vec<Step>,
}

pub fn random_list(random: &mut Random) -> List {
    let table = table(random);
    let ticks = ticks(random);
    let mut steps = Vec::new();
    for call in most_work(random).into_iter().chain(list_for(random, &table, ticks)) {
        steps.push(Step::Call(call));
        if random.once_in(12) {
            steps.push(Step::OffByOne);
        }
    }
    List { table, steps }
}

/// Once in 20, before all else: as much work as the queue holds, and sometimes more requests than that.
fn most_work(random: &mut Random) -> Vec<Call> {
    let count = if random.once_in(20) { QUEUE + random.below(3) } else { 0 };
    (0..count).map(|_| Call::Request { id: random.word(), work: WORK_MOST }).collect()
}

/// "the sum over the queue".
fn sum(state: &State) -> u64 {
    state.queue.requests.iter().take(state.queue.n as usize).map(|request| request.work as u64).sum()
}

struct Player<'a> {
    calls: &'a Calls,
    state: State,
    /// Whether set-up accepted the table. Else the state that it handed back is unfit.
    fit: bool,
    /// The works of the accepted requests, less the ticks that went to a request.
    ledger: i64,
    seen: &'a mut Seen,
}

impl Player<'_> {
    fn step(&mut self, step: Step) -> Result<(), String> {
        match step {
            Step::Call(call) => self.call(call).and_then(|()| self.ask()).map_err(|words| format!("{call:?}: {words}")),
            Step::OffByOne => self.off_by_one(),
        }
    }

    /// Each call gets the state that the last one handed back. "A refused call hands the state on unchanged."
    fn call(&mut self, call: Call) -> Result<(), String> {
        let made = make(self.calls, &self.state, call);
        must(self.fit || made.number == UNFIT_STATE, || format!("ends with {} on a refused table", made.number))?;
        must(made.rest_is_as_lent(), || "an entry is written that is no tick's".to_string())?;
        must(made.number == 0 || made.state == self.state, || format!("refused with {}, and the state is another", made.number))?;
        if made.number == 0 {
            self.enter(call, &made);
        }
        self.note(&made);
        self.state = made.state;
        Ok(())
    }

    /// "A request adds its work; a tick that goes to a request, under any kind, takes one off."
    fn enter(&mut self, call: Call, made: &Made) {
        if let Call::Request { work, .. } = call {
            self.ledger += work as i64;
        }
        self.ledger -= made.of_requests() as i64;
    }

    /// The figure is told, stored and summed alike; of an unfit state it is not told.
    fn ask(&mut self) -> Result<(), String> {
        let (stored, queue, ledger) = (self.state.queue.backlog, sum(&self.state), self.ledger);
        // SAFETY: structs by value, no pointer.
        let told = unsafe { (self.calls.waiting)(self.state) };
        if !self.fit {
            return must((told.number, told.work) == (UNFIT_STATE, 0), || format!("{told:?} on a refused table"));
        }
        must(told.number == 0, || format!("the work waiting is refused with {}", told.number))?;
        must(told.work as u64 == queue, || format!("{} ticks of work told, {queue} wait in the queue", told.work))?;
        must(told.work as i64 == ledger, || format!("{} ticks of work told, {ledger} by requests and ticks", told.work))?;
        must(told.work == stored, || format!("{} ticks of work told, {stored} stored", told.work))
    }

    /// "A state whose stored figure differs from that sum is unfit and gives refusal 11": one too high, one too low.
    fn off_by_one(&mut self) -> Result<(), String> {
        let right = self.state.queue.backlog;
        for figure in [right.wrapping_add(1), right.wrapping_sub(1)] {
            let mut state = self.state;
            state.queue.backlog = figure;
            self.all_refuse(&state).map_err(|words| format!("figure {figure} in place of {right}: {words}"))?;
        }
        self.note_off_by_one();
        Ok(())
    }

    fn all_refuse(&self, state: &State) -> Result<(), String> {
        for call in [Call::Request { id: 1, work: 1 }, Call::Tick, Call::Run { k: 2, lent: 3 }, Call::Run { k: 0, lent: 0 }] {
            let made = make(self.calls, state, call);
            must(made.number == UNFIT_STATE, || format!("{call:?} ends with {}", made.number))?;
            must(made.state == *state, || format!("{call:?} hands another state back"))?;
            must(made.rest_is_as_lent(), || format!("{call:?} writes an entry"))?;
        }
        // SAFETY: structs by value, no pointer.
        let told = unsafe { (self.calls.waiting)(*state) };
        must((told.number, told.work) == (UNFIT_STATE, 0), || format!("{told:?}"))
    }

    fn add(&mut self, what: &str) {
        match self.seen.get_mut(what) {
            Some(times) => *times += 1,
            None => {
                self.seen.insert(what.to_string(), 1);
            }
        }
    }

    /// Counts what a call showed, before the state moves on.
    fn note(&mut self, made: &Made) {
        match made.number {
            0 => self.add(&format!("{} done", made.name)),
            number => self.add(&format!("{} refused {number}", made.name)),
        }
        if self.fit {
            self.note_first_tick(made);
            self.note_queue(made);
        }
    }

    /// Of a run the first tick alone: it shows no state but its last. Whether the tick would be idle is asked of the second
    /// implementation, for the counts alone.
    fn note_first_tick(&mut self, made: &Made) {
        let Some(first) = made.ticks.first() else { return };
        let what = match first.kind {
            2 if given(&from_state(&self.state)) => GIVEN,
            2 => BY_BUDGET,
            1 if self.state.queue.n > 0 => ROW,
            _ => return,
        };
        self.add(&under(what, self.state.table.server.kind));
    }

    fn note_queue(&mut self, made: &Made) {
        let (before, after) = (self.state.queue, made.state.queue);
        for (what, holds) in [
            (EMPTY_AGAIN, before.n > 0 && after.n == 0),
            (FULL, after.n == 24),
            (LARGEST, sum(&made.state) == 1_440_000),
            (NEXT_SERVED, made.of_requests() > before.requests[0].work as usize),
        ] {
            if holds {
                self.add(what);
            }
        }
    }

    fn note_off_by_one(&mut self) {
        match self.state.queue.n {
            _ if !self.fit => {}
            0 => self.add(OFF_EMPTY),
            24 => self.add(OFF_FULL),
            _ => self.add(OFF_SOME),
        }
    }
}

const GIVEN: &str = "idle tick given";
const BY_BUDGET: &str = "tick by the budget";
const ROW: &str = "row's tick with some waiting";
const EMPTY_AGAIN: &str = "queue empty again";
const FULL: &str = "24 waiting";
const LARGEST: &str = "figure 1440000";
const NEXT_SERVED: &str = "run in which the head finishes and the next is served";
const OFF_EMPTY: &str = "off by one with nobody waiting";
const OFF_SOME: &str = "off by one with some waiting";
const OFF_FULL: &str = "off by one with 24 waiting";
const REFUSED: [&str; 4] = ["request refused 4", "request refused 5", "run refused 6", "run refused 10"];

/// A table that set-up refuses, and so a state that every call refuses.
const BAD_TABLE: &str = "table refused";

fn under(what: &str, kind: u32) -> String {
    format!("{what} under kind {kind}")
}

/// What lists can show; under kind 0 nobody has a budget.
pub fn to_reach() -> Vec<String> {
    let kinds = (0..5).map(|kind| format!("kind {kind}"));
    let of_ticks = (0..5).flat_map(|kind| [GIVEN, ROW].map(|what| under(what, kind)));
    let by_budget = (1..5).map(|kind| under(BY_BUDGET, kind));
    let others = [EMPTY_AGAIN, FULL, LARGEST, NEXT_SERVED, OFF_EMPTY, OFF_SOME, OFF_FULL, BAD_TABLE].into_iter().chain(REFUSED);
    kinds.chain(of_ticks).chain(by_budget).chain(others.map(String::from)).collect()
}

/// A difference in words, or nothing; what was met is counted.
pub fn check(calls: &Calls, list: &List, seen: &mut Seen) -> Result<(), String> {
    // SAFETY: structs by value, no pointer.
    let up = unsafe { (calls.set_up)(list.table) };
    let mut player = Player { calls, state: up.state, fit: up.number == 0, ledger: 0, seen };
    player.add(&if player.fit { format!("kind {}", list.table.server.kind) } else { BAD_TABLE.to_string() });
    player.ask().map_err(|words| format!("set-up: {words}"))?;
    list.steps.iter().try_for_each(|&step| player.step(step))
}

/// Makes a failing list small: each step that it fails without goes, the last ones first.
pub fn shrink(calls: &Calls, list: &List) -> List {
    let mut small = list.clone();
    for at in (0..list.steps.len()).rev() {
        let mut fewer = small.clone();
        fewer.steps.remove(at);
        if check(calls, &fewer, &mut Seen::new()).is_err() {
            small = fewer;
        }
    }
    small
}
