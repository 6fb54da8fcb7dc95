//! A plan replayed tick by tick, by the second implementation or by a library's calls.

use differential::abi::{self, Calls};
use differential::convert::{from_state, from_tick, to_state, to_table};
use second::plan::Plan;
use second::{State, Ticked};

/// Who is replayed. A refused call gives its number.
pub trait Scheduler {
    fn state(&self) -> State;
    fn request(&mut self, id: u32, work: u32) -> Result<(), u32>;
    /// The budget between steps 3 and 4, and the tick's answer.
    fn tick(&mut self) -> Result<(u32, Ticked), u32>;
    /// The request that had this tick, the last one, has its work back.
    fn take_back(&mut self, tick: &Tick);
}

/// The second implementation: its tick comes in two halves, and the budget is read between them.
impl Scheduler for State {
    fn state(&self) -> State {
        *self
    }

    fn request(&mut self, id: u32, work: u32) -> Result<(), u32> {
        State::request(self, id, work)
    }

    fn tick(&mut self) -> Result<(u32, Ticked), u32> {
        let opened = self.begin_tick();
        Ok((self.service.budget, self.end_tick(opened)))
    }

    fn take_back(&mut self, tick: &Tick) {
        self.backlog += 1;
        if tick.answer.finish.is_none() {
            self.queue[0].work += 1;
            return;
        }
        self.queue.copy_within(0..self.waiting as usize, 1);
        self.queue[0] = tick.before.queue[0];
        self.waiting += 1;
    }
}

/// A library behind the names of include/pilqandur.h, which has whole ticks only.
pub struct Library {
    calls: Calls,
    state: abi::State,
    spoil: Option<Spoil>,
}

impl Library {
    pub fn at(calls: Calls, state: abi::State) -> Library {
        Library { calls, state, spoil: None }
    }

    fn set_up(calls: Calls, table: &second::Table) -> Result<Library, u32> {
        // SAFETY: structs by value, no pointer.
        let made = unsafe { (calls.set_up)(to_table(table)) };
        Ok(Library::at(calls, done(made.number, made.state)?))
    }

    fn ticked(&self, state: abi::State) -> Result<abi::TickResult, u32> {
        // SAFETY: structs by value, no pointer.
        let tick = unsafe { (self.calls.tick)(state) };
        done(tick.number, tick)
    }

    /// The budget between steps 3 and 4 of the next tick, asked of the library itself: a copy of the state is ticked with a row of its own
    /// on top that is open in every tick. That row has the tick, and under every kind a budget stays where a row above is open. Of the
    /// rows only R3b's replenishment asks, whether one is open now and none was in the tick before: if none of the others is open now, the
    /// copy says that one was. Only for a table with a slot left.
    pub fn budget_within(&self) -> Result<u32, u32> {
        let busy = self.ticked(self.state)?.state.progress.server.sporadic.busy;
        let mut copy = self.state;
        on_top(&mut copy, ALWAYS_OPEN);
        copy.progress.server.sporadic.busy |= (busy == 0) as u32;
        Ok(self.ticked(copy)?.state.progress.server.budget)
    }
}

const ALWAYS_OPEN: abi::Task = abi::Task { phase: 0, period: 1, exec: 1, deadline: 1 };

/// One row more, above the others and the server.
fn on_top(state: &mut abi::State, task: abi::Task) {
    let table = &mut state.table;
    table.tasks.rotate_right(1);
    table.tasks[0] = task;
    table.n += 1;
    table.server.place += 1;
    state.progress.left.rotate_right(1);
    state.progress.left[0] = 0;
}

fn done<T>(number: u32, value: T) -> Result<T, u32> {
    if number == 0 {
        Ok(value)
    } else {
        Err(number)
    }
}

impl Scheduler for Library {
    fn state(&self) -> State {
        from_state(&self.state)
    }

    fn request(&mut self, id: u32, work: u32) -> Result<(), u32> {
        // SAFETY: structs by value, no pointer.
        let moved = unsafe { (self.calls.request)(self.state, id, work) };
        self.state = done(moved.number, moved.state)?;
        Ok(())
    }

    fn tick(&mut self) -> Result<(u32, Ticked), u32> {
        let (t, budget, tick) = (self.state.progress.clock, self.budget_within()?, self.ticked(self.state)?);
        self.state = tick.state;
        if let Some(spoil) = self.spoil.filter(|spoil| spoil.tick == t) {
            spoil.change(&mut self.state);
        }
        Ok((budget, from_tick(&tick)))
    }

    fn take_back(&mut self, tick: &Tick) {
        let mut state = self.state();
        state.take_back(tick);
        self.state.queue = to_state(&state).queue;
    }
}

/// One number of a library's state, changed after one tick: the test of this test.
#[derive(Clone, Copy)]
pub struct Spoil {
    pub field: Field,
    pub tick: u32,
}

/// Where a number stands in a state, if it is in use.
pub type Field = fn(&mut abi::State) -> Option<&mut u32>;

pub const FIELDS: &[(&str, Field)] = &[
    ("budget", |s| Some(&mut s.progress.server.budget)),
    ("tr", |s| Some(&mut s.progress.server.sporadic.tr)),
    ("nr", |s| Some(&mut s.progress.server.sporadic.nr)),
    ("begin", |s| Some(&mut s.progress.server.sporadic.begin)),
    ("work", |s| s.queue.requests[..s.queue.n as usize].first_mut().map(|head| &mut head.work)),
    ("left", |s| s.progress.left.iter_mut().find(|left| **left > 0)),
    ("backlog", |s| Some(&mut s.queue.backlog)),
];

impl Spoil {
    /// "budget@20": the budget, after tick 20.
    pub fn read(text: &str) -> Option<Spoil> {
        let (name, tick) = text.split_once('@')?;
        let (_, field) = FIELDS.iter().find(|(field, _)| *field == name)?;
        Some(Spoil { field: *field, tick: tick.parse().ok()? })
    }

    /// By one: down from 2 and more, else up. In the papers' tables a fit state stays fit, but for the figure of the work waiting, which
    /// moves with a request's work.
    fn change(&self, state: &mut abi::State) {
        let before = work_waiting(state);
        if let Some(number) = (self.field)(state) {
            *number = if *number > 1 { *number - 1 } else { *number + 1 };
        }
        state.queue.backlog = state.queue.backlog.wrapping_add(work_waiting(state)).wrapping_sub(before);
    }
}

/// The sum over the queue.
fn work_waiting(state: &abi::State) -> u32 {
    state.queue.requests.iter().take(state.queue.n as usize).map(|request| request.work).sum()
}

/// One tick of a replay: all that a line of a table is read from.
pub struct Tick {
    /// With the tick's requests presented.
    pub before: State,
    /// Between steps 3 and 4.
    pub budget: u32,
    pub answer: Ticked,
    pub after: State,
}

impl Tick {
    /// The request that has a tick which would be idle (document 02, 5/13): there is no budget then. (But for kind 4 with 32 stretches
    /// held, which no plan here comes to.)
    pub fn given(&self) -> Option<u32> {
        (self.answer.entry.kind == 2 && self.budget == 0).then_some(self.answer.entry.id)
    }
}

/// What a replay does with a tick that would be idle while a request waits.
#[derive(Clone, Copy, PartialEq)]
pub enum Idle {
    /// The request has it, by the rules.
    Given,
    /// As in the papers, the request has nothing of it: the tick is taken back from the queue. All else stays as the tick left it, since it
    /// "takes no budget, doesn't count as service and sets no sporadic or kind 4 mark" (document 02, 5/13).
    Withheld,
}

/// Every tick of the plan, each request presented before its tick.
pub fn replay(plan: &Plan, scheduler: &mut impl Scheduler, idle: Idle) -> Result<Vec<Tick>, String> {
    (0..plan.ticks).map(|t| one_tick(plan, scheduler, t, idle).map_err(|number| format!("tick {t}: refused with {number}"))).collect()
}

fn one_tick(plan: &Plan, scheduler: &mut impl Scheduler, t: u32, idle: Idle) -> Result<Tick, u32> {
    for arrival in plan.arrivals.iter().filter(|arrival| arrival.tick == t) {
        scheduler.request(arrival.id, arrival.work)?;
    }
    let before = scheduler.state();
    let (budget, answer) = scheduler.tick()?;
    let tick = Tick { before, budget, answer, after: scheduler.state() };
    if idle == Idle::Withheld && tick.given().is_some() {
        scheduler.take_back(&tick);
    }
    Ok(tick)
}

pub fn by_second(plan: &Plan, idle: Idle) -> Vec<Tick> {
    let mut fresh = State::set_up(plan.table).expect("the papers' tables keep the limits");
    replay(plan, &mut fresh, idle).expect("the queue has room")
}

pub fn by_library(plan: &Plan, calls: Calls, idle: Idle, spoil: Option<Spoil>) -> Result<Vec<Tick>, String> {
    let fresh = Library::set_up(calls, &plan.table).map_err(|number| format!("set-up: refused with {number}"))?;
    replay(plan, &mut Library { spoil, ..fresh }, idle)
}
