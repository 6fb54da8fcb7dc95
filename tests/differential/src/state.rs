//! Random tables and states: fit ones, fit ones at a limit's edge, and ones unfit in each way that refusal 11 lists, those of kind 4 and
//! those of the figure of the work waiting apart. Every other state has the figure that is right for its queue.

use second::state::{CLOCK_LAST, NEXT_LAST, QUEUE, WORK_MOST};
use second::table::{BACKGROUND, FIELD_MOST, RETURNING, ROWS};
use second::{Request, Row, Server, Service, State, Table};

use crate::backlog::{self, figure};
use crate::plan::{self, EDGES};
use crate::random::Random;
use crate::returns;

/// A table within its limits, with anything in the slots that it does not use.
pub fn table(random: &mut Random) -> Table {
    let rows = if random.once_in(5) { ROWS as u32 } else { 4 };
    // Trying every length of long deadlines takes milliseconds: seldom.
    let period = if random.once_in(400) { FIELD_MOST } else { random.pick(&[3, 8, 20, 60]) };
    let mut table = plan::table(random, rows, period);
    if table.server.kind == RETURNING && random.once_in(3) {
        plan::room_for_all(random, &mut table.server);
    }
    for slot in table.n as usize..ROWS {
        table.rows[slot] = any_row(random);
    }
    table
}

fn any_row(random: &mut Random) -> Row {
    let mut word = || if random.once_in(2) { random.pick(EDGES) } else { random.word() };
    Row { phase: word(), period: word(), exec: word(), deadline: word() }
}

/// A table that breaks one limit, or two.
pub fn bad_table(random: &mut Random) -> Table {
    let mut table = table(random);
    for _ in 0..random.from(1, 2) {
        let edge = random.pick(EDGES);
        let i = random.below((table.n as usize).clamp(1, ROWS));
        let row = &mut table.rows[i];
        match random.below(12) {
            0 => table.n = edge,
            1 => row.phase = edge,
            2 => row.period = edge,
            3 => row.exec = edge,
            4 => row.deadline = edge,
            5 => row.exec = row.deadline.wrapping_add(1),
            6 => row.deadline = row.period.wrapping_add(1),
            7 => table.server.kind = edge,
            8 => table.server.place = if random.once_in(2) { table.n.wrapping_add(1) } else { edge },
            9 => table.server.period = edge,
            10 => table.server.budget = edge,
            _ => table.server.budget = table.server.period.wrapping_add(1),
        }
    }
    table
}

/// A clock near 0, near a release or a period of the table, or near its last value.
fn clock(random: &mut Random, table: &Table) -> u32 {
    let row = table.rows[random.below(table.n as usize)];
    let step = if table.server.kind == BACKGROUND || random.once_in(2) { row.period } else { table.server.period };
    let times = random.from(0, 50);
    match random.below(6) {
        0 => random.from(0, 30),
        1 => row.phase + step * times,
        2 => row.phase + row.deadline + step * times,
        3 => step * times,
        4 => CLOCK_LAST - random.from(0, 40),
        _ => random.from(0, CLOCK_LAST),
    }
}

/// A time up to the clock: the clock itself, shortly before, one period before, or any.
fn past(random: &mut Random, clock: u32, period: u32) -> u32 {
    match random.below(5) {
        0 => clock,
        1 => clock.saturating_sub(random.from(0, 12)),
        2 => clock.saturating_sub(period),
        3 => 0,
        _ => random.from(0, clock),
    }
}

/// Any fit state, odd ones included: rows open before their phase, marks and returns that no run would leave.
pub fn fit(random: &mut Random) -> State {
    let table = table(random);
    let clock = clock(random, &table);
    fit_at(random, table, clock)
}

/// A fit state of kind 4 that holds so many stretches, in a server that has room for them; a period has passed.
pub fn returning(random: &mut Random, count: u32) -> State {
    let mut table = table(random);
    let least = (2 * count).max(2) - 1;
    let period = least + random.pick(&[0, 1, 2, 20, 60]);
    let place = if random.once_in(2) { 0 } else { table.server.place };
    table.server = Server { kind: RETURNING, place, period, budget: random.from(count.max(1), period) };
    let clock = clock(random, &table).max(period + random.from(1, 3));
    let mut state = fit_at(random, table, clock);
    returns::fill(random, &mut state, count);
    state
}

/// A state of kind 4 that one clause of its own makes unfit.
pub fn broken(random: &mut Random) -> State {
    let (damage, count) = returns::damage_and_count(random);
    let mut state = returning(random, count);
    damage(random, &mut state);
    state
}

/// A state that its figure of the work waiting alone makes unfit.
pub fn off(random: &mut Random) -> State {
    let mut state = match random.below(4) {
        0 => edge(random),
        1 => State::set_up(table(random)).expect("a table within its limits"),
        _ => fit(random),
    };
    backlog::spoil(random, &mut state);
    state
}

fn fit_at(random: &mut Random, table: Table, clock: u32) -> State {
    let mut state = State::set_up(table).expect("a table within its limits");
    state.clock = clock;
    for (i, left) in state.left.iter_mut().enumerate() {
        *left = match (i < table.n as usize, random.once_in(2)) {
            (true, true) => 0,
            (true, false) => random.from(0, table.rows[i].exec),
            (false, _) => random.word(),
        };
    }
    state.service = service(random, &state);
    fill_queue(random, &mut state);
    state.returns = returns::any(random);
    refill(random, &mut state);
    state
}

/// Returns that fit, where they are asked for.
fn refill(random: &mut Random, state: &mut State) {
    if state.table.server.kind == RETURNING {
        let count = returns::count(random);
        returns::fill(random, state, count);
    }
}

fn service(random: &mut Random, state: &State) -> Service {
    let (clock, server) = (state.clock, state.table.server);
    Service {
        budget: if random.once_in(3) { 0 } else { random.from(0, server.budget) },
        tr: past(random, clock, server.period),
        begin: past(random, clock, server.period),
        nr: match random.below(4) {
            0 => 0,
            1 => clock,
            2 => clock + random.from(0, server.period),
            _ => random.from(0, NEXT_LAST),
        },
        served: random.once_in(2),
        late: random.once_in(3),
        above: random.once_in(2),
        busy: random.once_in(2),
    }
}

fn fill_queue(random: &mut Random, state: &mut State) {
    state.waiting = random.pick(&[0, 0, 1, 1, 2, 3, 10, QUEUE as u32 - 1, QUEUE as u32]);
    for i in 0..QUEUE {
        state.queue[i] = if i < state.waiting as usize { waiting(random, state.clock) } else { any_request(random) };
    }
    state.backlog = figure(state);
}

fn waiting(random: &mut Random, clock: u32) -> Request {
    let work = if random.once_in(10) { WORK_MOST } else { random.from(1, 3) };
    Request { id: random.word(), work, arrival: past(random, clock, 7) }
}

fn any_request(random: &mut Random) -> Request {
    if random.once_in(3) {
        return Request::default();
    }
    Request { id: random.word(), work: random.word(), arrival: random.word() }
}

/// A fit state with one thing put at the last value that is still fit.
pub fn edge(random: &mut Random) -> State {
    let mut state = fit(random);
    let row = random.below(state.table.n as usize);
    match random.below(10) {
        0 => state.left[row] = state.table.rows[row].exec,
        1 => grow_queue(random, &mut state, QUEUE),
        2 => one_waiting(random, &mut state).work = random.pick(&[1, WORK_MOST]),
        3 => set_arrival(random, &mut state, 0),
        4 => whole_budget(&mut state),
        5 => last_clock(random, &mut state),
        6 => state.service.tr = state.clock,
        7 => state.service.begin = state.clock,
        8 => most_work(random, &mut state),
        _ => state.service.nr = NEXT_LAST,
    }
    state.backlog = figure(&state);
    state
}

/// No figure is larger.
fn most_work(random: &mut Random, state: &mut State) {
    grow_queue(random, state, QUEUE);
    state.queue.iter_mut().for_each(|request| request.work = WORK_MOST);
}

fn whole_budget(state: &mut State) {
    state.service.budget = state.table.server.budget;
    if state.table.server.kind == RETURNING {
        state.returns.held = 0;
    }
}

fn last_clock(random: &mut Random, state: &mut State) {
    state.clock = CLOCK_LAST;
    refill(random, state);
}

/// A state that one ground of refusal 11 holds of, by one step past the edge or by any distance.
pub fn unfit(random: &mut Random) -> State {
    let mut state = fit(random);
    let row = random.below(state.table.n as usize);
    let past_edge =
        |random: &mut Random, edge: u32| if random.once_in(2) { edge.saturating_add(1) } else { random.from(edge, u32::MAX - 1) + 1 };
    match random.below(11) {
        0 => state.table = bad_table(random),
        1 => state.left[row] = past_edge(random, state.table.rows[row].exec),
        2 | 10 => too_many_waiting(random, &mut state),
        3 => one_waiting(random, &mut state).work = 0,
        4 => one_waiting(random, &mut state).work = past_edge(random, WORK_MOST),
        5 => state.service.budget = past_edge(random, state.table.server.budget),
        6 => state.clock = past_edge(random, CLOCK_LAST),
        7 => set_arrival(random, &mut state, 1),
        8 if random.once_in(2) => state.service.tr = state.clock + 1,
        8 => state.service.begin = state.clock + 1,
        _ => state.service.nr = past_edge(random, NEXT_LAST),
    }
    state.backlog = figure(&state);
    state
}

fn grow_queue(random: &mut Random, state: &mut State, count: usize) {
    for i in state.waiting as usize..count {
        state.queue[i] = waiting(random, state.clock);
    }
    state.waiting = state.waiting.max(count as u32);
}

/// The queue's limit in document 01, which request 6/13 of document 02 lowers.
const FORMER_LIMIT: u32 = 64;

/// Every slot holds a good request, so that the count alone makes the state unfit.
fn too_many_waiting(random: &mut Random, state: &mut State) {
    grow_queue(random, state, QUEUE);
    let one_more = QUEUE as u32 + 1;
    let other = random.from(one_more, u32::MAX);
    state.waiting = random.pick(&[one_more, FORMER_LIMIT, other]);
}

/// A request that waits, at any place or at the ends; the queue grows if it is empty.
fn one_waiting<'a>(random: &mut Random, state: &'a mut State) -> &'a mut Request {
    grow_queue(random, state, 1);
    let last = state.waiting as usize - 1;
    let other = random.below(last + 1);
    &mut state.queue[random.pick(&[0, last, other])]
}

fn set_arrival(random: &mut Random, state: &mut State, after: u32) {
    let arrival = state.clock + after;
    one_waiting(random, state).arrival = arrival;
}
