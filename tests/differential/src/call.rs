//! One library call, made on both sides and compared.

use second::{Entry, Returns, Service, State, Table, Ticked};

use crate::abi::{self, Calls};
use crate::backlog::{figure, slots_used, sum};
use crate::convert::*;
use crate::random::Random;
use crate::state;

#[derive(Clone, Copy, Debug)]
pub enum Call {
    SetUp(Table),
    Admit(Table),
    Request {
        id: u32,
        work: u32,
    },
    Tick,
    /// k ticks into a lent list of this many entries.
    Run {
        k: u32,
        lent: usize,
    },
    /// The ticks of work waiting.
    Waiting,
    /// Request, tick, run and the work waiting on the state with these numbers for its four flags, one of them at least neither 0 nor 1.
    Damaged {
        flags: [u32; 4],
    },
}

/// What the lent entries hold before a run.
pub const LENT: Entry = Entry { kind: 0xeeee_eeee, id: 0xeeee_eeed, drops: 0xeeee_eeec };

pub fn random_call(random: &mut Random) -> Call {
    match random.below(13) {
        0..=3 => Call::Tick,
        4..=6 => Call::Request { id: random.word(), work: work(random) },
        7 => Call::Damaged { flags: no_flags(random) },
        8 | 9 => Call::Waiting,
        _ => run(random),
    }
}

/// Flags, one or more of them with another number in its place: close to a flag, a flag in a higher byte, or any.
fn no_flags(random: &mut Random) -> [u32; 4] {
    let mut flags = [0; 4].map(|_| random.from(0, 1));
    for _ in 0..random.from(1, 3) {
        let other = random.from(2, u32::MAX);
        flags[random.below(4)] = random.pick(&[2, 3, 0xff, 0x100, 0x101, 0x0100_0000, 0x8000_0001, u32::MAX, other]);
    }
    flags
}

fn work(random: &mut Random) -> u32 {
    if random.once_in(4) {
        random.pick(&[0, 1, 59_999, 60_000, 60_001, u32::MAX])
    } else {
        random.from(1, 5)
    }
}

fn run(random: &mut Random) -> Call {
    let lent = random.below(50);
    let k = match random.below(8) {
        0 => 0,
        1 => lent as u32,
        2 => lent as u32 + 1,
        3 => u32::MAX,
        _ => random.from(0, lent as u32),
    };
    Call::Run { k, lent }
}

pub fn table_call(random: &mut Random) -> Call {
    let table = if random.once_in(2) { state::table(random) } else { state::bad_table(random) };
    if random.once_in(2) {
        Call::SetUp(table)
    } else {
        Call::Admit(table)
    }
}

/// A difference in words, or the state after the call. The figure "equals the sum over the queue, after every call" (document 02, 8/13),
/// whatever the two sides make of it.
pub fn compare(calls: &Calls, state: &State, call: &Call) -> Result<State, String> {
    let next = compare_call(calls, state, call)?;
    if state.is_fit() {
        same("the sum over the queue, and the figure", sum(&next), next.backlog as u64)?;
    }
    Ok(next)
}

fn compare_call(calls: &Calls, state: &State, call: &Call) -> Result<State, String> {
    match *call {
        Call::SetUp(table) => compare_set_up(calls, state, table),
        Call::Admit(table) => compare_admit(calls, state, table),
        Call::Request { id, work } => compare_request(calls, state, id, work),
        Call::Tick => compare_tick(calls, state),
        Call::Run { k, lent } => compare_run(calls, state, k, lent),
        Call::Waiting => compare_waiting(calls, state),
        Call::Damaged { flags } => compare_damaged(calls, state, flags),
    }
}

pub fn same<T: PartialEq + std::fmt::Debug>(what: &str, second: T, library: T) -> Result<(), String> {
    if second == library {
        return Ok(());
    }
    Err(format!("{what}: second {second:?}, library {library:?}"))
}

/// Document 01 gives a refused set-up no state and no index but refusal 2's: neither is compared.
fn compare_set_up(calls: &Calls, before: &State, table: Table) -> Result<State, String> {
    // SAFETY: structs by value, no pointer.
    let library = unsafe { (calls.set_up)(to_table(&table)) };
    match State::set_up(table) {
        Ok(fresh) => {
            same("number", 0, library.number)?;
            same_after(&fresh, &library.state)?;
            Ok(fresh)
        }
        Err(refused) => {
            same("number", refused.number, library.number)?;
            same_index(refused, library.index)?;
            Ok(*before)
        }
    }
}

fn same_index(refused: second::Refused, index: u32) -> Result<(), String> {
    if refused.number == second::refusal::BAD_ROW {
        same("index", refused.index, index)
    } else {
        Ok(())
    }
}

/// Bounds of rows that the table does not have are 0.
fn compare_admit(calls: &Calls, before: &State, table: Table) -> Result<State, String> {
    // SAFETY: structs by value, no pointer.
    let library = unsafe { (calls.admit)(to_table(&table)) };
    match second::admit(&table) {
        Ok(admission) => {
            same("number", 0, library.number)?;
            same("bounds", admission.bounds, library.bounds)?;
            same("server bound", admission.server, library.serverbound)?;
            same("admitted", admission.admitted as u32, library.admitted)?;
        }
        Err(refused) => {
            same("number", refused.number, library.number)?;
            same_index(refused, library.index)?;
        }
    }
    Ok(*before)
}

fn compare_request(calls: &Calls, before: &State, id: u32, work: u32) -> Result<State, String> {
    let mut next = *before;
    let number = next.request(id, work).err().unwrap_or(0);
    // SAFETY: structs by value, no pointer.
    let library = unsafe { (calls.request)(to_state(before), id, work) };
    same("number", number, library.number)?;
    same_after(&next, &library.state)?;
    Ok(next)
}

fn compare_tick(calls: &Calls, before: &State) -> Result<State, String> {
    let mut next = *before;
    let ticked = next.tick();
    // SAFETY: structs by value, no pointer.
    let library = unsafe { (calls.tick)(to_state(before)) };
    same("number", ticked.err().unwrap_or(0), library.number)?;
    if let Ok(ticked) = ticked {
        same("finished", ticked.finish.is_some() as u32, library.finished)?;
        same_answer(&ticked, &from_tick(&library))?;
    }
    same_after(&next, &library.state)?;
    Ok(next)
}

fn compare_run(calls: &Calls, before: &State, k: u32, lent: usize) -> Result<State, String> {
    let mut next = *before;
    let mut record = vec![LENT; lent];
    let number = next.run(k, &mut record).err().unwrap_or(0);
    let mut entries = vec![to_entry(LENT); lent];
    // An empty list may be no list.
    let list = if lent == 0 { std::ptr::null_mut() } else { entries.as_mut_ptr() };
    // SAFETY: the list is lent for the call, with its own length.
    let library = unsafe { (calls.run)(to_state(before), k, list, lent) };
    same("number", number, library.number)?;
    for (i, (second, library)) in record.into_iter().zip(entries).enumerate() {
        same(&format!("entry {i}"), second, from_entry(library))?;
    }
    same_after(&next, &library.state)?;
    Ok(next)
}

/// A refused call tells no work.
fn compare_waiting(calls: &Calls, before: &State) -> Result<State, String> {
    let second = before.work_waiting();
    // SAFETY: structs by value, no pointer.
    let library = unsafe { (calls.waiting)(to_state(before)) };
    same("number", second.err().unwrap_or(0), library.number)?;
    same("work waiting", second.unwrap_or(0), library.work)?;
    Ok(*before)
}

/// A state whose flags are no flags: each call refuses it, hands it back as it came and leaves the lent list.
fn compare_damaged(calls: &Calls, before: &State, flags: [u32; 4]) -> Result<State, String> {
    let mut given = to_state(before);
    for (flag, number) in given.progress.server.sporadic.flags().into_iter().zip(flags) {
        *flag = number;
    }
    let unfit = second::refusal::UNFIT_STATE;
    let mut entries = [to_entry(LENT); 3];
    // SAFETY: structs by value; the list is lent for the call, with its own length.
    let (moved, ticked, ran) =
        unsafe { ((calls.request)(given, 1, 1), (calls.tick)(given), (calls.run)(given, 2, entries.as_mut_ptr(), entries.len())) };
    for (call, number, state) in
        [("request", moved.number, moved.state), ("tick", ticked.number, ticked.state), ("run", ran.number, ran.state)]
    {
        same(&format!("{call}'s number"), unfit, number)?;
        same(&format!("{call}'s flags and times"), given.progress.server.sporadic, state.progress.server.sporadic)?;
        same(&format!("{call}'s state is as it came"), true, given == state)?;
    }
    same("the lent list", [to_entry(LENT); 3], entries)?;
    // SAFETY: structs by value, no pointer.
    let told = unsafe { (calls.waiting)(given) };
    same("the work waiting: number and work", (unfit, 0), (told.number, told.work))?;
    Ok(*before)
}

/// The state that a call handed back, its flags among the rest.
fn same_after(second: &State, library: &abi::State) -> Result<(), String> {
    same("every flag is 0 or 1", true, library.flags_fit())?;
    same_state(second, &from_state(library))
}

/// The answer of a tick that was carried out.
pub fn same_answer(second: &Ticked, library: &Ticked) -> Result<(), String> {
    same("entry", second.entry, library.entry)?;
    same("finish", second.finish, library.finish)
}

/// Every slot, in use or not.
pub fn same_state(second: &State, library: &State) -> Result<(), String> {
    same("clock", second.clock, library.clock)?;
    same_service(&second.service, &library.service)?;
    for i in 0..second.left.len() {
        same(&format!("left of row {i}"), second.left[i], library.left[i])?;
    }
    same("waiting", second.waiting, library.waiting)?;
    same("figure of the work waiting", second.backlog, library.backlog)?;
    for i in 0..second.queue.len() {
        same(&format!("queue slot {i}"), second.queue[i], library.queue[i])?;
    }
    same_returns(&second.returns, &library.returns)?;
    same("table", second.table, library.table)
}

fn same_returns(second: &Returns, library: &Returns) -> Result<(), String> {
    same("stretches held", second.held, library.held)?;
    for i in 0..second.stretches.len() {
        same(&format!("stretch slot {i}"), second.stretches[i], library.stretches[i])?;
    }
    Ok(())
}

fn same_service(second: &Service, library: &Service) -> Result<(), String> {
    same("budget", second.budget, library.budget)?;
    same("tr", second.tr, library.tr)?;
    same("begin", second.begin, library.begin)?;
    same("nr", second.nr, library.nr)?;
    same("served", second.served, library.served)?;
    same("late", second.late, library.late)?;
    same("above", second.above, library.above)?;
    same("busy", second.busy, library.busy)
}

/// How often the steps below are gone through.
const ROUNDS: usize = 100;

/// Makes a failing state small: each step that keeps a difference stays.
pub fn shrink(calls: &Calls, state: &State, call: &Call) -> State {
    let mut small = *state;
    for _ in 0..ROUNDS {
        let before = small;
        for step in STEPS {
            let mut tried = small;
            step(&mut tried);
            if compare(calls, &tried, call).is_err() {
                small = tried;
            }
        }
        if small == before {
            break;
        }
    }
    small
}

const STEPS: &[fn(&mut State)] = &[
    |s| change_queue(s, |s| s.waiting /= 2),
    |s| change_queue(s, |s| s.waiting = s.waiting.saturating_sub(1)),
    |s| change_queue(s, plain_requests),
    |s| s.backlog = figure(s),
    clear_unused,
    |s| s.left = [0; 16],
    |s| s.left.iter_mut().for_each(|left| *left = (*left).min(1)),
    |s| s.table.n /= 2,
    |s| s.table.n = s.table.n.saturating_sub(1),
    drop_first_row,
    |s| s.clock /= 2,
    |s| s.clock = s.clock.saturating_sub(1),
    earlier,
    |s| (s.service.tr, s.service.begin) = (0, 0),
    |s| s.service.nr = 0,
    |s| (s.service.served, s.service.late) = (false, false),
    |s| (s.service.above, s.service.busy) = (false, false),
    |s| s.service.budget = s.service.budget.saturating_sub(1),
    |s| s.returns = Returns::NONE,
    first_stretch_comes_back,
    last_stretch_comes_back,
];

/// The figure moves with the queue: a right one stays right, so that a fit state stays fit, and a wrong one stays as far off.
fn change_queue(state: &mut State, change: impl Fn(&mut State)) {
    let off = state.backlog.wrapping_sub(figure(state));
    change(state);
    state.backlog = figure(state).wrapping_add(off);
}

/// The clock and the stretches together.
fn earlier(state: &mut State) {
    let held = state.returns.held.min(32) as usize;
    let first = state.returns.stretches[..held].iter().map(|stretch| stretch.start).min().unwrap_or(0);
    state.clock -= first.min(state.clock);
    state.returns.stretches[..held].iter_mut().for_each(|stretch| stretch.start -= first);
}

/// A fit state stays fit: what was held is budget again.
fn first_stretch_comes_back(state: &mut State) {
    if (1..=32).contains(&state.returns.held) {
        let first = state.returns.stretches[0];
        state.returns.stretches.copy_within(1.., 0);
        state.returns.held -= 1;
        state.service.budget = state.service.budget.saturating_add(first.length);
    }
}

fn last_stretch_comes_back(state: &mut State) {
    if (1..=32).contains(&state.returns.held) {
        state.returns.held -= 1;
        let last = state.returns.stretches[state.returns.held as usize];
        state.service.budget = state.service.budget.saturating_add(last.length);
    }
}

fn drop_first_row(state: &mut State) {
    if state.table.n > 1 && state.table.n <= 16 {
        state.table.rows.copy_within(1.., 0);
        state.left.copy_within(1.., 0);
        state.table.n -= 1;
        state.table.server.place = state.table.server.place.saturating_sub(1);
    }
}

fn plain_requests(state: &mut State) {
    let waiting = slots_used(state);
    state.queue[..waiting].fill(second::Request { id: 1, work: 1, arrival: 0 });
}

fn clear_unused(state: &mut State) {
    let (rows, waiting, held) = (state.table.n.min(16) as usize, slots_used(state), state.returns.held.min(32) as usize);
    state.table.rows[rows..].fill(second::Row::default());
    state.left[rows..].fill(0);
    state.queue[waiting..].fill(second::Request::default());
    state.returns.stretches[held..].fill(second::Stretch::default());
}
