//! The library for Rust callers: include/pilqandur.h's structs, and its calls as safe functions. The header says what each field, number and call is.
//! Rust's own types keep what the header asks: a lent list is the caller's alone and has its true length. Every other value is taken.
#![allow(dead_code)] // a caller need not use all of it

/// The number of the header that these declarations follow: `version()` has to be it.
pub const VERSION: u32 = 5;

/// The limits. Times are in ticks of 10 ms.
pub const MAX_TASKS: u32 = 16;
pub const MAX_WAITING: u32 = 24;
pub const MAX_STRETCHES: u32 = 32;
pub const MAX_TIME: u32 = 60000;
pub const MAX_WORK: u32 = 60000;
pub const MAX_BACKLOG: u32 = 1440000;
pub const LAST_CLOCK: u32 = 4000000000;

/// Kinds of a server.
pub const BACKGROUND: u32 = 0;
pub const POLLING: u32 = 1;
pub const DEFERRABLE: u32 = 2;
pub const SPORADIC: u32 = 3;
pub const RETURNING: u32 = 4;

/// Kinds of an entry: who has the tick.
pub const IDLE: u32 = 0;
pub const TASK: u32 = 1;
pub const REQUEST: u32 = 2;

/// Numbers of an answer: carried out, or why not. 7, 8 and 9 are the plan reader's.
pub const DONE: u32 = 0;
pub const TASK_COUNT: u32 = 1;
pub const BAD_TASK: u32 = 2;
pub const BAD_SERVER: u32 = 3;
pub const BAD_WORK: u32 = 4;
pub const QUEUE_FULL: u32 = 5;
pub const CLOCK_SPENT: u32 = 6;
pub const PLAN_TOO_LONG: u32 = 7;
pub const BAD_LINE: u32 = 8;
pub const LINE_MISPLACED: u32 = 9;
pub const SHORT_RECORD: u32 = 10;
pub const UNFIT_STATE: u32 = 11;

#[repr(C)]
#[derive(Clone, Copy, Debug, Default, PartialEq, Eq)]
pub struct Task {
    pub phase: u32,
    pub period: u32,
    pub exec: u32,
    pub deadline: u32,
}

#[repr(C)]
#[derive(Clone, Copy, Debug, Default, PartialEq, Eq)]
pub struct Server {
    pub kind: u32,
    pub place: u32,
    pub period: u32,
    pub budget: u32,
}

#[repr(C)]
#[derive(Clone, Copy, Debug, Default, PartialEq, Eq)]
pub struct Table {
    pub tasks: [Task; MAX_TASKS as usize],
    pub n: u32,
    pub server: Server,
}

#[repr(C)]
#[derive(Clone, Copy, Debug, Default, PartialEq, Eq)]
pub struct Sporadic {
    pub tr: u32,
    pub begin: u32,
    pub nr: u32,
    pub served: u32,
    pub late: u32,
    pub above: u32,
    pub busy: u32,
}

#[repr(C)]
#[derive(Clone, Copy, Debug, Default, PartialEq, Eq)]
pub struct ServerState {
    pub budget: u32,
    pub sporadic: Sporadic,
}

#[repr(C)]
#[derive(Clone, Copy, Debug, Default, PartialEq, Eq)]
pub struct Progress {
    pub left: [u32; MAX_TASKS as usize],
    pub server: ServerState,
    pub clock: u32,
}

/// A request that waits.
#[repr(C)]
#[derive(Clone, Copy, Debug, Default, PartialEq, Eq)]
pub struct Queued {
    pub id: u32,
    pub work: u32,
    pub arrival: u32,
}

#[repr(C)]
#[derive(Clone, Copy, Debug, PartialEq, Eq)]
pub struct Queue {
    pub requests: [Queued; MAX_WAITING as usize],
    pub n: u32,
    /// The ticks of work that wait: the sum of `work` over the first n.
    pub backlog: u32,
}

/// Ticks on end that a server of kind 4 served.
#[repr(C)]
#[derive(Clone, Copy, Debug, Default, PartialEq, Eq)]
pub struct Stretch {
    pub start: u32,
    pub length: u32,
}

#[repr(C)]
#[derive(Clone, Copy, Debug, Default, PartialEq, Eq)]
pub struct Returns {
    pub stretches: [Stretch; MAX_STRETCHES as usize],
    pub n: u32,
}

#[repr(C)]
#[derive(Clone, Copy, Debug, PartialEq, Eq)]
pub struct State {
    pub table: Table,
    pub progress: Progress,
    pub queue: Queue,
    pub returns: Returns,
}

#[repr(C)]
#[derive(Clone, Copy, Debug, Default, PartialEq, Eq)]
pub struct Entry {
    pub kind: u32,
    pub id: u32,
    pub drops: u32,
}

#[repr(C)]
#[derive(Clone, Copy, Debug)]
pub struct SetUpResult {
    pub number: u32,
    pub index: u32,
    pub state: State,
}

#[repr(C)]
#[derive(Clone, Copy, Debug)]
pub struct AdmissionResult {
    pub number: u32,
    pub index: u32,
    pub bounds: [u32; MAX_TASKS as usize],
    pub serverbound: u32,
    pub admitted: u32,
}

#[repr(C)]
#[derive(Clone, Copy, Debug)]
pub struct MovedResult {
    pub number: u32,
    pub state: State,
}

#[repr(C)]
#[derive(Clone, Copy, Debug)]
pub struct TickResult {
    pub number: u32,
    pub kind: u32,
    pub id: u32,
    pub drops: u32,
    pub finished: u32,
    pub request: u32,
    pub response: u32,
    pub state: State,
}

#[repr(C)]
#[derive(Clone, Copy, Debug)]
pub struct WaitingResult {
    pub number: u32,
    pub work: u32,
}

unsafe extern "C" {
    fn pilqandur_version() -> u32;
    fn pilqandur_set_up(table: Table) -> SetUpResult;
    fn pilqandur_admit(table: Table) -> AdmissionResult;
    fn pilqandur_request(state: State, id: u32, work: u32) -> MovedResult;
    fn pilqandur_tick(state: State) -> TickResult;
    fn pilqandur_run(state: State, k: u32, entries: *mut Entry, len: usize) -> MovedResult;
    fn pilqandur_waiting(state: State) -> WaitingResult;
}

pub fn version() -> u32 {
    // SAFETY: no argument.
    unsafe { pilqandur_version() }
}

pub fn set_up(table: Table) -> SetUpResult {
    // SAFETY: numbers by value.
    unsafe { pilqandur_set_up(table) }
}

pub fn admit(table: Table) -> AdmissionResult {
    // SAFETY: numbers by value.
    unsafe { pilqandur_admit(table) }
}

pub fn present(state: State, id: u32, work: u32) -> MovedResult {
    // SAFETY: numbers by value.
    unsafe { pilqandur_request(state, id, work) }
}

pub fn tick(state: State) -> TickResult {
    // SAFETY: numbers by value.
    unsafe { pilqandur_tick(state) }
}

pub fn run(state: State, k: u32, entries: &mut [Entry]) -> MovedResult {
    // SAFETY: the list is lent to this function alone, and goes on with its own length.
    unsafe { pilqandur_run(state, k, entries.as_mut_ptr(), entries.len()) }
}

pub fn waiting(state: State) -> WaitingResult {
    // SAFETY: numbers by value.
    unsafe { pilqandur_waiting(state) }
}
