//! The library as C sees it: structs by value, the lent list as pointer and length. Names and layouts stand here only.

#[repr(C)]
#[derive(Clone, Copy, Debug, Default, PartialEq, Eq)]
pub struct Task {
    pub phase: u32,
    pub period: u32,
    pub exec: u32,
    pub deadline: u32,
}

#[repr(C)]
#[derive(Clone, Copy, Debug, Default, PartialEq, Eq)]
pub struct Server {
    pub kind: u32,
    pub place: u32,
    pub period: u32,
    pub budget: u32,
}

#[repr(C)]
#[derive(Clone, Copy, Debug, Default, PartialEq, Eq)]
pub struct Table {
    pub tasks: [Task; 16],
    pub n: u32,
    pub server: Server,
}

#[repr(C)]
#[derive(Clone, Copy, Debug, Default, PartialEq, Eq)]
pub struct Sporadic {
    pub tr: u32,
    pub begin: u32,
    pub nr: u32,
    pub served: u32,
    pub late: u32,
    pub above: u32,
    pub busy: u32,
}

#[repr(C)]
#[derive(Clone, Copy, Debug, Default, PartialEq, Eq)]
pub struct ServerState {
    pub budget: u32,
    pub sporadic: Sporadic,
}

#[repr(C)]
#[derive(Clone, Copy, Debug, Default, PartialEq, Eq)]
pub struct Progress {
    pub left: [u32; 16],
    pub server: ServerState,
    pub clock: u32,
}

#[repr(C)]
#[derive(Clone, Copy, Debug, Default, PartialEq, Eq)]
pub struct Request {
    pub id: u32,
    pub work: u32,
    pub arrival: u32,
}

#[repr(C)]
#[derive(Clone, Copy, Debug, Default, PartialEq, Eq)]
pub struct Queue {
    pub requests: [Request; 24],
    pub n: u32,
    pub backlog: u32,
}

#[repr(C)]
#[derive(Clone, Copy, Debug, Default, PartialEq, Eq)]
pub struct Stretch {
    pub start: u32,
    pub length: u32,
}

#[repr(C)]
#[derive(Clone, Copy, Debug, Default, PartialEq, Eq)]
pub struct Returns {
    pub stretches: [Stretch; 32],
    pub n: u32,
}

#[repr(C)]
#[derive(Clone, Copy, Debug, Default, PartialEq, Eq)]
pub struct State {
    pub table: Table,
    pub progress: Progress,
    pub queue: Queue,
    pub returns: Returns,
}

#[repr(C)]
#[derive(Clone, Copy, Debug, Default, PartialEq, Eq)]
pub struct Entry {
    pub kind: u32,
    pub id: u32,
    pub drops: u32,
}

impl Sporadic {
    /// The flags cross as numbers; 0 and 1 are the flags.
    pub fn flags(&mut self) -> [&mut u32; 4] {
        [&mut self.served, &mut self.late, &mut self.above, &mut self.busy]
    }
}

impl State {
    /// A state with a number other than 0 and 1 as a flag is unfit.
    pub fn flags_fit(mut self) -> bool {
        self.progress.server.sporadic.flags().into_iter().all(|flag| *flag <= 1)
    }
}

/// `number` is 0 or a refusal of document 01; `index` belongs to refusal 2.
#[repr(C)]
#[derive(Clone, Copy, Debug)]
pub struct SetUpResult {
    pub number: u32,
    pub index: u32,
    pub state: State,
}

#[repr(C)]
#[derive(Clone, Copy, Debug)]
pub struct AdmissionResult {
    pub number: u32,
    pub index: u32,
    pub bounds: [u32; 16],
    pub serverbound: u32,
    pub admitted: u32,
}

#[repr(C)]
#[derive(Clone, Copy, Debug)]
pub struct MovedResult {
    pub number: u32,
    pub state: State,
}

#[repr(C)]
#[derive(Clone, Copy, Debug)]
pub struct TickResult {
    pub number: u32,
    pub kind: u32,
    pub id: u32,
    pub drops: u32,
    pub finished: u32,
    pub request: u32,
    pub response: u32,
    pub state: State,
}

/// `work` is 0 if the number is not.
#[repr(C)]
#[derive(Clone, Copy, Debug, PartialEq, Eq)]
pub struct WaitingResult {
    pub number: u32,
    pub work: u32,
}

pub type SetUp = unsafe extern "C" fn(Table) -> SetUpResult;
pub type Admit = unsafe extern "C" fn(Table) -> AdmissionResult;
pub type Present = unsafe extern "C" fn(State, u32, u32) -> MovedResult;
pub type Tick = unsafe extern "C" fn(State) -> TickResult;
pub type Run = unsafe extern "C" fn(State, u32, *mut Entry, usize) -> MovedResult;
pub type Waiting = unsafe extern "C" fn(State) -> WaitingResult;

/// The library's six calls, wherever they come from.
#[derive(Clone, Copy)]
pub struct Calls {
    pub set_up: SetUp,
    pub admit: Admit,
    pub request: Present,
    pub tick: Tick,
    pub run: Run,
    pub waiting: Waiting,
}

/// The exported names, in the order of `Calls`.
pub const NAMES: [&std::ffi::CStr; 6] =
    [c"pilqandur_set_up", c"pilqandur_admit", c"pilqandur_request", c"pilqandur_tick", c"pilqandur_run", c"pilqandur_waiting"];

#[cfg(feature = "linked")]
extern "C" {
    fn pilqandur_set_up(table: Table) -> SetUpResult;
    fn pilqandur_admit(table: Table) -> AdmissionResult;
    fn pilqandur_request(state: State, id: u32, work: u32) -> MovedResult;
    fn pilqandur_tick(state: State) -> TickResult;
    fn pilqandur_run(state: State, k: u32, entries: *mut Entry, len: usize) -> MovedResult;
    fn pilqandur_waiting(state: State) -> WaitingResult;
}

/// The static library that this program was linked with.
#[cfg(feature = "linked")]
pub fn linked() -> Option<Calls> {
    Some(Calls {
        set_up: pilqandur_set_up,
        admit: pilqandur_admit,
        request: pilqandur_request,
        tick: pilqandur_tick,
        run: pilqandur_run,
        waiting: pilqandur_waiting,
    })
}

#[cfg(not(feature = "linked"))]
pub fn linked() -> Option<Calls> {
    None
}
