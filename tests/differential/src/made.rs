//! One call of a list, made through the library alone.

use crate::abi::{Calls, Entry, State, TickResult};
use crate::call::LENT;
use crate::convert::to_entry;
use crate::pair::Call;

/// What a call came to.
pub struct Made {
    pub name: &'static str,
    pub number: u32,
    pub state: State,
    /// The ticks that were made, as the library told of them; none if the call is refused.
    pub ticks: Vec<Entry>,
    /// The entries lent to a run that it was not to write.
    pub rest: Vec<Entry>,
}

pub fn entry(tick: &TickResult) -> Entry {
    Entry { kind: tick.kind, id: tick.id, drops: tick.drops }
}

pub fn make(calls: &Calls, state: &State, call: Call) -> Made {
    match call {
        Call::Request { id, work } => {
            // SAFETY: structs by value, no pointer.
            let moved = unsafe { (calls.request)(*state, id, work) };
            Made { name: "request", number: moved.number, state: moved.state, ticks: Vec::new(), rest: Vec::new() }
        }
        Call::Tick => {
            // SAFETY: structs by value, no pointer.
            let tick = unsafe { (calls.tick)(*state) };
            let ticks = if tick.number == 0 { vec![entry(&tick)] } else { Vec::new() };
            Made { name: "tick", number: tick.number, state: tick.state, ticks, rest: Vec::new() }
        }
        Call::Run { k, lent } => run(calls, state, k, lent),
    }
}

fn run(calls: &Calls, state: &State, k: u32, lent: u32) -> Made {
    let mut ticks = vec![to_entry(LENT); lent as usize];
    // SAFETY: the list is lent for the call, with its own length.
    let moved = unsafe { (calls.run)(*state, k, ticks.as_mut_ptr(), ticks.len()) };
    let written = if moved.number == 0 { k.min(lent) } else { 0 };
    let rest = ticks.split_off(written as usize);
    Made { name: "run", number: moved.number, state: moved.state, ticks, rest }
}

impl Made {
    /// How many of the ticks went to a request.
    pub fn of_requests(&self) -> usize {
        self.ticks.iter().filter(|entry| entry.kind == 2).count()
    }

    /// "Later entries of the list are unchanged", and all of them if the run is refused.
    pub fn rest_is_as_lent(&self) -> bool {
        self.rest.iter().all(|&entry| entry == to_entry(LENT))
    }
}

pub fn must(holds: bool, words: impl FnOnce() -> String) -> Result<(), String> {
    if holds {
        Ok(())
    } else {
        Err(words())
    }
}
