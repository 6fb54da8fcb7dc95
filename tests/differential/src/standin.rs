//! The second implementation behind the library's interface: what the tests of calls and of lists of calls are themselves tested with.

use crate::abi::*;
use crate::convert::*;

pub const CALLS: Calls = Calls { set_up, admit, request, tick, run, waiting };

pub unsafe extern "C" fn set_up(table: Table) -> SetUpResult {
    let empty = State { table, ..State::default() };
    match second::State::set_up(from_table(&table)) {
        Ok(state) => SetUpResult { number: 0, index: 0, state: to_state(&state) },
        Err(refused) => SetUpResult { number: refused.number, index: refused.index, state: empty },
    }
}

pub unsafe extern "C" fn admit(table: Table) -> AdmissionResult {
    match second::admit(&from_table(&table)) {
        Ok(a) => AdmissionResult { number: 0, index: 0, bounds: a.bounds, serverbound: a.server, admitted: a.admitted as u32 },
        Err(refused) => AdmissionResult { number: refused.number, index: refused.index, bounds: [0; 16], serverbound: 0, admitted: 0 },
    }
}

/// What a state with a number other than 0 and 1 as a flag is refused with.
const UNFIT: u32 = second::refusal::UNFIT_STATE;

pub unsafe extern "C" fn request(state: State, id: u32, work: u32) -> MovedResult {
    if !state.flags_fit() {
        return MovedResult { number: UNFIT, state };
    }
    let mut next = from_state(&state);
    let number = next.request(id, work).err().unwrap_or(0);
    MovedResult { number, state: to_state(&next) }
}

pub unsafe extern "C" fn tick(state: State) -> TickResult {
    if !state.flags_fit() {
        return TickResult { number: UNFIT, kind: 0, id: 0, drops: 0, finished: 0, request: 0, response: 0, state };
    }
    let mut next = from_state(&state);
    let ticked = next.tick();
    let entry = ticked.map_or(second::Entry::default(), |ticked| ticked.entry);
    let finish = ticked.ok().and_then(|ticked| ticked.finish);
    TickResult {
        number: ticked.err().unwrap_or(0),
        kind: entry.kind,
        id: entry.id,
        drops: entry.drops,
        finished: finish.is_some() as u32,
        request: finish.map_or(0, |finish| finish.id),
        response: finish.map_or(0, |finish| finish.response),
        state: to_state(&next),
    }
}

/// # Safety
/// `entries` points to `len` entries, or `len` is 0.
pub unsafe extern "C" fn run(state: State, k: u32, entries: *mut Entry, len: usize) -> MovedResult {
    if !state.flags_fit() {
        return MovedResult { number: UNFIT, state };
    }
    let lent: &mut [Entry] = if len == 0 { &mut [] } else { std::slice::from_raw_parts_mut(entries, len) };
    let mut record: Vec<second::Entry> = lent.iter().map(|&entry| from_entry(entry)).collect();
    let mut next = from_state(&state);
    let number = next.run(k, &mut record).err().unwrap_or(0);
    for (slot, entry) in lent.iter_mut().zip(record) {
        *slot = to_entry(entry);
    }
    MovedResult { number, state: to_state(&next) }
}

pub unsafe extern "C" fn waiting(state: State) -> WaitingResult {
    if !state.flags_fit() {
        return WaitingResult { number: UNFIT, work: 0 };
    }
    match from_state(&state).work_waiting() {
        Ok(work) => WaitingResult { number: 0, work },
        Err(number) => WaitingResult { number, work: 0 },
    }
}
