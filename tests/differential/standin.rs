//! The stand-in as a shared library with the product's names, for the test of the test (wrong.py): built by rustc alone.

#[path = "src/abi.rs"]
#[allow(dead_code, unexpected_cfgs)]
mod abi;
#[path = "src/convert.rs"]
#[allow(dead_code)]
mod convert;
#[path = "src/standin.rs"]
#[allow(dead_code)]
mod standin;

use abi::*;

#[no_mangle]
pub unsafe extern "C" fn pilqandur_set_up(table: Table) -> SetUpResult {
    standin::set_up(table)
}

#[no_mangle]
pub unsafe extern "C" fn pilqandur_admit(table: Table) -> AdmissionResult {
    standin::admit(table)
}

#[no_mangle]
pub unsafe extern "C" fn pilqandur_request(state: State, id: u32, work: u32) -> MovedResult {
    standin::request(state, id, work)
}

#[no_mangle]
pub unsafe extern "C" fn pilqandur_tick(state: State) -> TickResult {
    standin::tick(state)
}

#[no_mangle]
pub unsafe extern "C" fn pilqandur_run(state: State, k: u32, entries: *mut Entry, len: usize) -> MovedResult {
    standin::run(state, k, entries, len)
}

#[no_mangle]
pub unsafe extern "C" fn pilqandur_waiting(state: State) -> WaitingResult {
    standin::waiting(state)
}
