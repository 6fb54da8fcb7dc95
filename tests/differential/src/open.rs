//! The library by name: linked, the stand-in, or a shared object, opened while the program runs.

use std::ffi::{c_char, c_int, c_void, CString};
use std::mem::transmute;

use crate::abi::{linked, Calls, NAMES};
use crate::standin;

extern "C" {
    fn dlopen(path: *const c_char, flags: c_int) -> *mut c_void;
    fn dlsym(library: *mut c_void, name: *const c_char) -> *mut c_void;
}

const RTLD_NOW: c_int = 2;

/// `linked` (a program built with that feature), `second` (the second implementation), or the path of a shared object.
pub fn find(library: &str) -> Option<Calls> {
    match library {
        "linked" => linked(),
        "second" => Some(standin::CALLS),
        path => open(path),
    }
}

fn open(path: &str) -> Option<Calls> {
    let path = CString::new(path).ok()?;
    // SAFETY: the path is a C string; the object's start-up code is trusted as a linked library's would be.
    let library = unsafe { dlopen(path.as_ptr(), RTLD_NOW) };
    if library.is_null() {
        return None;
    }
    // SAFETY: the library is open, the names are C strings.
    let found = NAMES.map(|name| unsafe { dlsym(library, name.as_ptr()) });
    if found.iter().any(|function| function.is_null()) {
        return None;
    }
    let [set_up, admit, request, tick, run, waiting] = found;
    // SAFETY: these names have the types that abi.rs gives them.
    unsafe {
        Some(Calls {
            set_up: transmute(set_up),
            admit: transmute(admit),
            request: transmute(request),
            tick: transmute(tick),
            run: transmute(run),
            waiting: transmute(waiting),
        })
    }
}
