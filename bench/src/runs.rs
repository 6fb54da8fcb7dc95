//! Ticks of a run: for each kind of server, 1, 4 and 16 tasks, an empty and a full queue.

use differential::abi::{self, Calls};
use differential::convert::{from_entry, from_state, to_state};
use second::state::QUEUE;
use second::{Entry, Row, Server, State, Table};

use crate::{least, timed};

const TICKS: u32 = 5_000;
const GOES: u32 = 200;
const KINDS: [&str; 5] = ["background", "polling", "deferrable", "sporadic", "returning"];

extern "C" {
    fn loop_run(state: *mut abi::State, k: u32, entries: *mut abi::Entry);
}

fn table(kind: u32, n: u32) -> Table {
    let mut table = Table { n, ..Table::default() };
    for i in 0..n {
        let period = 20 + 4 * i;
        table.rows[i as usize] = Row { phase: i, period, exec: if n == 1 { 6 } else { 1 }, deadline: period };
    }
    table.server = match kind {
        0 => Server { kind, place: n, period: 0, budget: 0 },
        _ => Server { kind, place: n / 2, period: 10, budget: 3 },
    };
    table
}

/// A full queue stays full: each request has more work than the run has ticks.
fn state(kind: u32, n: u32, full: bool) -> State {
    let mut state = State::set_up(table(kind, n)).expect("a table within its limits");
    if full {
        for id in 0..QUEUE as u32 {
            state.request(id, 60_000).expect("room in the queue");
        }
    }
    state
}

pub fn print(calls: &Calls) {
    println!("## Ticks of a run, nanoseconds each\n");
    println!("| kind | tasks | queue | library | second | C | library/second | library/C |");
    println!("|---|---|---|---|---|---|---|---|");
    for (kind, name) in KINDS.iter().enumerate() {
        for n in [1, 4, 16] {
            for full in [false, true] {
                let [library, second, c] = times(calls, &state(kind as u32, n, full));
                let queue = if full { "full" } else { "empty" };
                println!(
                    "| {name} | {n} | {queue} | {library:.1} | {second:.1} | {c:.1} | {:.2} | {:.2} |",
                    library / second,
                    library / c
                );
            }
        }
    }
    println!();
}

/// Nanoseconds a tick: the library, the second implementation, C. The three must agree.
fn times(calls: &Calls, start: &State) -> [f64; 3] {
    let given = to_state(start);
    let mut by_library = vec![abi::Entry::default(); TICKS as usize];
    let mut by_second = vec![Entry::default(); TICKS as usize];
    let mut by_c = vec![abi::Entry::default(); TICKS as usize];
    let (mut moved, mut second, mut c) = (None, *start, given);
    let times = least(GOES, || {
        [
            // SAFETY: each list is lent for the call, with room for the ticks.
            timed(|| moved = Some(unsafe { (calls.run)(given, TICKS, by_library.as_mut_ptr(), by_library.len()) })),
            timed(|| {
                second = *start;
                second.run(TICKS, &mut by_second).expect("a run within its limits");
            }),
            timed(|| {
                c = given;
                // SAFETY: as above.
                unsafe { loop_run(&mut c, TICKS, by_c.as_mut_ptr()) };
            }),
        ]
    });
    let moved = moved.expect("at least one go");
    assert_eq!((moved.number, from_state(&moved.state)), (0, second));
    assert_eq!(c, moved.state);
    assert_eq!(by_library, by_c);
    assert!(by_library.iter().zip(&by_second).all(|(library, second)| from_entry(*library) == *second));
    times.map(|seconds| seconds * 1e9 / TICKS as f64)
}
