//! `calls LIBRARY [COUNT] [SEED]`: random calls through the library, against the second implementation: result, next state, entries.
//! LIBRARY is `linked` (built with that feature), `second` (the second implementation against itself), or a shared object's path.
//! A call that tells them apart is made small and written to target/differential/.

use std::process::exit;
use std::time::Instant;

use differential::abi::Calls;
use differential::backlog::{self, slots_used};
use differential::call::{compare, random_call, shrink, table_call, Call};
use differential::idle;
use differential::program::{all_reached, begin, write, Seen};
use differential::random::Random;
use differential::returns::{shown, unfit_by, CLAUSES, SHOWN};
use differential::state;
use differential::waiting;
use second::table::RETURNING;
use second::State;

const OTHER_KINDS: &str = "accepted under another kind with more than 32 stretches";

/// From so many calls on, each of these is to be reached.
const ENOUGH: u64 = 100_000;

struct Fault {
    state: State,
    call: Call,
}

fn main() {
    let (calls, count, seed) = begin("calls", "calls", 200_000);
    let start = Instant::now();
    let mut seen = Seen::new();
    let (mut made, mut list) = (0, 0);
    while made < count {
        if let Err(fault) = one_list(&calls, &mut Random::new(seed, list), &mut made, &mut seen) {
            report(&calls, seed, list, &fault);
            exit(1);
        }
        list += 1;
    }
    println!("calls: {made} calls in {list} lists, all alike in {:.1} s", start.elapsed().as_secs_f64());
    let of_states = CLAUSES.map(unfit_words).into_iter();
    let words: Vec<String> = of_states.chain(idle::shown_by_calls()).chain(backlog::shown_by_calls()).collect();
    let to_reach: Vec<&str> =
        SHOWN.into_iter().chain(waiting::SHOWN_BY_CALLS).chain(words.iter().map(String::as_str)).chain([OTHER_KINDS]).collect();
    if !all_reached("calls", &seen, &to_reach, count, ENOUGH) {
        exit(1);
    }
}

/// One list of calls from a fresh, a fit, an edge or an unfit state, one of kind 4 with many stretches or broken ones, or one with a wrong
/// figure of the work waiting; each call starts where the last one ended.
fn one_list(calls: &Calls, random: &mut Random, made: &mut u64, seen: &mut Seen) -> Result<(), Fault> {
    let (mut state, length) = match random.below(13) {
        0..=3 => (State::set_up(state::table(random)).expect("a table within its limits"), 40),
        4..=6 => (state::fit(random), 6),
        7 => (state::edge(random), 4),
        8 | 9 => (state::unfit(random), 3),
        10 => (many_stretches(random), 9),
        11 => (state::off(random), 3),
        _ => (state::broken(random), 2),
    };
    for _ in 0..length {
        let call = if random.once_in(12) { table_call(random) } else { random_call(random) };
        *made += 1;
        let ending = note(seen, &state, &call);
        state = match compare(calls, &state, &call) {
            // A set-up within a list is compared and its state left aside.
            Ok(_) if matches!(call, Call::SetUp(_)) => state,
            Ok(next) => {
                backlog::shown(&state, &call, &ending, &next).into_iter().for_each(|what| add(seen, what));
                next
            }
            Err(_) => return Err(Fault { state, call }),
        };
    }
    Ok(())
}

fn many_stretches(random: &mut Random) -> State {
    let count = random.pick(&[30, 31, 32, 32]);
    state::returning(random, count)
}

fn add(seen: &mut Seen, what: String) {
    *seen.entry(what).or_default() += 1;
}

/// Counts how the call ends, and how with a queue at its limit; what makes its state unfit; and what its first tick shows. The ending.
fn note(seen: &mut Seen, state: &State, call: &Call) -> String {
    let ending = ending(state, call);
    add(seen, ending.clone());
    waiting::shown_by_call(state, &ending).into_iter().for_each(|what| add(seen, what.to_string()));
    if matches!(call, Call::SetUp(_) | Call::Admit(_) | Call::Damaged { .. }) {
        return ending;
    }
    if let Some(clause) = unfit_by(state) {
        add(seen, unfit_words(clause));
    }
    if state.table.server.kind != RETURNING && state.returns.held > 32 && state.is_fit() {
        add(seen, OTHER_KINDS.to_string());
    }
    if matches!(call, Call::Tick | Call::Run { .. }) {
        shown(state).into_iter().for_each(|what| add(seen, what.to_string()));
        idle::shown(state).into_iter().for_each(|what| add(seen, what));
    }
    ending
}

fn unfit_words(clause: &str) -> String {
    format!("unfit by {clause} alone")
}

/// The call's name and number: what the counts show was reached.
fn ending(state: &State, call: &Call) -> String {
    let mut state = *state;
    let (name, number) = match *call {
        Call::SetUp(table) => ("set-up", State::set_up(table).err().map(|refused| refused.number)),
        Call::Admit(table) => ("admit", table.check().err().map(|refused| refused.number)),
        Call::Request { id, work } => ("request", state.request(id, work).err()),
        Call::Tick => ("tick", state.tick().err()),
        Call::Run { k, lent } => {
            (if lent == 0 { "run without a list" } else { "run" }, state.run(k, &mut vec![second::Entry::default(); lent]).err())
        }
        Call::Waiting => ("waiting call", state.work_waiting().err()),
        Call::Damaged { .. } => ("damaged flags", Some(second::refusal::UNFIT_STATE)),
    };
    number.map_or(format!("{name} done"), |number| format!("{name} refused {number}"))
}

fn report(calls: &Calls, seed: u64, list: u64, fault: &Fault) {
    let small = shrink(calls, &fault.state, &fault.call);
    let difference = compare(calls, &small, &fault.call).err().unwrap_or_default();
    let text = format!(
        "{:?}\n{difference}\n\nmade small:\n{}\nmade small, every slot:\n{small:?}\n\nas met:\n{:?}\n",
        fault.call,
        describe(&small),
        fault.state
    );
    let path = write(&format!("call-{seed}-{list}.txt"), text.as_bytes());
    println!("calls: list {list} of seed {seed} differs; written to {path}");
    println!("{:?}: {difference}", fault.call);
}

/// The parts of a state that are in use, a line each.
fn describe(state: &State) -> String {
    let (rows, waiting) = (state.table.n.min(16) as usize, slots_used(state));
    let mut text = format!(
        "clock {}, {} rows, {} waiting, their work {}\n{:?}\n{:?}\n",
        state.clock, state.table.n, state.waiting, state.backlog, state.table.server, state.service
    );
    for i in 0..rows {
        text += &format!("{:?}, left {}\n", state.table.rows[i], state.left[i]);
    }
    for request in &state.queue[..waiting] {
        text += &format!("{request:?}\n");
    }
    text += &format!("{} stretches\n", state.returns.held);
    for stretch in &state.returns.stretches[..state.returns.held.min(32) as usize] {
        text += &format!("{stretch:?}\n");
    }
    text
}
