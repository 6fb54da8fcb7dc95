//! Document 02, 8/13, "the work that waits, kept as a figure", in cases worked out by hand.

use second::refusal::*;
use second::state::*;
use second::*;

/// One row of this phase, and a server of so much budget in 10 ticks above it (below it, without budget, for kind 0).
fn fresh(kind: u32, budget: u32, phase: u32) -> State {
    let server = if kind == 0 { Server { kind, place: 1, period: 0, budget: 0 } } else { Server { kind, place: 0, period: 10, budget } };
    let mut table = Table { n: 1, server, ..Table::default() };
    table.rows[0] = Row { phase, period: 60_000, exec: 2, deadline: 60_000 };
    State::set_up(table).unwrap()
}

/// These works wait, and the row is never open: the clocks here stay below its phase.
fn with_works(kind: u32, works: &[u32]) -> State {
    let mut state = fresh(kind, 2, 60_000);
    for (id, &work) in works.iter().enumerate() {
        state.request(id as u32, work).unwrap();
    }
    state
}

/// The figure after each of so many ticks.
fn figures(state: &mut State, ticks: usize) -> Vec<u32> {
    let figure = |_| {
        state.tick().unwrap();
        state.work_waiting().unwrap()
    };
    (0..ticks).map(figure).collect()
}

#[test]
fn none_waits_in_a_fresh_state() {
    for kind in 0..5 {
        let state = fresh(kind, 2, 0);
        assert_eq!((state.backlog, state.work_waiting()), (0, Ok(0)));
    }
}

#[test]
fn a_request_adds_its_work() {
    let mut state = fresh(2, 2, 0);
    for (work, sum) in [(1, 1), (60_000, 60_001), (7, 60_008)] {
        assert_eq!((state.request(9, work), state.work_waiting()), (Ok(()), Ok(sum)));
    }
}

#[test]
fn a_refused_request_adds_nothing() {
    let mut state = with_works(2, &[3; 24]);
    for (work, number) in [(1, QUEUE_FULL), (60_000, QUEUE_FULL), (0, BAD_WORK), (60_001, BAD_WORK), (u32::MAX, BAD_WORK)] {
        assert_eq!((state.request(9, work), state.work_waiting()), (Err(number), Ok(72)));
    }
}

#[test]
fn every_tick_of_a_request_takes_one_off() {
    // Two by the budget, the others would be idle; under kind 0 all would be. The second request goes on where the first one ends, and
    // nobody waits for the last tick.
    for kind in 0..5 {
        assert_eq!(figures(&mut with_works(kind, &[3, 2]), 6), [4, 3, 2, 1, 0, 0]);
    }
}

#[test]
fn other_ticks_take_nothing_off() {
    // By the budget at 0 and the row at 1 and 2, then ticks that would be idle. Under kind 0 the row goes first.
    for kind in 1..5 {
        let mut state = fresh(kind, 1, 0);
        state.request(7, 3).unwrap();
        assert_eq!(figures(&mut state, 6), [2, 2, 2, 1, 0, 0]);
    }
    let mut state = fresh(0, 0, 0);
    state.request(7, 3).unwrap();
    assert_eq!(figures(&mut state, 6), [3, 3, 2, 1, 0, 0]);
}

#[test]
fn a_tick_of_a_blocked_server_takes_one_off() {
    // Kind 4 with 32 stretches held has a budget, and is not eligible: the tick would be idle.
    let mut state = fresh(4, 2, 60_000);
    (state.table.server.period, state.table.server.budget, state.clock) = (100, 40, 164);
    for i in 0..32 {
        state.returns.stretches[i as usize] = Stretch { start: 100 + 2 * i, length: 1 };
    }
    (state.returns.held, state.service.budget) = (32, 8);
    state.request(7, 2).unwrap();
    assert_eq!((figures(&mut state, 3), state.service.budget), (vec![1, 0, 0], 8));
}

#[test]
fn a_run_takes_off_what_its_ticks_do() {
    for kind in 0..5 {
        let mut state = with_works(kind, &[3, 2, 60_000]);
        let before = state;
        assert_eq!(state.run(5, &mut [Entry::default(); 4]), Err(SHORT_RECORD));
        assert_eq!(state, before);
        state.run(0, &mut []).unwrap();
        assert_eq!(state.work_waiting(), Ok(60_005));
        // The first request ends, and the second has one tick.
        state.run(4, &mut [Entry::default(); 4]).unwrap();
        assert_eq!((state.work_waiting(), state.waiting), (Ok(60_001), 2));
        state.run(100, &mut [Entry::default(); 100]).unwrap();
        assert_eq!(state.work_waiting(), Ok(59_901));
    }
}

#[test]
fn the_largest_figure() {
    let mut state = with_works(1, &[60_000; 24]);
    assert_eq!(state.work_waiting(), Ok(1_440_000));
    assert_eq!(state.request(9, 60_000), Err(QUEUE_FULL));
    assert_eq!(figures(&mut state, 2), [1_439_999, 1_439_998]);
}

fn refused(state: State) {
    let mut other = state;
    assert_eq!([other.request(1, 1), other.request(1, 0)], [Err(UNFIT_STATE); 2]);
    assert_eq!(other.tick(), Err(UNFIT_STATE));
    assert_eq!(other.run(0, &mut []), Err(UNFIT_STATE));
    assert_eq!(other.work_waiting(), Err(UNFIT_STATE));
    assert_eq!(other, state);
}

#[test]
fn another_figure_is_unfit() {
    for (works, sum) in [(&[][..], 0), (&[5, 7], 12), (&[60_000; 24], 1_440_000)] {
        let state = with_works(3, works);
        assert_eq!(state.work_waiting(), Ok(sum));
        for off in [1, u32::MAX, 2, 0x100, 0x1_0000, 0x8000_0000, sum.wrapping_neg()] {
            if off != 0 {
                refused(State { backlog: sum.wrapping_add(off), ..state });
            }
        }
    }
}

#[test]
fn only_slots_in_use_are_summed() {
    let mut state = with_works(3, &[5, 7]);
    state.queue[2..].fill(Request { id: 1, work: u32::MAX, arrival: 0 });
    assert_eq!(state.work_waiting(), Ok(12));
    state.queue[2..].fill(Request { id: 1, work: 1, arrival: 0 });
    assert_eq!(state.work_waiting(), Ok(12));
    refused(State { backlog: 34, ..state });
}

#[test]
fn works_out_of_their_limits() {
    // 24 works of 2^32 - 1 have a sum of more than 32 bits, and its lower 32 are the figure; then one of 0, and one above the limit.
    let all = Request { id: 1, work: u32::MAX, arrival: 0 };
    refused(State { queue: [all; QUEUE], waiting: 24, backlog: 24u32.wrapping_neg(), ..fresh(2, 2, 0) });
    refused(State { waiting: 1, ..fresh(2, 2, 0) });
    let mut state = with_works(2, &[5, 7]);
    (state.queue[1].work, state.backlog) = (60_001, 60_006);
    refused(state);
    refused(State { queue: [all; QUEUE], waiting: u32::MAX, backlog: u32::MAX, ..state });
}

#[test]
fn the_new_call_checks_11_only() {
    let mut state = with_works(2, &[1; 24]);
    state.clock = CLOCK_LAST;
    assert_eq!((state.tick(), state.request(1, 0), state.request(1, 1)), (Err(CLOCK_SPENT), Err(BAD_WORK), Err(QUEUE_FULL)));
    assert_eq!(state.work_waiting(), Ok(24));
    state.clock += 1;
    refused(state);
}
