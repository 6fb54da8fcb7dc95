//! Document 02, 5/13, "idle ticks go to waiting requests", in cases worked out by hand.

use second::print::schedule;
use second::*;

/// One row that is never open: it is released at 60,000, and the clocks here stay below.
fn table(kind: u32, period: u32, budget: u32) -> Table {
    let server = if kind == 0 { Server { kind, place: 1, period: 0, budget: 0 } } else { Server { kind, place: 0, period, budget } };
    let mut table = Table { n: 1, server, ..Table::default() };
    table.rows[0] = Row { phase: 60_000, period: 60_000, exec: 1, deadline: 60_000 };
    table
}

/// A state whose budget of 2 in 10 ticks is spent, tick 4 the first and 5 the last that was served; a request of so much work waits.
fn spent(kind: u32, work: u32) -> State {
    let mut state = State::set_up(table(kind, 10, 2)).unwrap();
    state.clock = 8;
    state.service = Service { nr: 14, served: true, ..Service::default() };
    if kind == 4 {
        state.returns.stretches[0] = Stretch { start: 4, length: 2 };
        state.returns.held = 1;
    }
    state.request(7, work).unwrap();
    state
}

/// One tick: what is left of the budget, and whether a request had the tick.
fn tick(state: &mut State) -> (u32, bool) {
    let entry = state.tick().unwrap().entry;
    (state.service.budget, entry.kind == 2)
}

fn held(state: &State) -> Vec<(u32, u32)> {
    state.returns.stretches[..state.returns.held as usize].iter().map(|stretch| (stretch.start, stretch.length)).collect()
}

fn has(plan: &str, line: &str) {
    let out = String::from_utf8(schedule(plan.as_bytes())).unwrap();
    assert!(out.lines().any(|l| l == line), "no line {line} for\n{plan}\n{out}");
}

#[test]
fn under_every_kind() {
    for kind in 0..5 {
        let before = spent(kind, 2);
        let mut state = before;
        let first = state.tick().unwrap();
        assert_eq!((first.entry, first.finish), (Entry { kind: 2, id: 7, drops: 0 }, None));
        assert_eq!((state.queue[0].work, state.waiting), (1, 1));
        let second = state.tick().unwrap();
        assert_eq!((second.entry, second.finish), (first.entry, Some(Finish { id: 7, response: 2 })));
        // Nothing else has moved.
        assert_eq!((state.service, state.returns, state.clock, state.waiting), (before.service, before.returns, 10, 0));
        // Nobody waits.
        let third = state.tick().unwrap();
        assert_eq!((third.entry, third.finish), (Entry::default(), None));
    }
}

#[test]
fn a_row_below_goes_first() {
    for kind in 1..5 {
        let mut state = spent(kind, 2);
        state.left[0] = 1;
        // It has been open before, so that no sporadic budget comes back.
        state.service.busy = true;
        assert_eq!(state.tick().unwrap().entry, Entry { kind: 1, id: 0, drops: 0 });
        assert_eq!(tick(&mut state), (0, true));
    }
}

#[test]
fn a_drop_is_reported_with_it() {
    // By the budget at 3 to 6, the row at 7; at 8 its deadline has come, and the tick would be idle.
    let plan = "T,3,6,2,5\nS,2,0,5,2\nA,3,7,5\nR,20\n";
    has(plan, "X,8,A,7,1");
    has(plan, "F,8,7,6");
}

#[test]
fn the_budget_of_a_poller_comes_back_at_its_time() {
    let mut state = spent(1, 1);
    // Given, and it ends the request; tick 9 is idle.
    assert_eq!(tick(&mut state), (0, true));
    assert_eq!(tick(&mut state), (0, false));
    state.request(8, 4).unwrap();
    // By the budget at 10 and 11, then given.
    for budget in [1, 0, 0] {
        assert_eq!(tick(&mut state), (budget, true));
    }
    // Given, and it ends the request in the tick before the budget comes back, which no one asks for.
    let mut state = spent(1, 2);
    assert_eq!([tick(&mut state), tick(&mut state), tick(&mut state)], [(0, true), (0, true), (0, false)]);
}

#[test]
fn exactly_the_budget_by_budget_and_more_in_all() {
    // The row has 2, 3 and 4 of every ten ticks; a request always waits.
    for kind in [1, 2] {
        let mut state = State::set_up(table(kind, 5, 2)).unwrap();
        state.table.rows[0] = Row { phase: 0, period: 10, exec: 3, deadline: 10 };
        assert!(admit(&state.table).unwrap().admitted);
        state.request(7, 60_000).unwrap();
        let ticks: Vec<(u32, bool)> = (0..10).map(|_| tick(&mut state)).collect();
        let budgets: Vec<u32> = ticks.iter().map(|tick| tick.0).collect();
        assert_eq!(budgets, [1, 0, 0, 0, 0, 1, 0, 0, 0, 0]);
        let requests: Vec<usize> = (0..10).filter(|&t| ticks[t].1).collect();
        assert_eq!(requests, [0, 1, 5, 6, 7, 8, 9]);
    }
}

#[test]
fn a_sporadic_server_that_has_not_served_is_left_so() {
    // No run leads here: the budget is gone, and nothing was served since tr.
    let mut state = spent(3, 2);
    state.service = Service { tr: 2, ..Service::default() };
    assert_eq!(tick(&mut state), (0, true));
    assert_eq!(state.service, Service { tr: 2, ..Service::default() });
}

#[test]
fn rows_wake_after_ticks_given_to_a_sporadic_server() {
    let mut state = State::set_up(table(3, 10, 1)).unwrap();
    state.table.rows[0] = Row { phase: 3, period: 60, exec: 2, deadline: 60 };
    state.request(7, 5).unwrap();
    // By the budget at 0, given at 1 and 2: nr stays at 10.
    assert_eq!([tick(&mut state), tick(&mut state), tick(&mut state)], [(0, true); 3]);
    assert_eq!(state.service, Service { nr: 10, served: true, ..Service::default() });
    // No row was open at 2, so the budget is back at 3; no row above was either, so te is 3.
    assert_eq!(tick(&mut state), (0, true));
    assert_eq!(state.service, Service { tr: 3, nr: 13, served: true, busy: true, ..Service::default() });
    // The row has 4 and 5, and the request 6.
    assert_eq!([tick(&mut state), tick(&mut state), tick(&mut state)], [(0, false), (0, false), (0, true)]);
    assert_eq!((state.waiting, state.service.nr), (0, 13));
}

#[test]
fn a_given_tick_is_in_no_stretch() {
    let mut state = State::set_up(table(4, 3, 2)).unwrap();
    state.request(7, 9).unwrap();
    for (stretches, budget) in [
        (vec![(0, 1)], 1),
        (vec![(0, 2)], 0),
        // Given.
        (vec![(0, 2)], 0),
        // Tick 0 comes back; 3 does not go on with 1.
        (vec![(1, 1), (3, 1)], 0),
        // Tick 1 comes back; 4 goes on with 3.
        (vec![(3, 2)], 0),
        // Given.
        (vec![(3, 2)], 0),
        (vec![(4, 1), (6, 1)], 0),
    ] {
        assert_eq!(tick(&mut state), (budget, true));
        assert_eq!(held(&state), stretches);
        assert!(state.is_fit());
    }
}

#[test]
fn a_blocked_server_keeps_its_budget() {
    // 32 stretches are held, and the last one ends with 162: two ticks are given, though 28 of the budget are left.
    let mut state = State::set_up(table(4, 100, 60)).unwrap();
    state.clock = 164;
    for i in 0..32 {
        state.returns.stretches[i as usize] = Stretch { start: 100 + 2 * i, length: 1 };
    }
    (state.returns.held, state.service.budget) = (32, 28);
    state.request(7, 2).unwrap();
    let before = state;
    assert_eq!([tick(&mut state), tick(&mut state), tick(&mut state)], [(28, true), (28, true), (28, false)]);
    assert_eq!((state.returns, state.service, state.waiting), (before.returns, before.service, 0));
}

#[test]
fn a_run_gives_them_too() {
    for kind in 0..5 {
        let mut state = spent(kind, 3);
        let mut entries = [Entry::default(); 2];
        state.run(2, &mut entries).unwrap();
        assert_eq!(entries, [Entry { kind: 2, id: 7, drops: 0 }; 2]);
        assert_eq!(state.queue[0].work, 1);
    }
}
