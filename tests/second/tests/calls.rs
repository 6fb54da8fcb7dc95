//! Library calls on fit and unfit states: refusals in their order, slots not in use, clocks at their last values.

use second::refusal::*;
use second::state::*;
use second::*;

fn table() -> Table {
    let mut table = Table { n: 2, server: Server { kind: 3, place: 1, period: 9, budget: 3 }, ..Table::default() };
    table.rows = [Row { phase: 7, period: 1, exec: 9, deadline: 0 }; 16];
    table.rows[0] = Row { phase: 0, period: 6, exec: 2, deadline: 6 };
    table.rows[1] = Row { phase: 1, period: 8, exec: 1, deadline: 7 };
    table
}

fn fresh() -> State {
    State::set_up(table()).unwrap()
}

fn refused(mut state: State, number: u32) {
    let before = state;
    let mut entries = [Entry { kind: 8, id: 8, drops: 8 }; 2];
    assert_eq!([state.request(1, 0), state.request(1, 1)], [Err(number); 2]);
    assert_eq!(state.tick(), Err(number));
    assert_eq!([state.run(9, &mut entries), state.run(0, &mut [])], [Err(number); 2]);
    assert_eq!(state.work_waiting(), Err(number));
    assert_eq!(state, before);
    assert_eq!(entries, [Entry { kind: 8, id: 8, drops: 8 }; 2]);
}

#[test]
fn set_up_gives_the_index() {
    let mut bad = table();
    bad.rows[1].exec = 8;
    assert_eq!(State::set_up(bad), Err(Refused { number: BAD_ROW, index: 1 }));
    bad.server.kind = 5;
    assert_eq!(admit(&bad), Err(Refused { number: BAD_ROW, index: 1 }));
    bad.n = 1;
    assert_eq!(admit(&bad), Err(Refused { number: BAD_SERVER, index: 0 }));
    bad.n = 17;
    assert_eq!(admit(&bad), Err(Refused { number: ROW_COUNT, index: 0 }));
}

#[test]
fn unfit_in_each_way() {
    let ways: [fn(&mut State); 15] = [
        |s| s.table.n = 0,
        |s| s.table.n = u32::MAX,
        |s| s.table.rows[1].exec = 0,
        |s| s.table.server.kind = 5,
        |s| s.left[0] = 3,
        |s| s.left[1] = 2,
        |s| *s = with_waiting(25),
        |s| s.waiting = 1,
        |s| (s.waiting, s.queue[0], s.backlog) = (1, Request { id: 1, work: 60_001, arrival: 0 }, 60_001),
        |s| (s.waiting, s.queue[0], s.backlog) = (1, Request { id: 1, work: 1, arrival: 1 }, 1),
        |s| s.service.budget = 4,
        |s| s.clock = 4_000_000_001,
        |s| s.service.tr = 1,
        |s| s.service.begin = 1,
        |s| s.service.nr = 4_000_060_001,
    ];
    for way in ways {
        let mut state = fresh();
        way(&mut state);
        refused(state, UNFIT_STATE);
    }
}

#[test]
fn what_fitness_leaves_free() {
    let mut state = fresh();
    state.left = [9; 16];
    state.left[..2].copy_from_slice(&[2, 1]);
    state.queue = [Request { id: 5, work: 0, arrival: 9 }; QUEUE];
    state.service = Service { nr: 4_000_060_000, served: true, late: true, above: true, busy: true, ..state.service };
    assert!(state.is_fit());
    state.tick().unwrap();
    assert_eq!(state.left[2..], [9; 14]);
    assert_eq!(state.queue, [Request { id: 5, work: 0, arrival: 9 }; QUEUE]);
    assert_eq!(state.table, table());
}

#[test]
fn the_last_clock() {
    let mut state = fresh();
    state.clock = CLOCK_LAST;
    let mut entries = [Entry::default(); 1];
    assert_eq!(state.tick(), Err(CLOCK_SPENT));
    assert_eq!(state.run(1, &mut []), Err(CLOCK_SPENT));
    assert_eq!(state.run(0, &mut []), Ok(()));
    assert_eq!(state.request(1, 0), Err(BAD_WORK));
    assert_eq!(state.request(1, 1), Ok(()));
    assert_eq!(state.queue[0].arrival, CLOCK_LAST);
    state.clock -= 1;
    assert_eq!(state.run(1, &mut entries), Err(UNFIT_STATE));
    state.queue[0].arrival -= 1;
    assert_eq!(state.run(1, &mut []), Err(SHORT_RECORD));
    assert_eq!(state.run(2, &mut []), Err(CLOCK_SPENT));
    assert_eq!(state.run(1, &mut entries), Ok(()));
    assert_eq!(state.clock, CLOCK_LAST);
}

#[test]
fn the_queue_keeps_stale_slots() {
    let mut state = fresh();
    state.table.server = Server { kind: 2, place: 0, period: 9, budget: 3 };
    for id in 1..=3 {
        state.request(id, id).unwrap();
    }
    let ticked = state.tick().unwrap();
    assert_eq!(ticked.finish, Some(Finish { id: 1, response: 1 }));
    let ids: Vec<u32> = state.queue[..4].iter().map(|r| r.id).collect();
    assert_eq!((ids, state.waiting), (vec![2, 3, 3, 0], 2));
}

/// So many wait, every slot holds a good request, and the figure is that of the slots in use: nothing but the count can make the state unfit.
fn with_waiting(count: u32) -> State {
    State { queue: [Request { id: 5, work: 1, arrival: 0 }; QUEUE], waiting: count, backlog: count.min(24), ..fresh() }
}

#[test]
fn up_to_24_wait() {
    assert_eq!(fresh().queue.len(), 24);
    for count in [0, 1, 23, 24] {
        let state = with_waiting(count);
        assert!(state.is_fit());
        assert!({ state }.tick().is_ok());
        assert!({ state }.run(1, &mut [Entry::default()]).is_ok());
    }
    // 64 is the limit that document 01 gives.
    for count in [25, 26, 63, 64, 65, 0x100, 0x118, 0x1_0018, u32::MAX] {
        refused(with_waiting(count), UNFIT_STATE);
    }
}

#[test]
fn the_25th_is_refused() {
    let mut state = fresh();
    for id in 0..24 {
        assert_eq!((state.waiting, state.request(id, 60_000)), (id, Ok(())));
    }
    let before = state;
    assert_eq!(state.request(24, 60_000), Err(QUEUE_FULL));
    assert_eq!(state.request(24, 60_001), Err(BAD_WORK));
    assert_eq!(state, before);
    assert_eq!(state.waiting().iter().map(|request| request.id).collect::<Vec<_>>(), (0..24).collect::<Vec<_>>());
}

#[test]
fn a_place_is_free_when_one_has_finished() {
    let mut state = with_waiting(24);
    state.table.server.place = 0;
    assert_eq!(state.request(6, 1), Err(QUEUE_FULL));
    assert_eq!(state.tick().unwrap().finish, Some(Finish { id: 5, response: 1 }));
    assert_eq!((state.waiting, state.request(7, 1), state.request(8, 1)), (23, Ok(()), Err(QUEUE_FULL)));
    assert_eq!((state.waiting, state.queue[23]), (24, Request { id: 7, work: 1, arrival: 1 }));
}

#[test]
fn a_run_is_its_ticks() {
    let mut one = fresh();
    one.request(9, 7).unwrap();
    let mut many = one;
    let mut entries = [Entry { kind: 8, id: 8, drops: 8 }; 50];
    many.run(40, &mut entries).unwrap();
    for entry in &entries[..40] {
        assert_eq!(*entry, one.tick().unwrap().entry);
    }
    assert_eq!(many, one);
    assert_eq!(entries[40..], [Entry { kind: 8, id: 8, drops: 8 }; 10]);
}
