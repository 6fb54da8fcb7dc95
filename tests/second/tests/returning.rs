//! Kind 4 of document 02, 3/13, "a server that gives back tick by tick", in cases worked out by hand.

use second::print::schedule;
use second::refusal::*;
use second::*;

const OTHER: u32 = 77;

/// One row that is never open: it is released at 60,000, and the clocks here stay below.
fn table(kind: u32, period: u32, budget: u32) -> Table {
    let mut table = Table { n: 1, server: Server { kind, place: 0, period, budget }, ..Table::default() };
    table.rows[0] = Row { phase: 60_000, period: 60_000, exec: 1, deadline: 60_000 };
    table
}

/// A state of kind 4 that holds these stretches, with the budget that they leave.
fn holding(clock: u32, period: u32, budget: u32, stretches: &[(u32, u32)]) -> State {
    let mut state = State::set_up(table(4, period, budget)).unwrap();
    state.clock = clock;
    for (slot, &(start, length)) in state.returns.stretches.iter_mut().zip(stretches) {
        *slot = Stretch { start, length };
        state.service.budget -= length;
    }
    state.returns.held = stretches.len() as u32;
    state
}

/// As many stretches of one tick, every other tick from `from` on.
fn singles(from: u32, count: u32) -> Vec<(u32, u32)> {
    (0..count).map(|i| (from + 2 * i, 1)).collect()
}

fn held(state: &State) -> Vec<(u32, u32)> {
    state.returns.stretches[..state.returns.held as usize].iter().map(|stretch| (stretch.start, stretch.length)).collect()
}

/// One tick: whether a request had it by the budget.
fn served(state: &mut State) -> bool {
    let budget = budget_within(*state);
    state.tick().unwrap();
    state.service.budget < budget
}

/// The budget between steps 3 and 4 of the next tick.
fn budget_within(mut state: State) -> u32 {
    state.begin_tick();
    state.service.budget
}

fn refused(mut state: State) {
    let before = state;
    let mut entries = [Entry { kind: 8, id: 8, drops: 8 }; 2];
    assert_eq!(state.request(1, 0), Err(UNFIT_STATE));
    assert_eq!(state.tick(), Err(UNFIT_STATE));
    assert_eq!(state.run(9, &mut entries), Err(UNFIT_STATE));
    assert_eq!(state, before);
    assert_eq!(entries, [Entry { kind: 8, id: 8, drops: 8 }; 2]);
}

fn responses(plan: &str) -> Vec<u32> {
    let out = String::from_utf8(schedule(plan.as_bytes())).unwrap();
    let finishes = out.lines().filter(|line| line.starts_with("F,"));
    finishes.map(|line| line.rsplit(',').next().unwrap().parse().unwrap()).collect()
}

#[test]
fn limits() {
    for (period, budget) in [(1, 1), (60_000, 1), (60_000, 60_000)] {
        assert!(State::set_up(table(4, period, budget)).is_ok());
    }
    let mut below = table(4, 5, 2);
    below.server.place = 1;
    assert!(admit(&below).is_ok());
    for (kind, place, period, budget) in [(5, 0, 5, 2), (4, 2, 5, 2), (4, 0, 5, 0), (4, 0, 5, 6), (4, 0, 60_001, 5), (4, 0, 0, 0)] {
        let bad = Table { server: Server { kind, place, period, budget }, ..table(4, 5, 2) };
        assert_eq!(State::set_up(bad), Err(Refused { number: BAD_SERVER, index: 0 }));
        assert_eq!(admit(&bad), Err(Refused { number: BAD_SERVER, index: 0 }));
    }
}

#[test]
fn fresh() {
    let state = State::set_up(table(4, 5, 2)).unwrap();
    assert_eq!((state.service, state.returns), (Service { budget: 2, ..Service::default() }, Returns::NONE));
    assert!(state.is_fit());
}

#[test]
fn admission_is_that_of_polling() {
    let table = |kind| Table { rows: [Row { phase: 3, period: 6, exec: 2, deadline: 6 }; 16], ..table(kind, 5, 2) };
    assert_eq!(admit(&table(4)), admit(&table(1)));
    let admission = admit(&table(4)).unwrap();
    assert_eq!((admission.bounds[0], admission.server, admission.admitted), (4, 2, true));
    // Its own bound, with a row of 2 above it.
    let below = Table { server: Server { kind: 4, place: 1, period: 5, budget: 2 }, ..table(4) };
    assert_eq!(admit(&below).unwrap().server, 4);
}

#[test]
fn the_marked_row() {
    // Served at 3 and 4, which come back at 8 and 9; tick 7 is idle (5/13), and 8 is served.
    assert_eq!(responses("T,3,6,2,6\nS,4,0,5,2\nA,3,7,4\nR,30\n"), [6]);
    // With a row that wants 7 too, 8 and 9 are served.
    assert_eq!(responses("T,3,6,3,6\nS,4,0,5,2\nA,3,7,4\nR,30\n"), [7]);
}

#[test]
fn each_tick_comes_back_one_period_after_its_use() {
    let mut state = holding(9, 8, 2, &[(2, 1), (5, 1)]);
    // 2 + 8 is 10: not before, not after.
    assert_eq!(budget_within(state), 0);
    assert!(!served(&mut state));
    assert_eq!(budget_within(state), 1);
    state.tick().unwrap();
    assert_eq!((held(&state), state.service.budget), (vec![(5, 1)], 1));
    state.tick().unwrap();
    state.tick().unwrap();
    assert_eq!((state.clock, state.service.budget), (13, 1));
    assert_eq!(budget_within(state), 2);
    state.tick().unwrap();
    assert_eq!((held(&state), state.service.budget), (vec![], 2));
}

#[test]
fn a_stretch_comes_back_tick_by_tick() {
    let mut state = holding(10, 8, 3, &[(2, 3)]);
    for (clock, budget, left) in [(11, 1, vec![(3, 2)]), (12, 2, vec![(4, 1)]), (13, 3, vec![])] {
        state.tick().unwrap();
        assert_eq!((state.clock, state.service.budget, held(&state)), (clock, budget, left));
    }
}

#[test]
fn what_comes_back_serves_in_the_same_tick() {
    // Served at 0, 1 and 2; the row below has 3 and 4; then what came back at 5, 6, 7.
    assert_eq!(responses("T,0,60,20,60\nS,4,0,5,3\nA,0,1,3\nA,0,2,1\nA,0,3,2\nR,20\n"), [3, 6, 8]);
}

#[test]
fn the_budget_does_not_fall_while_the_server_idles() {
    // The sporadic server loses its second tick at 1 (marked.rs): this one has it still at 2.
    assert_eq!(responses("T,0,60,20,60\nS,4,0,10,2\nA,0,1,1\nA,2,2,1\nR,20\n"), [1, 1]);
    // Nor with its queue, as a poller's: it goes before the row at 6 too (marked.rs).
    assert_eq!(responses("T,3,6,4,6\nS,4,0,5,2\nA,5,1,1\nA,6,2,1\nR,30\n"), [1, 1]);
}

#[test]
fn the_budget_does_not_come_back_at_a_period() {
    // A deferrable server would be whole again at 10: here 8 and 9 come back at 18 and 19.
    let mut state = holding(10, 10, 2, &[(8, 2)]);
    assert_eq!(budget_within(state), 0);
    // Nor where rows wake, as the sporadic server's.
    state.table.rows[0].phase = 10;
    assert_eq!(budget_within(state), 0);
}

#[test]
fn a_period_of_one() {
    let mut state = holding(0, 1, 1, &[]);
    state.request(1, 3).unwrap();
    for t in 0..3 {
        assert!(served(&mut state));
        // The stretch of the tick before is gone when this one is served: it opens another.
        assert_eq!((held(&state), state.service.budget), (vec![(t, 1)], 0));
    }
    assert!(!served(&mut state));
    assert_eq!((held(&state), state.service.budget), (vec![], 1));
    assert_eq!(state.returns.stretches[0], Stretch { start: 2, length: 1 });
}

#[test]
fn a_budget_of_the_whole_period() {
    let mut state = holding(0, 5, 5, &[]);
    state.request(1, 12).unwrap();
    for t in 0..12u32 {
        assert!(served(&mut state));
        let first = (t + 1).saturating_sub(5);
        assert_eq!(held(&state), [(first, t + 1 - first)]);
    }
    assert_eq!(state.service.budget, 0);
}

#[test]
fn a_tick_makes_the_last_stretch_longer_or_opens_another() {
    let mut state = holding(7, 20, 9, &[(2, 2), (5, 2)]);
    state.request(1, 1).unwrap();
    assert!(served(&mut state));
    assert_eq!(held(&state), [(2, 2), (5, 3)]);
    assert!(!served(&mut state));
    state.request(1, 1).unwrap();
    assert!(served(&mut state));
    assert_eq!(held(&state), [(2, 2), (5, 3), (9, 1)]);
    assert_eq!(state.service.budget, 3);
}

#[test]
fn a_row_above_breaks_a_stretch() {
    let mut state = State::set_up(Table { server: Server { kind: 4, place: 1, period: 20, budget: 9 }, ..table(4, 20, 9) }).unwrap();
    state.table.rows[0] = Row { phase: 1, period: 30, exec: 2, deadline: 30 };
    state.request(1, 3).unwrap();
    let occupants: Vec<u32> = (0..5).map(|_| state.tick().unwrap().entry.kind).collect();
    assert_eq!(occupants, [2, 1, 1, 2, 2]);
    assert_eq!((held(&state), state.service.budget), (vec![(0, 1), (3, 2)], 6));
}

#[test]
fn thirty_one_held_leave_room_for_one() {
    let mut state = holding(164, 100, 60, &singles(100, 31));
    state.request(1, 9).unwrap();
    assert!(served(&mut state));
    assert_eq!(held(&state), [singles(100, 31), vec![(164, 1)]].concat());
    // 32 held, and this tick makes the last one longer.
    assert!(served(&mut state));
    assert_eq!(held(&state), [singles(100, 31), vec![(164, 2)]].concat());
    assert_eq!((state.returns.held, state.service.budget), (32, 27));
}

#[test]
fn thirty_two_held_and_a_tick_that_would_open_another() {
    // The last one ends with 162, and 163 has passed.
    let mut state = holding(164, 100, 60, &singles(100, 32));
    state.request(1, 9).unwrap();
    let before = state;
    assert!(!served(&mut state));
    assert_eq!((state.returns, state.service), (before.returns, before.service));
    // The row below has the tick instead.
    let mut open = before;
    open.left[0] = 1;
    assert_eq!(open.tick().unwrap().entry, Entry { kind: 1, id: 0, drops: 0 });
    assert_eq!((open.returns, open.service, open.queue), (before.returns, before.service, before.queue));
}

#[test]
fn thirty_two_held_and_the_last_ends_here() {
    let mut state = holding(163, 100, 60, &singles(100, 32));
    state.request(1, 1).unwrap();
    assert!(served(&mut state));
    assert_eq!(held(&state), [singles(100, 31), vec![(162, 2)]].concat());
    // Not in the tick after a tick without service.
    state.clock = 165;
    state.request(1, 1).unwrap();
    assert!(!served(&mut state));
}

#[test]
fn a_place_freed_at_step_3_is_free_in_the_tick() {
    // 100 comes back at 200, and the stretch was that tick alone.
    let mut state = holding(199, 100, 60, &singles(100, 32));
    state.request(1, 9).unwrap();
    assert!(!served(&mut state));
    assert!(served(&mut state));
    assert_eq!(held(&state), [singles(102, 31), vec![(200, 1)]].concat());
    // 201 makes the new one longer.
    assert!(served(&mut state));
    assert_eq!(held(&state), [singles(102, 31), vec![(200, 2)]].concat());
}

#[test]
fn a_return_that_shortens_frees_no_place() {
    let mut state = holding(200, 100, 60, &[vec![(100, 3)], singles(104, 31)].concat());
    state.request(1, 9).unwrap();
    for (start, length) in [(101, 2), (102, 1)] {
        assert!(!served(&mut state));
        assert_eq!(held(&state), [vec![(start, length)], singles(104, 31)].concat());
    }
    assert_eq!(state.service.budget, 28);
    assert!(served(&mut state));
    assert_eq!(held(&state), [singles(104, 31), vec![(202, 1)]].concat());
}

#[test]
fn blocked_from_a_fresh_state() {
    // Unit requests at 0, 2, .. 64, P 66: the 33rd waits from 64, where the row below opens, until tick 0 comes back, at 66.
    let arrivals: String = (0..33).map(|i| format!("A,{},{i},1\n", 2 * i)).collect();
    let plan = |period: u32| format!("T,64,200,9,200\nS,4,0,{period},33\n{arrivals}R,100\n");
    assert_eq!(responses(&plan(66)), [vec![1; 32], vec![3]].concat());
    assert_eq!(responses(&plan(65)), [vec![1; 32], vec![2]].concat());
    // At 64 tick 0 comes back before the server is asked.
    assert_eq!(responses(&plan(64)), [1; 33]);
    // Without a budget left it waits as well.
    let spent = plan(66).replace("66,33", "66,32");
    assert_eq!(responses(&spent), [vec![1; 32], vec![3]].concat());
}

#[test]
fn a_slot_that_nobody_moves_into_keeps_what_it_held() {
    let mut state = holding(20, 10, 9, &[(10, 1), (12, 2), (16, 1)]);
    state.returns.stretches[3..].fill(Stretch { start: 5, length: 6 });
    state.tick().unwrap();
    assert_eq!(held(&state), [(12, 2), (16, 1)]);
    assert_eq!(state.returns.stretches[2], Stretch { start: 16, length: 1 });
    assert_eq!(state.returns.stretches[3..], [Stretch { start: 5, length: 6 }; 29]);
    let mut one = holding(20, 10, 9, &[(10, 1)]);
    one.tick().unwrap();
    assert_eq!((one.returns.held, one.returns.stretches[0]), (0, Stretch { start: 10, length: 1 }));
}

#[test]
fn the_sporadic_fields_stay() {
    let mut state = holding(12, 10, 9, &[(2, 1)]);
    let marks = Service { tr: 5, begin: 6, nr: 12, served: true, late: true, above: true, busy: true, ..state.service };
    state.service = marks;
    state.left[0] = 1;
    state.request(1, 2).unwrap();
    state.tick().unwrap();
    assert_eq!(state.service, marks);
    state.tick().unwrap();
    assert_eq!(state.service, Service { budget: 7, ..marks });
    // And are checked as under every kind.
    state.service.tr = 15;
    refused(state);
}

#[test]
fn at_the_last_clock() {
    let last = 4_000_000_000;
    let mut state = holding(last - 1, 60_000, 60_000, &[(last - 60_001, 30_000), (last - 5, 4)]);
    state.request(1, 60_000).unwrap();
    assert!(served(&mut state));
    assert_eq!(held(&state), [(last - 60_000, 29_999), (last - 5, 5)]);
    assert!(state.is_fit());
    assert_eq!(state.tick(), Err(CLOCK_SPENT));
}

#[test]
fn held_ticks_and_budget_are_the_whole() {
    let fit = holding(20, 10, 9, &[(11, 2), (15, 3)]);
    assert_eq!((fit.service.budget, fit.is_fit()), (4, true));
    for budget in [0, 3, 5, 9] {
        refused(State { service: Service { budget, ..fit.service }, ..fit });
    }
    assert!(holding(20, 10, 5, &[(11, 2), (15, 3)]).is_fit());
    let mut none = holding(20, 10, 9, &[]);
    assert!(none.is_fit());
    none.service.budget = 8;
    refused(none);
    // Lengths that only a sum of 32 bits would take for 5.
    let mut wide = holding(20, 10, 9, &[(11, 2), (15, 3)]);
    wide.returns.stretches[0].length = u32::MAX;
    wide.returns.stretches[1].length = 6;
    refused(wide);
}

#[test]
fn at_most_thirty_two() {
    assert!(holding(170, 100, 60, &singles(100, 32)).is_fit());
    for more in [33, 34, 64, 0x1_0000, u32::MAX] {
        let mut state = holding(170, 100, 60, &singles(100, 32));
        state.returns.held = more;
        refused(state);
    }
}

#[test]
fn none_is_empty() {
    let fit = |length| holding(20, 10, 9, &[(11, 2), (15, length), (18, 1)]);
    assert!(fit(1).is_fit());
    refused(fit(0));
    for place in [0, 2] {
        let mut state = fit(1);
        state.service.budget += state.returns.stretches[place].length;
        state.returns.stretches[place].length = 0;
        refused(state);
    }
}

#[test]
fn in_order_and_apart() {
    let fit = |first, second| holding(20, 10, 9, &[first, second]);
    // One tick lies between.
    assert!(fit((11, 3), (15, 1)).is_fit());
    // Touching, overlapping by one, from one start, one within the other, out of order.
    for (first, second) in
        [((11, 4), (15, 1)), ((11, 5), (15, 1)), ((12, 2), (12, 2)), ((11, 6), (13, 1)), ((15, 1), (11, 3)), ((15, 2), (13, 2))]
    {
        refused(fit(first, second));
    }
    // The last two of several.
    assert!(holding(20, 10, 9, &[(10, 1), (12, 1), (14, 1), (16, 1)]).is_fit());
    refused(holding(20, 10, 9, &[(10, 1), (12, 1), (14, 2), (16, 1)]));
}

#[test]
fn within_the_last_period_before_the_clock() {
    assert!(holding(20, 10, 9, &[(10, 1)]).is_fit());
    refused(holding(20, 10, 9, &[(9, 1)]));
    refused(holding(20, 10, 9, &[(9, 3)]));
    assert!(holding(20, 10, 9, &[(17, 3)]).is_fit());
    refused(holding(20, 10, 9, &[(17, 4)]));
    refused(holding(20, 10, 9, &[(20, 1)]));
    assert!(holding(20, 10, 10, &[(10, 10)]).is_fit());
    // A last tick that only a sum of 32 bits would take for an earlier one.
    let mut wide = holding(20, 10, 9, &[(19, 1)]);
    wide.returns.stretches[0].length = u32::MAX;
    refused(wide);
}

#[test]
fn a_clock_below_the_period() {
    assert!(holding(5, 10, 9, &[(0, 5)]).is_fit());
    assert!(holding(5, 10, 9, &[(0, 1), (4, 1)]).is_fit());
    refused(holding(5, 10, 9, &[(0, 6)]));
    refused(holding(0, 10, 9, &[(0, 1)]));
    assert!(holding(10, 10, 9, &[(0, 9)]).is_fit());
    refused(holding(11, 10, 9, &[(0, 9)]));
    // Nothing comes back before tick P.
    let mut state = holding(5, 10, 9, &[(0, 5)]);
    for clock in 5..10 {
        assert_eq!((state.clock, state.service.budget), (clock, 4));
        state.tick().unwrap();
    }
    assert_eq!(budget_within(state), 5);
}

/// Under the other kinds nothing is asked of the returns, and nothing changes them.
#[test]
fn the_other_kinds_leave_the_returns() {
    for kind in 0..4 {
        let (place, period, budget) = if kind == 0 { (1, 0, 0) } else { (0, 5, 2) };
        let other = Table { server: Server { kind, place, period, budget }, ..table(kind, 5, 2) };
        for held in [0, 1, 32, 33, u32::MAX] {
            let mut state = State::set_up(other).unwrap();
            let odd = Returns { stretches: [Stretch { start: OTHER, length: 0 }; 32], held };
            state.returns = odd;
            assert!(state.is_fit());
            for _ in 0..12 {
                state.request(1, 1).unwrap();
                state.tick().unwrap();
            }
            assert_eq!(state.returns, odd);
        }
    }
}

/// A run from a fresh state: every state on the way is fit, and what is held is what was served in the last P ticks.
#[test]
fn what_is_held_is_what_was_served() {
    let mut state = State::set_up(table(4, 7, 4)).unwrap();
    let mut ticks = Vec::new();
    for t in 0..200u32 {
        if t % 11 == 0 || t % 4 == 1 {
            state.request(t, 1 + t % 3).unwrap();
        }
        if served(&mut state) {
            ticks.push(t);
        }
        assert!(state.is_fit());
        let held: Vec<u32> = held(&state).into_iter().flat_map(|(start, length)| start..start + length).collect();
        let last: Vec<u32> = ticks.iter().copied().filter(|u| u + 7 > t).collect();
        assert_eq!(held, last);
    }
    assert!(ticks.len() > 60);
}
