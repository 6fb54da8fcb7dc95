//! The random states have the figures of the work waiting that they are made to have, by a sum of the tests' own (backlog.rs), and a state
//! that fails is made small without a figure that is wrong besides.

use differential::abi::{Calls, State as Given, TickResult};
use differential::backlog::{figure, off, sum};
use differential::call::{compare, shrink, Call};
use differential::random::Random;
use differential::{standin, state};
use second::State;

const CASES: u64 = 20_000;

#[test]
fn made_to_fit() {
    let mut seen = [0; 3];
    for case in 0..CASES {
        let random = &mut Random::new(1, case);
        let count = random.from(0, 32);
        for state in [state::fit(random), state::edge(random), state::returning(random, count)] {
            assert!(state.is_fit() && state.backlog as u64 == sum(&state), "{state:?}");
            assert_eq!(state.work_waiting(), Ok(state.backlog));
            seen[0] += (state.waiting == 0) as u32;
            seen[1] += (state.waiting == 24) as u32;
            seen[2] += (state.backlog == 1_440_000) as u32;
        }
    }
    assert!(seen.iter().all(|&times| times > 1_000), "{seen:?}");
}

/// Another ground makes these unfit, and not the figure.
#[test]
fn made_unfit_with_a_right_figure() {
    for case in 0..CASES {
        let random = &mut Random::new(2, case);
        for state in [state::unfit(random), state::broken(random)] {
            assert_eq!((state.backlog, off(&state)), (figure(&state), None), "{state:?}");
        }
    }
}

#[test]
fn made_unfit_by_the_figure_alone() {
    for case in 0..CASES {
        let state = state::off(&mut Random::new(3, case));
        assert!(off(&state).is_some() && !state.is_fit(), "{state:?}");
        assert!(State { backlog: figure(&state), ..state }.is_fit(), "{state:?}");
    }
}

/// Whatever stands in the slots, in use or not, and whatever count there is: one figure at most is fit.
#[test]
fn two_readings_of_fitness() {
    let mut fit = 0;
    for case in 0..CASES {
        let random = &mut Random::new(4, case);
        let mut state = state::fit(random);
        let slot = random.below(24);
        match random.below(4) {
            0 => state.waiting = state.waiting.wrapping_add(random.pick(&[1, u32::MAX])),
            1 => state.queue[slot].work = random.from(1, 3),
            2 => state.queue[slot].work = random.word(),
            _ => state.backlog = random.from(0, 30),
        }
        let otherwise = State { backlog: figure(&state), ..state }.is_fit();
        assert_eq!(state.is_fit(), otherwise && state.backlog as u64 == sum(&state), "{state:?}");
        fit += state.is_fit() as u32;
    }
    assert!((1_000..19_000).contains(&fit), "{fit} fit");
}

/// The stand-in, but for a tick with more than two waiting that takes nothing off the figure.
unsafe extern "C" fn takes_nothing(state: Given) -> TickResult {
    let mut tick = standin::tick(state);
    if state.queue.n > 2 && tick.number == 0 {
        tick.state.queue.backlog = state.queue.backlog;
    }
    tick
}

/// The stand-in, but for a figure too high by 2^16 with two or more waiting, which is not noticed.
unsafe extern "C" fn takes_figure_far_off(state: Given) -> TickResult {
    let mut right = state;
    right.queue.backlog = state.queue.backlog.wrapping_sub(0x1_0000);
    let tick = standin::tick(right);
    if state.queue.n >= 2 && tick.number == 0 {
        tick
    } else {
        standin::tick(state)
    }
}

fn made_small(calls: &Calls, random_state: fn(&mut Random) -> State) -> State {
    let random_states = (0..CASES).map(|case| random_state(&mut Random::new(5, case)));
    let fails = |state: &State| compare(calls, state, &Call::Tick).is_err();
    let state = random_states.into_iter().find(fails).expect("one that fails");
    shrink(calls, &state, &Call::Tick)
}

#[test]
fn a_fit_state_made_small_stays_fit() {
    let small = made_small(&Calls { tick: takes_nothing, ..standin::CALLS }, state::fit);
    assert!(small.is_fit(), "{small:?}");
    assert_eq!((small.waiting, small.backlog), (3, 3));
}

#[test]
fn a_figure_far_off_stays_as_far_off() {
    let small = made_small(&Calls { tick: takes_figure_far_off, ..standin::CALLS }, state::off);
    assert_eq!((small.waiting, small.backlog, off(&small)), (2, 0x1_0002, Some(0x1_0000)));
}
