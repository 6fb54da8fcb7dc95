//! The random returns of kind 4 are what they are made to be: each clause of refusal 11 is read off document 02 for itself (returns.rs),
//! apart from the second implementation's way to ask for all of them.

use differential::random::Random;
use differential::returns::{broken, damage_and_count, fit_as_polling, unfit_by};
use differential::state;
use second::table::RETURNING;

const CASES: u64 = 20_000;

#[test]
fn made_to_fit() {
    for case in 0..CASES {
        let random = &mut Random::new(1, case);
        let count = random.from(0, 32);
        let returning = state::returning(random, count);
        assert_eq!(returning.returns.held, count);
        for state in [returning, state::fit(random), state::edge(random)] {
            assert!(state.is_fit(), "{state:?}");
            assert!(state.table.server.kind != RETURNING || broken(&state, true).is_empty(), "{state:?}");
        }
    }
}

#[test]
fn made_unfit_by_one_clause() {
    for case in 0..CASES {
        let random = &mut Random::new(2, case);
        let state = state::broken(random);
        assert!(fit_as_polling(&state) && !state.is_fit() && unfit_by(&state).is_some(), "{:?}: {state:?}", broken(&state, true));
    }
}

/// Numbers moved at random: whatever comes of it, the two readings agree.
#[test]
fn two_readings_of_fitness() {
    let mut fit = 0;
    for case in 0..CASES {
        let random = &mut Random::new(3, case);
        let (_, count) = damage_and_count(random);
        let mut state = state::returning(random, count);
        let slots = &mut state.returns.stretches;
        for _ in 0..random.from(1, 2) {
            let (i, j) = (random.below(3), random.below(32));
            match random.below(5) {
                0 => slots[i].start = slots[i].start.wrapping_add(random.pick(&[1, u32::MAX])),
                1 => slots[i].length = slots[i].length.wrapping_add(random.pick(&[1, u32::MAX])),
                2 => slots[j].start = slots[j].start.wrapping_add(1),
                3 => state.returns.held = state.returns.held.wrapping_add(random.pick(&[1, u32::MAX])),
                _ => state.service.budget = random.from(0, state.table.server.budget),
            }
        }
        assert!(fit_as_polling(&state));
        assert_eq!(state.is_fit(), broken(&state, true).is_empty(), "{:?}: {state:?}", broken(&state, true));
        fit += state.is_fit() as u32;
    }
    assert!((1_000..19_000).contains(&fit), "{fit} fit");
}
