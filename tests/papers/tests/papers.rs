//! The papers' tables and examples under `cargo test`, the replay by calls with the second implementation behind them, and document 000's
//! Sporadic/Background Server.

use std::path::Path;

use differential::convert::to_state;
use differential::plan::plan;
use differential::random::Random;
use differential::standin::CALLS;
use differential::state::fit;
use papers::replay::{by_second, replay, Idle, Library, Scheduler, Tick};
use papers::{beside, Report};
use second::plan::{read, Plan};
use second::state::{CLOCK_LAST, QUEUE};
use second::table::{ROWS, SPORADIC};
use second::{State, Ticked};

fn no_faults(report: Report) {
    assert!(report.faults.is_empty(), "{:#?}", report.faults);
}

#[test]
fn tables_and_examples() {
    no_faults(papers::check(Path::new(".")));
}

#[test]
fn tables_by_calls() {
    no_faults(beside::check(Path::new("."), CALLS, None, false));
}

#[test]
fn spoilt_numbers_are_noticed() {
    no_faults(beside::check_spoils(Path::new("."), CALLS));
}

/// What the example says of document 002's ticks under kinds 3 and 4.
#[test]
fn kinds_3_and_4_have_the_ticks_of_002() {
    let output = |name: &str| papers::read(Path::new("."), &format!("{name}.out"));
    assert_eq!(output("002-returning"), output("002-sporadic"));
}

/// What calls show of the budget between steps 3 and 4 is what the second implementation has there, in any fit state.
#[test]
fn budget_within_a_tick() {
    let states = (0..20_000).map(|case| fit(&mut Random::new(1, case)));
    for mut state in states.filter(|s| (s.table.n as usize) < ROWS && s.clock < CLOCK_LAST) {
        let within = Library::at(CALLS, to_state(&state)).budget_within();
        state.begin_tick();
        assert_eq!(within, Ok(state.service.budget), "{state:?}");
    }
}

/// "As long as T is idle, the execution budget stays at es", "is replenished at the beginning of each idle interval of T; tr is set at the
/// end of the idle interval"; all else as the simple server's, which replenishes and sets tr where T wakes.
struct SporadicBackground(State);

impl Scheduler for SporadicBackground {
    fn state(&self) -> State {
        self.0
    }

    fn request(&mut self, id: u32, work: u32) -> Result<(), u32> {
        self.0.request(id, work)
    }

    fn tick(&mut self) -> Result<(u32, Ticked), u32> {
        let opened = self.0.begin_tick();
        let idle = opened.above.is_none() && opened.below.is_none();
        self.fill_if(idle);
        let budget = self.0.service.budget;
        let ticked = self.0.end_tick(opened);
        self.fill_if(idle);
        Ok((budget, ticked))
    }

    fn take_back(&mut self, tick: &Tick) {
        self.0.take_back(tick);
    }
}

impl SporadicBackground {
    fn fill_if(&mut self, idle: bool) {
        if idle {
            self.0.service.budget = self.0.table.server.budget;
        }
    }
}

/// A random plan under kind 3, not a long one, with no more requests than the queue holds: none is refused.
fn sporadic_plan(case: u64) -> Option<Plan> {
    let plan = read(&plan(&mut Random::new(1, case))).ok()?;
    (plan.table.server.kind == SPORADIC && plan.ticks < 1_000 && plan.arrivals.len() <= QUEUE).then_some(plan)
}

/// Kind 3 with idle ticks given (document 02, 5/13) has the ticks of 000's server, and its budget and times wherever a row is open.
#[test]
fn idle_ticks_make_kind_3_the_sporadic_background_server() {
    let (mut plans, mut given) = (0, 0);
    for plan in (0..20_000).filter_map(sporadic_plan) {
        let simple = by_second(&plan, Idle::Given);
        let mut fresh = SporadicBackground(State::set_up(plan.table).unwrap());
        let background = replay(&plan, &mut fresh, Idle::Given).unwrap();
        for (a, b) in simple.iter().zip(&background) {
            assert_eq!(a.answer, b.answer, "tick {} of {plan:?}", a.before.clock);
            if a.after.service.busy {
                assert_eq!((a.budget, a.after.service), (b.budget, b.after.service), "tick {} of {plan:?}", a.before.clock);
            }
            given += a.given().is_some() as u32;
        }
        plans += 1;
    }
    assert!(plans > 1_000 && given > 1_000, "{plans} plans, {given} ticks given");
}
