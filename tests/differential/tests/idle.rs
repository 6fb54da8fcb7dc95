//! What document 02, 5/13, says of idle ticks that go to requests, held to be so of the second implementation in other words than its own.

use differential::idle::given;
use differential::plan::plan;
use differential::random::Random;
use differential::state;
use second::plan::{read, Plan};
use second::table::{DEFERRABLE, POLLING};
use second::{admit, State};

const CASES: u64 = 40_000;

/// "Such a tick takes no budget, doesn't count as service and sets no sporadic or kind 4 mark": it leaves all but the queue as it would be
/// with nobody waiting.
#[test]
fn all_but_the_queue_as_in_an_idle_tick() {
    let mut seen = [0; 5];
    for case in 0..CASES {
        let random = &mut Random::new(1, case);
        let before = if random.once_in(4) { state::returning(random, 32) } else { state::fit(random) };
        if !given(&before) {
            continue;
        }
        let (mut after, mut idle) = (before, State { waiting: 0, backlog: 0, ..before });
        assert_eq!(idle.tick().unwrap().entry.kind, 0);
        let entry = after.tick().unwrap().entry;
        assert_eq!((entry.kind, entry.id), (2, before.queue[0].id));
        (idle.queue, idle.waiting, idle.backlog) = (after.queue, after.waiting, after.backlog);
        assert_eq!(after, idle, "{before:?}");
        seen[before.table.server.kind as usize] += 1;
    }
    assert!(seen.iter().all(|&times| times > 100), "{seen:?}");
}

/// A tick of a plan, as far as requests go.
struct Tick {
    waiting_before: bool,
    waiting_after: bool,
    by_request: bool,
    /// "b above 0 at step 4".
    by_budget: bool,
}

fn ticks(plan: &Plan) -> Vec<Tick> {
    let mut state = State::set_up(plan.table).unwrap();
    let tick = |t: u32| {
        for arrival in plan.arrivals.iter().filter(|arrival| arrival.tick == t) {
            // A full queue refuses, and the plan goes on.
            let _ = state.request(arrival.id, arrival.work);
        }
        let waiting_before = state.waiting > 0;
        let opened = state.begin_tick();
        let budget = state.service.budget;
        let by_request = state.end_tick(opened).entry.kind == 2;
        Tick { waiting_before, waiting_after: state.waiting > 0, by_request, by_budget: by_request && budget > 0 }
    };
    (0..plan.ticks).map(tick).collect()
}

/// An admitted plan under polling or deferrable service, not a long one.
fn admitted(case: u64) -> Option<Plan> {
    let plan = read(&plan(&mut Random::new(2, case))).ok()?;
    let kind = plan.table.server.kind;
    ([POLLING, DEFERRABLE].contains(&kind) && plan.ticks < 1_000 && admit(&plan.table).unwrap().admitted).then_some(plan)
}

/// "In an admitted table under polling or deferrable service, a whole server period with the queue as demand 3 says still gives exactly the
/// budget's ticks by budget .. and with its idle ticks now at least as many."
#[test]
fn exactly_the_budget_by_budget() {
    let (mut periods, mut more) = (0, 0);
    for plan in (0..CASES).filter_map(admitted) {
        let server = plan.table.server;
        for period in ticks(&plan).chunks_exact(server.period as usize) {
            if !period[0].waiting_before || !period.iter().all(|tick| tick.waiting_after) {
                continue;
            }
            let count = |test: fn(&Tick) -> bool| period.iter().filter(|tick| test(tick)).count();
            let (by_budget, requests) = (count(|tick| tick.by_budget), count(|tick| tick.by_request));
            assert_eq!(by_budget, server.budget as usize, "{plan:?}");
            periods += 1;
            more += (requests > by_budget) as u32;
        }
    }
    assert!(periods > 500 && more > 100 && more < periods, "{periods} periods, {more} with idle ticks");
}
