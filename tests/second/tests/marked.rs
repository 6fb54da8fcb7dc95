//! Document 01's listing, closed by document 02's E line (1/13), its marked cases, with the figures that document 02 gives them (5/13), and
//! cases for the rules that the marked ones let pass.

use second::print::schedule;

fn output(plan: &str) -> String {
    String::from_utf8(schedule(plan.as_bytes())).unwrap()
}

fn has(plan: &str, line: &str) {
    let out = output(plan);
    assert!(out.lines().any(|l| l == line), "no line {line} for\n{plan}\n{out}");
}

/// The responses of a plan's requests, as they finish.
fn responses(plan: &str) -> Vec<u32> {
    let out = output(plan);
    let finishes = out.lines().filter(|line| line.starts_with("F,"));
    finishes.map(|line| line.rsplit(',').next().unwrap().parse().unwrap()).collect()
}

#[test]
fn listing() {
    let listing = "B,0,6\nB,S,2\nV,1\nX,0,I,0,0\nX,1,I,0,0\nX,2,I,0,0\nX,3,A,7,0\nX,4,A,7,0\nX,5,A,7,0\nX,6,A,7,0\n\
                   F,6,7,4\nX,7,T,0,0\nE,8,3,1,4,0\n";
    assert_eq!(output("T,3,6,2,6\nS,2,0,5,2\nA,3,7,4\nR,8\n"), listing);
}

#[test]
fn four_services() {
    let plan = |server: &str| format!("T,3,6,2,6\n{server}\nA,3,7,4\nR,30\n");
    assert_eq!(responses(&plan("S,0,1,0,0")), [6]);
    // 5/13: 9 in document 01. By the budget at 5 and 6, and the idle ticks 7 and 8.
    assert_eq!(responses(&plan("S,1,0,5,2")), [6]);
    assert_eq!(responses(&plan("S,2,0,5,2")), [4]);
    // 5/13: 7 in document 01. By the budget at 3 and 4, the idle tick 7, and by the budget at 8.
    assert_eq!(responses(&plan("S,3,0,5,2")), [6]);
}

#[test]
fn row_bounds() {
    for (kind, bound) in [(1, 4), (2, 6), (3, 4)] {
        has(&format!("T,3,6,2,6\nS,{kind},0,5,2\nR,0\n"), &format!("B,0,{bound}"));
    }
}

#[test]
fn deferrable_with_a_short_deadline() {
    let plan = "T,3,6,2,5\nS,2,0,5,2\nA,3,7,4\nR,20\n";
    has(plan, "B,0,0");
    has(plan, "V,0");
    // Server at 3, 4, 5, 6; the row has had one tick, at 7, when its deadline comes.
    has(plan, "X,8,I,0,1");
}

#[test]
fn polling_loses_its_budget_with_its_queue() {
    // 5/13: 1 for the second, 5 in document 01. The budget is lost at 5, and tick 6 would be idle.
    assert_eq!(responses("T,3,6,2,6\nS,1,0,5,2\nA,5,1,1\nA,6,2,1\nR,30\n"), [1, 1]);
    // With a row below that wants 6 and 7, the second has 8.
    assert_eq!(responses("T,3,6,4,6\nS,1,0,5,2\nA,5,1,1\nA,6,2,1\nR,30\n"), [1, 3]);
}

#[test]
fn row_above_a_sporadic_server() {
    let plan = |period: u32| format!("T,0,10,6,10\nS,3,1,{period},2\nA,0,7,4\nR,30\n");
    // 5/13 has 10 for both. By the budget at 6 and 7, and, as it is late, at 8 and 9: 10 in document 01 too.
    assert_eq!(responses(&plan(5)), [10]);
    // 18 in document 01. By the budget at 6 and 7, and the idle ticks 8 and 9.
    assert_eq!(responses(&plan(6)), [10]);
}

// The cases below are not in document 01. Each is a rule that the marked cases alone would let be changed.

#[test]
fn polling_waits_for_the_rows_above() {
    // The budget outlasts tick 0; without it the row below would have tick 1.
    assert_eq!(responses("T,0,10,1,10\nT,0,10,5,10\nS,1,1,5,2\nA,1,7,1\nR,10\n"), [1]);
}

#[test]
fn sporadic_budget_falls_while_the_server_idles_after_service() {
    // Served at 0 (nr = 10); the second tick of budget is lost at 1; the request of tick 2 waits for tick 10.
    assert_eq!(responses("T,0,60,20,60\nS,3,0,10,2\nA,0,1,1\nA,2,2,1\nR,20\n"), [1, 9]);
}

#[test]
fn sporadic_budget_is_held_while_a_row_above_is_open() {
    // Served at 0; a row above is open at 1 and 2; the second tick of budget is still there at 3.
    assert_eq!(responses("T,1,60,2,60\nT,0,60,20,60\nS,3,1,10,2\nA,0,1,1\nA,2,2,1\nR,20\n"), [1, 2]);
}

#[test]
fn sporadic_next_replenishment_counts_from_begin() {
    // First service at 6; rows above have been open since 4: te = 4, nr = 14, not 16.
    let plan = "T,4,60,2,60\nT,0,60,40,60\nS,3,1,10,2\nA,5,1,4\nR,30\n";
    assert_eq!(responses(plan), [11]);
}

#[test]
fn sporadic_replenishes_when_rows_wake() {
    // Spent at 0 and 1 with nothing open, tick 2 is idle; a row opens at 3: the budget is back, and the request goes before the row.
    assert_eq!(responses("T,3,60,1,60\nS,3,0,10,2\nA,0,1,5\nR,20\n"), [5]);
}

#[test]
fn first_service_at_te_plus_p_moves_tr_but_refills_nothing() {
    // First service at 6 = 0 + P: tr = te = 6, nr = 12, budget 2 spent at 6 and 7. The row's next job is at 20.
    assert_eq!(responses("T,0,20,6,20\nT,0,60,50,60\nS,3,1,6,2\nA,0,7,4\nR,30\n"), [14]);
}

#[test]
fn drop_and_release_in_one_tick() {
    has("T,0,2,1,2\nT,0,2,2,2\nS,0,2,0,0\nR,3\n", "X,2,T,0,1");
    // Two rows lose their jobs in one tick.
    has("T,0,4,4,4\nT,0,4,1,4\nT,0,4,2,4\nS,0,3,0,0\nR,5\n", "X,4,T,0,2");
}

#[test]
fn queue_full() {
    let arrivals: String = (0..26).map(|id| format!("A,1,{id},1\n")).collect();
    let out = output(&format!("T,0,2,1,2\nS,0,1,0,0\n{arrivals}A,2,70,1\nA,2,71,1\nR,4\n"));
    let expected =
        "B,0,1\nB,S,0\nV,1\nX,0,T,0,0\nN,1,24,5\nN,1,25,5\nX,1,A,0,0\nF,1,0,1\nN,2,71,5\nX,2,T,0,0\nX,3,A,1,0\nF,3,1,3\nE,4,0,2,2,0\n";
    assert_eq!(out, expected);
}

#[test]
fn many_in_one_tick() {
    // 64 is the limit that document 01 gives.
    for (count, refused) in [(23, 0), (24, 0), (25, 1), (64, 40), (100, 76)] {
        let arrivals: String = (0..count).map(|id| format!("A,1,{id},1\n")).collect();
        let out = output(&format!("T,0,2,1,2\nS,0,1,0,0\n{arrivals}R,200\n"));
        let lines = |letter: &str| -> Vec<&str> { out.lines().filter(|line| line.starts_with(letter)).collect() };
        let taken = count - refused;
        assert_eq!(lines("N,"), (taken..count).map(|id| format!("N,1,{id},5")).collect::<Vec<_>>());
        // The row has the even ticks.
        assert_eq!(lines("F,"), (0..taken).map(|id| format!("F,{},{id},{}", 2 * id + 1, 2 * id + 1)).collect::<Vec<_>>());
    }
}

#[test]
fn background_never_has_a_budget() {
    has("T,0,3,1,3\nS,0,1,0,0\nR,0\n", "B,S,0");
    assert_eq!(output("T,0,3,1,3\nS,0,1,0,0\nR,0\n"), "B,0,1\nB,S,0\nV,1\nE,0,0,0,0,0\n");
}
