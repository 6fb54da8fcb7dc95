//! The E line of document 02, 1/13: the totals of the X lines close the output of every plan that is not refused.

use second::print::schedule;

fn output(plan: &str) -> String {
    String::from_utf8(schedule(plan.as_bytes())).unwrap()
}

/// What the X lines of an output add up to, as an E line.
fn added_up(out: &str) -> String {
    let ticks: Vec<Vec<&str>> = out.lines().filter(|line| line.starts_with("X,")).map(|line| line.split(',').collect()).collect();
    let count = |letter: &str| ticks.iter().filter(|fields| fields[2] == letter).count();
    let drops: u64 = ticks.iter().map(|fields| fields[4].parse::<u64>().unwrap()).sum();
    format!("E,{},{},{},{},{drops}", ticks.len(), count("I"), count("T"), count("A"))
}

/// The plan's only E line is this, its last line, and what its X lines add up to.
fn ends(plan: &str, expected: &str) {
    let out = output(plan);
    let totals: Vec<&str> = out.lines().filter(|line| line.starts_with("E,")).collect();
    assert_eq!(totals, [expected], "for {plan:?}");
    assert!(out.ends_with(&format!("\n{expected}\n")), "not the last line for {plan:?}");
    assert_eq!(added_up(&out), expected, "for {plan:?}");
}

fn lines(out: &str, start: &str) -> usize {
    out.lines().filter(|line| line.starts_with(start)).count()
}

#[test]
fn the_listing() {
    ends("T,3,6,2,6\nS,2,0,5,2\nA,3,7,4\nR,8\n", "E,8,3,1,4,0");
}

#[test]
fn no_tick() {
    assert_eq!(output("T,0,3,1,3\nS,1,0,5,2\nR,0\n"), "B,0,3\nB,S,2\nV,1\nE,0,0,0,0,0\n");
    ends("T,0,3,3,3\nS,1,0,5,2\nA,0,1,1\nR,0\n", "E,0,0,0,0,0");
}

#[test]
fn one_tick() {
    ends("T,1,3,1,3\nS,1,0,5,2\nR,1\n", "E,1,1,0,0,0");
    ends("T,0,3,1,3\nS,1,0,5,2\nR,1\n", "E,1,0,1,0,0");
    ends("T,0,3,1,3\nS,1,0,5,2\nA,0,7,1\nR,1\n", "E,1,0,0,1,0");
}

#[test]
fn several_drops_in_one_tick() {
    // Rows 1 and 2 never run: both lose their jobs at 4 and at 8.
    ends("T,0,4,4,4\nT,0,4,1,4\nT,0,4,2,4\nS,0,3,0,0\nR,9\n", "E,9,0,9,0,4");
}

#[test]
fn a_drop_in_an_idle_tick() {
    let plan = "T,3,6,2,5\nS,2,0,5,2\nA,3,7,4\nR,9\n";
    assert_eq!(lines(&output(plan), "X,8,I,0,1"), 1);
    ends(plan, "E,9,4,1,4,1");
}

#[test]
fn requests_refused_and_finished() {
    // 25 requests at 1, of which one is refused; the row has every other tick, and one request of two ticks is finished.
    let arrivals: String = (0..25).map(|id| format!("A,1,{id},2\n")).collect();
    let plan = format!("T,0,2,1,2\nS,0,1,0,0\n{arrivals}R,6\n");
    let out = output(&plan);
    assert_eq!([lines(&out, "N,"), lines(&out, "F,")], [1, 1]);
    ends(&plan, "E,6,0,3,3,0");
}

#[test]
fn refused_plans() {
    let long = "x".repeat(65_537);
    let plans = [
        ("T,0,4,1,4\n", "Z,9,2\n"),
        ("T,0,4,1,4\nS,1,0,5,2\nR,8", "Z,8,3\n"),
        ("T,0,4,1,4\nS,1,0,5,2\nR,8\nR,8\n", "Z,9,4\n"),
        ("T,0,4,1,4\nS,1,0,5,2\nA,0,1,0\nR,8\n", "Z,4,3\n"),
        ("S,1,0,5,2\nR,0\n", "Z,1,0\n"),
        ("T,0,4,5,4\nS,1,0,5,2\nR,8\n", "Z,2,0\n"),
        ("T,0,4,1,4\nS,1,0,5,6\nR,8\n", "Z,3,0\n"),
        (&long, "Z,7,0\n"),
    ];
    for (plan, expected) in plans {
        assert_eq!(output(plan), expected);
    }
}

#[test]
fn many_ticks() {
    // Of every ten ticks the row has three and the request one by the budget; it has the idle ones too (5/13).
    ends("T,0,10,3,10\nS,2,0,10,1\nA,0,7,60000\nR,5000\n", "E,5000,0,1500,3500,0");
    // Without it all but the row's are idle.
    ends("T,0,10,3,10\nS,2,0,10,1\nR,5000\n", "E,5000,3500,1500,0,0");
    // Two jobs are lost in every second tick, the first in tick 2.
    ends("T,0,2,2,2\nT,0,2,1,2\nT,0,2,1,2\nS,0,3,0,0\nR,5000\n", "E,5000,0,5000,0,4998");
}

/// The longest run and the largest sum of drops: all rows but the first lose a job in every tick but the first.
#[test]
fn the_largest_totals() {
    let plan = format!("{}S,0,16,0,0\nR,1000000\n", "T,0,1,1,1\n".repeat(16));
    ends(&plan, "E,1000000,0,1000000,0,14999985");
}
