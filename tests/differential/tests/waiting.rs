//! Document 02, 6/13: "The bounds hold with the shorter queue, refused requests included", read off what the second implementation prints.

use differential::plan::plan;
use differential::random::Random;
use second::admit;
use second::plan::{read, Plan};
use second::print::schedule;

const CASES: u64 = 40_000;

/// A random plan that is admitted, neither long nor with fewer requests than make the queue full, and what is printed of it.
fn crowded(case: u64) -> Option<(Plan, String)> {
    let text = plan(&mut Random::new(1, case));
    let plan = read(&text).ok()?;
    let crowded = plan.ticks < 1_000 && plan.arrivals.len() > 24 && admit(&plan.table).unwrap().admitted;
    crowded.then(|| (plan, String::from_utf8(schedule(&text)).unwrap()))
}

/// The rows that have the ticks; none of an idle tick and of a request's.
fn rows(printed: &str) -> Vec<Option<usize>> {
    let row = |tick: &str| tick.split_once(",T,").map(|(_, row)| row.split(',').next().unwrap().parse().unwrap());
    printed.lines().filter(|line| line.starts_with("X,")).map(row).collect()
}

#[test]
fn bounds_hold_with_refused_requests() {
    let mut jobs = [0; 5];
    for (plan, printed) in (0..CASES).filter_map(crowded).filter(|(_, printed)| printed.contains("\nN,")) {
        assert!(printed.ends_with(",0\n"), "a drop in {plan:?}");
        let (rows, bounds) = (rows(&printed), admit(&plan.table).unwrap().bounds);
        for (i, row) in plan.table.used().iter().enumerate() {
            let (bound, period) = (bounds[i] as usize, row.period as usize);
            for release in (row.phase as usize..).step_by(period).take_while(|release| release + bound <= rows.len()) {
                let had = rows[release..release + bound].iter().filter(|&&has| has == Some(i)).count();
                assert_eq!(had, row.exec as usize, "row {i} from {release} in {plan:?}");
                jobs[plan.table.server.kind as usize] += 1;
            }
        }
    }
    assert!(jobs.iter().all(|&jobs| jobs > 500), "{jobs:?}");
}
