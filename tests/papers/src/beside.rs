//! Document 004's tables by a library's own calls: each line against the paper, each tick against the second implementation.

use std::path::Path;

use differential::abi::Calls;
use differential::call::{same, same_answer, same_state};
use differential::convert::to_state;
use second::plan::Plan;

use crate::replay::{by_library, by_second, Field, Idle, Spoil, Tick, FIELDS};
use crate::tables::{self, Expected, TABLES};
use crate::text::units;
use crate::Report;

const WHO: &str = "the library";

/// The tables by the calls, with a number spoilt or not; `alone` leaves the second implementation out.
pub fn check(dir: &Path, calls: Calls, spoil: Option<Spoil>, alone: bool) -> Report {
    let mut report = Report::default();
    for table in TABLES {
        let plan = tables::plan(dir, table.name);
        for idle in [Idle::Withheld, Idle::Given] {
            match by_library(&plan, calls, idle, spoil) {
                Ok(ticks) => {
                    check_ticks(dir, table, idle, &ticks, &mut report);
                    if !alone {
                        check_beside(table.name, &by_second(&plan, idle), &ticks, &mut report);
                    }
                }
                Err(refused) => report.fault(format!("{}, {WHO}: {refused}", table.name)),
            }
        }
    }
    report
}

fn check_ticks(dir: &Path, table: &Expected, idle: Idle, ticks: &[Tick], report: &mut Report) {
    match idle {
        Idle::Withheld => tables::check(dir, table, WHO, ticks, report),
        Idle::Given => tables::check_given(table, ticks, report),
    }
}

fn check_beside(name: &str, second: &[Tick], library: &[Tick], report: &mut Report) {
    match first_difference(second, library) {
        Some(difference) => report.fault(format!("{name}: {difference}")),
        None => {
            report.say(format!("  beside the second implementation: {} ticks' states, budgets within and answers agree", library.len()))
        }
    }
}

/// The first tick that differs, and the field: a later one may follow from it.
fn first_difference(second: &[Tick], library: &[Tick]) -> Option<String> {
    let at = |tick: &Tick| format!("tick {} ({} units)", tick.before.clock, units(tick.before.clock));
    second.iter().zip(library).find_map(|(a, b)| same_tick(a, b).err().map(|difference| format!("{}, {difference}", at(a))))
}

fn same_tick(second: &Tick, library: &Tick) -> Result<(), String> {
    same_state(&second.before, &library.before).map_err(|difference| format!("before it, {difference}"))?;
    same("within it, budget", second.budget, library.budget)?;
    same_answer(&second.answer, &library.answer).map_err(|difference| format!("its answer, {difference}"))?;
    same_state(&second.after, &library.after).map_err(|difference| format!("after it, {difference}"))
}

/// The test of this test: each number of `FIELDS`, changed by one after each tick in turn, must be noticed beside the second
/// implementation; a budget also by the paper's table alone, after every tick before the last budget that it prints. A figure of the work
/// waiting makes the state unfit, so the next tick is refused.
pub fn check_spoils(dir: &Path, calls: Calls) -> Report {
    let mut report = Report::default();
    for table in TABLES {
        let plan = tables::plan(dir, table.name);
        let right = by_second(&plan, Idle::Withheld);
        let trial = Trial { dir, table, plan, right, calls };
        let counts: Vec<String> = FIELDS.iter().map(|&(name, field)| trial.spoil_each(name, field, &mut report)).collect();
        report.say(format!(
            "document 004, RM + {} server, one number of the library's state changed by one after each tick in turn; \
             noticed beside the second implementation, and by the table alone: {}",
            table.name,
            counts.join(", ")
        ));
    }
    report
}

/// A table whose replays are spoilt, with the right one.
struct Trial<'a> {
    dir: &'a Path,
    table: &'a Expected,
    plan: Plan,
    right: Vec<Tick>,
    calls: Calls,
}

impl Trial<'_> {
    /// The field spoilt after each tick that leaves it in use; how often that is noticed. The table owes the ticks before `owed`.
    fn spoil_each(&self, name: &str, field: Field, report: &mut Report) -> String {
        let in_use = |tick: &u32| field(&mut to_state(&self.right[*tick as usize].after)).is_some();
        let ticks: Vec<u32> = (0..self.plan.ticks).filter(in_use).collect();
        let owed = if name == "budget" { tables::last_budget(self.dir, self.table.name) } else { 0 };
        let (mut beside, mut alone) = (0, 0);
        for &tick in &ticks {
            let (by_second, by_table) = self.noticed(name, Spoil { field, tick });
            beside += by_second as usize;
            alone += by_table as usize;
            if !by_second || (tick < owed && !by_table) {
                report.fault(format!("{}: {name} changed after tick {tick} is not noticed", self.table.name));
            }
        }
        format!("{name} {beside} and {alone} of {}", ticks.len())
    }

    /// Whether the change is noticed beside the second implementation, and whether by the table alone.
    fn noticed(&self, name: &str, spoil: Spoil) -> (bool, bool) {
        let spoilt = match by_library(&self.plan, self.calls, Idle::Withheld, Some(spoil)) {
            Ok(ticks) => ticks,
            Err(_) if name == "backlog" => return (true, true),
            Err(refused) => panic!("{name} changed, and the state no longer fit: {refused}"),
        };
        let mut report = Report::default();
        tables::check(self.dir, self.table, WHO, &spoilt, &mut report);
        (first_difference(&self.right, &spoilt).is_some(), !report.faults.is_empty())
    }
}
