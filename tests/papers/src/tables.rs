//! Document 004's fixed-priority tables, replayed line by line. A tick is a quarter of the paper's unit. The paper leaves ticks idle while
//! a request waits: in the replay that is held against a table such a tick is withheld from the request, and `GIVEN` lists them all.

use std::path::Path;

use second::plan::{read, Plan};
use second::table::POLLING;

use crate::departures::{Departure, DEPARTURES, GIVEN};
use crate::replay::Tick;
use crate::text::{self, plain, ticks, units};
use crate::Report;

pub struct Expected {
    pub name: &'static str,
    /// The responses that the paper computes, in units, for A1, A2, A3.
    pub responses: [&'static str; 3],
}

pub const TABLES: &[Expected] = &[
    Expected { name: "polling", responses: ["4.75", "8.50", "9.00"] },
    Expected { name: "deferrable", responses: ["4.75", "4.50", "4.00"] },
    Expected { name: "sporadic", responses: ["4.75", "4.50", "3.75"] },
];

/// The responses of A1, A2, A3 under each server with idle ticks given, worked out by hand: A1 meets none, and no row is open from 13.50 to
/// 14.25 nor from 17.00 to 17.75.
const GIVEN_RESPONSES: [&str; 3] = ["4.75", "2.00", "0.75"];

/// One tick as a line of the paper would show it: the middle of the tick, between steps 3 and 4, and who then executes.
struct Shown {
    queue: String,
    budget: u32,
    budget_after: u32,
    run_queue: String,
    execute: String,
    tr: u32,
    te: Option<u32>,
    begin: u32,
    end: Option<u32>,
}

/// The ticks as lines. END is the first tick without an open row above after one with: the mark of the state before it holds, and the
/// mark of the state after it does not.
fn lines(replayed: &[Tick]) -> Vec<Shown> {
    let mut end = None;
    let line = |tick: &Tick| {
        if tick.after.service.above {
            end = None;
        } else if tick.before.service.above {
            end = Some(tick.before.clock);
        }
        show(tick, end)
    };
    replayed.iter().map(line).collect()
}

/// What a column shows, and where it is read. The queue: in the state before the tick, since steps 1 to 3 leave it. tr, te and begin: in
/// the state after it, since only step 3 and the first service, both at this time, set them; te is nr less the period, once it is fixed.
fn show(tick: &Tick, end: Option<u32>) -> Shown {
    let (before, after) = (&tick.before, &tick.after.service);
    let waiting = before.waiting().iter().map(|request| format!("A{}[{}]", request.id, units(request.work)));
    Shown {
        queue: list(waiting.collect()),
        budget: tick.budget,
        budget_after: after.budget,
        run_queue: list(run_queue(tick)),
        execute: executed(tick),
        tr: after.tr,
        te: if after.served { after.nr.checked_sub(before.table.server.period) } else { None },
        begin: after.begin,
        end,
    }
}

fn list(items: Vec<String>) -> String {
    if items.is_empty() {
        "Ø".to_string()
    } else {
        items.join("; ")
    }
}

/// The open jobs and, in its place, the server: a poller if it has budget, the others if they have work for it too.
fn run_queue(tick: &Tick) -> Vec<String> {
    let table = &tick.before.table;
    let eligible = tick.budget > 0 && (table.server.kind == POLLING || tick.before.waiting > 0);
    let mut items = Vec::new();
    for i in 0..=table.n as usize {
        if i == table.server.place as usize && eligible {
            items.push("JS".to_string());
        }
        if i < table.n as usize && left(tick, i) > 0 {
            items.push(format!("{}[{}]", job(tick, i), units(left(tick, i))));
        }
    }
    items
}

/// Row i's execution left after steps 1 and 2: what the tick leaves, and the one that step 5 took from the row that executed.
fn left(tick: &Tick, i: usize) -> u32 {
    let entry = tick.answer.entry;
    tick.after.left[i] + (entry.kind == 1 && entry.id as usize == i) as u32
}

/// Row i's job, numbered from 1 as in the paper.
fn job(tick: &Tick, i: usize) -> String {
    let row = tick.before.table.rows[i];
    format!("J{},{}", i + 1, (tick.before.clock - row.phase) / row.period + 1)
}

/// The server, or a request alone in a tick that would be idle.
fn executed(tick: &Tick) -> String {
    match (tick.answer.entry.kind, tick.answer.entry.id) {
        (0, _) => "-".to_string(),
        (1, i) if i < tick.before.table.n => job(tick, i as usize),
        (2, _) => tick.given().map_or("JS".to_string(), |id| format!("A{id}")),
        (kind, id) => format!("kind {kind}, id {id}"),
    }
}

/// What the rules give for a column. A second line at one time shows the budget after the instant before it.
fn ruled(column: &str, shown: &Shown, second_line: bool) -> String {
    match column {
        "tr" => units(shown.tr),
        "te" => shown.te.map_or("?".to_string(), units),
        "BEGIN" => units(shown.begin),
        "END" => shown.end.map_or("∞".to_string(), units),
        "Aperiodic Q" => shown.queue.clone(),
        "Budget" => units(if second_line { shown.budget_after } else { shown.budget }),
        "Run Q" if second_line => shown.run_queue.replace("JS; ", ""),
        "Run Q" => shown.run_queue.clone(),
        "Execute" => shown.execute.clone(),
        _ => panic!("a column named {column}"),
    }
}

pub fn plan(dir: &Path, name: &str) -> Plan {
    read(crate::read(dir, &format!("004-{name}.plan")).as_bytes()).expect("a good plan")
}

fn table(dir: &Path, name: &str) -> text::Table {
    text::table(&crate::read(dir, &format!("004-{name}.table")))
}

/// The tick of the last budget that the table prints.
pub fn last_budget(dir: &Path, name: &str) -> u32 {
    let table = table(dir, name);
    let line = (0..table.lines.len()).rfind(|&line| !table.cell(line, "Budget").is_empty()).expect("a budget");
    ticks(&table.lines[line][0]).expect("a time")
}

/// The paper's table against a replay by `who` with idle ticks withheld.
pub fn check(dir: &Path, expected: &Expected, who: &str, replayed: &[Tick], report: &mut Report) {
    let name = expected.name;
    let table = table(dir, name);
    let mut check = Check { name, who, table: &table, shown: &lines(replayed), count: Count::default(), report };
    for line in 0..table.lines.len() {
        check.line(line);
        check.span(line);
    }
    check.say();
    check.say_departures();
    check.say_given();
    let printed = replayed.iter().filter(|tick| tick.given().is_none());
    check_responses(name, "idle ticks withheld", printed, expected.responses, report);
}

/// What the rules make of the same plan: a replay by `who` with idle ticks given.
pub fn check_given(expected: &Expected, replayed: &[Tick], report: &mut Report) {
    check_responses(expected.name, "idle ticks given", replayed.iter(), GIVEN_RESPONSES, report);
}

#[derive(Default)]
struct Count {
    cells: usize,
    blank: usize,
    occupants: usize,
    /// Ticks that would be idle.
    given: usize,
    /// Budgets between steps 3 and 4, of ticks that have no line.
    within: usize,
    /// Budgets after step 5.
    after: usize,
    departed: Vec<(usize, String)>,
}

/// One table under check.
struct Check<'a> {
    name: &'a str,
    who: &'a str,
    table: &'a text::Table,
    shown: &'a [Shown],
    count: Count,
    report: &'a mut Report,
}

impl Check<'_> {
    fn time(&self, line: usize) -> u32 {
        ticks(&self.table.lines[line][0]).expect("a time")
    }

    fn line(&mut self, line: usize) {
        let table = self.table;
        let cells = &table.lines[line];
        let (time, at) = (&cells[0], &self.shown[self.time(line) as usize]);
        let second_line = line > 0 && table.lines[line - 1][0] == *time;
        for (column, cell) in table.columns.iter().zip(cells).skip(1) {
            let rule = plain(&ruled(column, at, second_line));
            if cell.is_empty() {
                self.count.blank += 1;
            } else if plain(cell) == rule {
                self.count.cells += 1;
            } else if departs(self.name, line, column, time, &plain(cell), &rule) {
                self.count.departed.push((line, column.clone()));
            } else if column != "Execute" || !self.is_given(self.time(line), cell) {
                self.report.fault(format!("{} at {time}: {column} is printed {cell}, {} gives {rule}", self.name, self.who));
            }
        }
    }

    /// Until the next line's time whoever executes on this line keeps the processor.
    fn span(&mut self, line: usize) {
        let from = self.time(line);
        let to = if line + 1 < self.table.lines.len() { self.time(line + 1) } else { from + 1 };
        let execute = self.table.cell(line, "Execute");
        for t in from..to {
            self.occupant(t, execute);
        }
        if let Some(budget) = ticks(self.table.cell(line, "Budget")) {
            self.budgets(from, to, |t| if execute == "JS" { budget.saturating_sub(t - from) } else { budget });
        }
    }

    /// Between two lines the budget stays, or falls while the server executes: `at` gives it. At the second line's time it may have fallen
    /// to what is printed there; if more is printed there, that came by replenishment, after the tick before.
    fn budgets(&mut self, from: u32, to: u32, at: impl Fn(u32) -> u32) {
        for t in from..to {
            let (within, after) = (self.shown[t as usize].budget, self.shown[t as usize].budget_after);
            if t > from && self.budget(t, "Budget", at(t), within) {
                self.count.within += 1;
            }
            let left = if t + 1 < to { Some(at(t + 1)) } else { self.printed_budget(to).map(|printed| printed.min(at(to))) };
            if left.is_some_and(|left| self.budget(t, "Budget after the tick", left, after)) {
                self.count.after += 1;
            }
        }
    }

    /// The budget that is printed for a time, the last one if there are two.
    fn printed_budget(&self, t: u32) -> Option<u32> {
        let line = (0..self.table.lines.len()).rfind(|&line| self.time(line) == t)?;
        ticks(self.table.cell(line, "Budget"))
    }

    /// Whether nobody executes by the print, and by the rules the request that is listed.
    fn is_given(&self, t: u32, printed: &str) -> bool {
        let listed = GIVEN.iter().find(|given| given.table == self.name && (ticks(given.from)..ticks(given.to)).contains(&Some(t)));
        printed == "-" && listed.is_some_and(|given| self.shown[t as usize].execute == format!("A{}", given.request))
    }

    fn occupant(&mut self, t: u32, execute: &str) {
        let executes = &self.shown[t as usize].execute;
        if executes == execute {
            self.count.occupants += 1;
        } else if self.is_given(t, execute) {
            self.count.given += 1;
        } else {
            self.report.fault(format!("{} at {}: {execute} should execute, by {} {executes} does", self.name, units(t), self.who));
        }
    }

    fn budget(&mut self, t: u32, what: &str, printed: u32, budget: u32) -> bool {
        if budget != printed {
            let (t, printed, budget) = (units(t), units(printed), units(budget));
            self.report.fault(format!("{} at {t}: {what} should be {printed}, {} gives {budget}", self.name, self.who));
        }
        budget == printed
    }

    fn say(&mut self) {
        let count = &self.count;
        self.report.say(format!(
            "document 004, RM + {} server, by {}: {} lines, {} cells agree, {} left blank by the paper, \
             {} ticks' occupants agree, {} are idle in print and a request's by the rules, \
             and {} budgets between lines and {} after a tick agree",
            self.name,
            self.who,
            self.table.lines.len(),
            count.cells,
            count.blank,
            count.occupants,
            count.given,
            count.within,
            count.after
        ));
    }

    /// Names each departure, like ones together; one that no longer occurs is a fault.
    fn say_departures(&mut self) {
        let mut said: Vec<(String, Vec<&str>)> = Vec::new();
        for d in DEPARTURES.iter().filter(|d| d.table == self.name) {
            if !self.count.departed.contains(&(d.line, d.column.to_string())) {
                self.report.fault(format!("{} at {}: {} no longer departs", self.name, d.time, d.column));
            }
            let what = format!("{} printed {}, by the rules {}: {}", d.column, d.printed, d.ruled, d.why);
            match said.iter_mut().find(|(same, _)| *same == what) {
                Some((_, times)) => times.push(d.time),
                None => said.push((what, vec![d.time])),
            }
        }
        for (what, times) in said {
            self.report.say(format!("  departs at {}: {what}", times.join(", ")));
        }
    }

    /// Names the ticks that the paper leaves idle and the rules give to a request; one that is not among the table's is a fault.
    fn say_given(&mut self) {
        let mut listed = 0;
        for given in GIVEN.iter().filter(|given| given.table == self.name) {
            listed += (ticks(given.to).expect("a time") - ticks(given.from).expect("a time")) as usize;
            self.report.say(format!(
                "  departs from {} to {}: A{} waits and nobody executes; by document 02, 5/13, it does",
                given.from, given.to, given.request
            ));
        }
        if self.count.given != listed {
            self.report.fault(format!("{}: {} ticks given to a request, {listed} are listed", self.name, self.count.given));
        }
    }
}

fn departs(name: &str, line: usize, column: &str, time: &str, printed: &str, rule: &str) -> bool {
    let same = |d: &Departure| (d.table, d.line, d.column) == (name, line, column) && (d.time, d.printed, d.ruled) == (time, printed, rule);
    DEPARTURES.iter().any(same)
}

fn check_responses<'a>(name: &str, with: &str, ticked: impl Iterator<Item = &'a Tick>, wanted: [&str; 3], report: &mut Report) {
    let finished = ticked.filter_map(|tick| tick.answer.finish);
    let ruled: Vec<(u32, u32)> = finished.map(|finish| (finish.id, finish.response)).collect();
    let in_ticks: Vec<(u32, u32)> = (1..).zip(wanted.map(|units| ticks(units).expect("units"))).collect();
    if ruled == in_ticks {
        report.say(format!("  responses, {with}: {} units", wanted.join(", ")));
    } else {
        report.fault(format!("{name}, {with}: responses {ruled:?} in ticks, wanted {in_ticks:?}"));
    }
}
