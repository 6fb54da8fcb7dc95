//! The papers' own tables and worked examples, held against the second implementation and against the product's own calls.
//!
//! `replay` goes through a plan tick by tick, by the second implementation or by a library's calls; `tables` holds document
//! 004's fixed-priority tables against such a replay, line by line; `beside` does so with the library's and compares it, tick by tick,
//! with the second implementation's. `examples` holds what documents 000, 001 and 002 say of their examples. Where a paper leaves a tick
//! idle while a request waits, the replay withholds it from the request, and the tick is listed (document 02, 5/13). Each scenario is also
//! a plan (`*.plan`) with its output (`*.out`), idle ticks given, for any program that claims to be `schedule`.

pub mod beside;
pub mod departures;
pub mod examples;
pub mod replay;
pub mod tables;
pub mod text;

use std::fs;
use std::path::Path;

use replay::{by_second, Idle};

/// What was checked, in words, and what failed.
#[derive(Default)]
pub struct Report {
    pub lines: Vec<String>,
    pub faults: Vec<String>,
}

impl Report {
    pub fn say(&mut self, line: String) {
        self.lines.push(line);
    }

    pub fn fault(&mut self, line: String) {
        self.faults.push(line);
    }

    pub fn join(&mut self, other: Report) {
        self.lines.extend(other.lines);
        self.faults.extend(other.faults);
    }
}

pub fn read(dir: &Path, name: &str) -> String {
    let path = dir.join(name);
    fs::read_to_string(&path).unwrap_or_else(|error| panic!("{}: {error}", path.display()))
}

/// Every plan of the folder, in order of name.
pub fn plans(dir: &Path) -> Vec<String> {
    let entries = fs::read_dir(dir).expect("the folder of the papers");
    let names = entries.map(|entry| entry.unwrap().file_name().into_string().unwrap());
    let mut plans: Vec<String> = names.filter_map(|name| name.strip_suffix(".plan").map(str::to_string)).collect();
    plans.sort();
    plans
}

/// The tables, the examples, and the kept outputs.
pub fn check(dir: &Path) -> Report {
    let mut report = Report::default();
    for table in tables::TABLES {
        let plan = tables::plan(dir, table.name);
        tables::check(dir, table, "the second implementation", &by_second(&plan, Idle::Withheld), &mut report);
        tables::check_given(table, &by_second(&plan, Idle::Given), &mut report);
    }
    for example in examples::EXAMPLES {
        examples::check(dir, example, &mut report);
    }
    check_outputs(dir, &mut report, "second", |plan| second::print::schedule(plan.as_bytes()));
    report
}

/// The kept outputs against what a program prints.
pub fn check_outputs(dir: &Path, report: &mut Report, program: &str, run: impl Fn(&str) -> Vec<u8>) {
    let names = plans(dir);
    for name in &names {
        if run(&read(dir, &format!("{name}.plan"))) != read(dir, &format!("{name}.out")).as_bytes() {
            report.fault(format!("{name}: {program} prints other than {name}.out"));
        }
    }
    report.say(format!("{} plans' outputs compared with {program}, byte for byte", names.len()));
}
