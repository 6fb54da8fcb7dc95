//! `papers DIR [PROGRAM]`: checks the papers' tables and examples; with a program, also its output for every plan.
//! `papers DIR --write`: writes the outputs anew, from the second implementation, if the checks of lines hold.
//! `papers DIR --library LIBRARY`: document 004's tables by the library's own calls, each line against the paper and each tick
//! against the second implementation; then the test of that. LIBRARY is `linked` (built with that feature), `second`, or a shared
//! object's path. Further: `--spoil FIELD@TICK` changes one number (budget, tr, nr, begin, work, left, backlog) of the library's
//! state by one after that tick, which must end in faults; `--alone` leaves the second implementation out.

use std::fs;
use std::io::Write;
use std::path::Path;
use std::process::{exit, Command, Stdio};

use differential::open::find;
use papers::replay::Spoil;
use papers::{beside, check, check_outputs, plans, read, Report};

fn main() {
    let mut arguments = std::env::args().skip(1);
    let dir = arguments.next().unwrap_or_else(|| "tests/papers".to_string());
    let dir = Path::new(&dir);
    let mut report = Report::default();
    match arguments.next().as_deref() {
        Some("--write") => write(dir),
        Some("--library") => report = check_library(dir, &arguments.collect::<Vec<_>>()),
        Some(program) => {
            report = check(dir);
            check_outputs(dir, &mut report, program, |plan| run(program, plan));
        }
        None => report = check(dir),
    }
    finish(&report);
}

fn finish(report: &Report) {
    for line in &report.lines {
        println!("{line}");
    }
    for fault in &report.faults {
        println!("FAULT {fault}");
    }
    exit(!report.faults.is_empty() as i32);
}

/// A library that keeps to the tables shows also that a spoilt one would not.
fn check_library(dir: &Path, arguments: &[String]) -> Report {
    let (mut spoil, mut alone) = (None, false);
    let mut options = arguments.iter();
    let library = options.next().expect("linked, second, or the path of a shared object");
    let calls = find(library).unwrap_or_else(|| panic!("no library {library}"));
    while let Some(option) = options.next() {
        match option.as_str() {
            "--spoil" => spoil = Some(options.next().and_then(|text| Spoil::read(text)).expect("FIELD@TICK")),
            "--alone" => alone = true,
            other => panic!("no option {other}"),
        }
    }
    let mut report = beside::check(dir, calls, spoil, alone);
    if spoil.is_none() && !alone && report.faults.is_empty() {
        report.join(beside::check_spoils(dir, calls));
    }
    report
}

fn write(dir: &Path) {
    for name in plans(dir) {
        let out = second::print::schedule(read(dir, &format!("{name}.plan")).as_bytes());
        fs::write(dir.join(format!("{name}.out")), out).expect("the folder is writable");
    }
}

fn run(program: &str, plan: &str) -> Vec<u8> {
    let mut child = Command::new(program).stdin(Stdio::piped()).stdout(Stdio::piped()).spawn().expect("the program starts");
    child.stdin.take().unwrap().write_all(plan.as_bytes()).expect("the program reads its plan");
    child.wait_with_output().expect("the program ends").stdout
}
