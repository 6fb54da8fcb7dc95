//! What `schedule` prints for a plan.

use crate::admission::{admit, Admission};
use crate::plan::{read, Plan};
use crate::state::State;
use crate::tick::{Entry, Ticked};

/// What the E line tells. "Each of the last four equals the count (for drops, the sum) over the X lines printed, and idle + rows +
/// requests = ticks" (document 02, 1/13).
#[derive(Default)]
struct Totals {
    idle: u32,
    rows: u32,
    requests: u32,
    drops: u32,
}

impl Totals {
    /// One more X line.
    fn add(&mut self, entry: &Entry) {
        match entry.kind {
            0 => self.idle += 1,
            1 => self.rows += 1,
            _ => self.requests += 1,
        }
        self.drops += entry.drops;
    }
}

/// The whole output for a plan text, refused ones too. "A refused plan still prints only its Z line."
pub fn schedule(text: &[u8]) -> Vec<u8> {
    let mut out = Vec::new();
    match read(text) {
        Err(refused) => line(&mut out, b"Z,", &[refused.number, refused.line]),
        Ok(plan) => print_plan(&mut out, &plan),
    }
    out
}

fn print_plan(out: &mut Vec<u8>, plan: &Plan) {
    let admission = admit(&plan.table).expect("a read plan's table keeps its limits");
    print_admission(out, plan.table.n as usize, &admission);
    let totals = print_ticks(out, plan);
    line(out, b"E,", &[plan.ticks, totals.idle, totals.rows, totals.requests, totals.drops]);
}

fn print_admission(out: &mut Vec<u8>, n: usize, admission: &Admission) {
    for (i, &bound) in admission.bounds[..n].iter().enumerate() {
        line(out, b"B,", &[i as u32, bound]);
    }
    line(out, b"B,S,", &[admission.server]);
    line(out, b"V,", &[admission.admitted as u32]);
}

/// An A line is presented before its tick; one at or past the end isn't. Hands back the totals over the X lines.
fn print_ticks(out: &mut Vec<u8>, plan: &Plan) -> Totals {
    let mut totals = Totals::default();
    let mut state = State::set_up(plan.table).expect("a read plan's table keeps its limits");
    let mut arrivals = plan.arrivals.iter().peekable();
    for t in 0..plan.ticks {
        while let Some(arrival) = arrivals.next_if(|arrival| arrival.tick == t) {
            if let Err(refusal) = state.request(arrival.id, arrival.work) {
                line(out, b"N,", &[t, arrival.id, refusal]);
            }
        }
        let ticked = state.tick().expect("a plan's ticks stay below the last clock");
        print_tick(out, t, &ticked);
        totals.add(&ticked.entry);
    }
    totals
}

fn print_tick(out: &mut Vec<u8>, t: u32, ticked: &Ticked) {
    let letter = [b'I', b'T', b'A'][ticked.entry.kind as usize];
    out.extend_from_slice(b"X,");
    push_number(out, t);
    line(out, &[b',', letter, b','], &[ticked.entry.id, ticked.entry.drops]);
    if let Some(finish) = ticked.finish {
        line(out, b"F,", &[t, finish.id, finish.response]);
    }
}

/// A start, numbers parted by commas, a line feed.
fn line(out: &mut Vec<u8>, start: &[u8], numbers: &[u32]) {
    out.extend_from_slice(start);
    for (i, &number) in numbers.iter().enumerate() {
        if i > 0 {
            out.push(b',');
        }
        push_number(out, number);
    }
    out.push(b'\n');
}

fn push_number(out: &mut Vec<u8>, mut number: u32) {
    let mut digits = [0; 10];
    let mut first = digits.len();
    loop {
        first -= 1;
        digits[first] = b'0' + (number % 10) as u8;
        number /= 10;
        if number == 0 {
            break;
        }
    }
    out.extend_from_slice(&digits[first..]);
}
