//! The plan text and its refusals ("The plan text and `schedule`" in document 01; its numbers by request 4/13 of document 02).

use crate::refusal::*;
use crate::state::good_work;
use crate::table::*;

pub const PLAN_MOST: usize = 65_536;
pub const TICKS_MOST: u32 = 1_000_000;
const DIGITS_MOST: usize = 10;

#[derive(Clone, Copy, Debug, PartialEq, Eq)]
pub struct Arrival {
    pub tick: u32,
    pub id: u32,
    pub work: u32,
}

#[derive(Clone, Debug, PartialEq, Eq)]
pub struct Plan {
    pub table: Table,
    pub arrivals: Vec<Arrival>,
    pub ticks: u32,
}

/// A refused plan: the number, and the line it is met at, from 1, or 0.
#[derive(Clone, Copy, Debug, PartialEq, Eq)]
pub struct RefusedPlan {
    pub number: u32,
    pub line: u32,
}

enum Line {
    T(Row),
    S(Server),
    A(Arrival),
    R(u32),
}

#[derive(Default)]
struct Reader {
    rows: Vec<Row>,
    server: Option<Server>,
    arrivals: Vec<Arrival>,
    ticks: Option<u32>,
}

pub fn read(text: &[u8]) -> Result<Plan, RefusedPlan> {
    if text.len() > PLAN_MOST {
        return Err(RefusedPlan { number: PLAN_TOO_LONG, line: 0 });
    }
    let mut reader = Reader::default();
    let mut number = 0;
    for line in text.split_inclusive(|&byte| byte == b'\n') {
        number += 1;
        reader.take(line).map_err(|refusal| RefusedPlan { number: refusal, line: number })?;
    }
    reader.close(number + 1)
}

impl Reader {
    /// One line: its form (8), its place (9), then its work (4).
    fn take(&mut self, line: &[u8]) -> Result<(), u32> {
        let line = line.strip_suffix(b"\n").and_then(parse).ok_or(BAD_LINE)?;
        if !self.in_place(&line) {
            return Err(LINE_MISPLACED);
        }
        match line {
            Line::T(row) => self.rows.push(row),
            Line::S(server) => self.server = Some(server),
            Line::A(arrival) if !good_work(arrival.work) => return Err(BAD_WORK),
            Line::A(arrival) => self.arrivals.push(arrival),
            Line::R(ticks) => self.ticks = Some(ticks),
        }
        Ok(())
    }

    /// T lines, one S, A lines with ticks never falling, last R.
    fn in_place(&self, line: &Line) -> bool {
        let latest = self.arrivals.last().map_or(0, |arrival| arrival.tick);
        self.ticks.is_none()
            && match line {
                Line::T(_) | Line::S(_) => self.server.is_none(),
                Line::A(arrival) => self.server.is_some() && arrival.tick >= latest,
                Line::R(_) => self.server.is_some(),
            }
    }

    /// No R is 9 at the line after the last; then 1, 2, 3 with line 0.
    fn close(self, after: u32) -> Result<Plan, RefusedPlan> {
        let missing = RefusedPlan { number: LINE_MISPLACED, line: after };
        let ticks = self.ticks.ok_or(missing)?;
        let server = self.server.ok_or(missing)?;
        let mut table = Table { n: self.rows.len() as u32, server, ..Table::default() };
        for (slot, row) in table.rows.iter_mut().zip(&self.rows) {
            *slot = *row;
        }
        table.check().map_err(|refused| RefusedPlan { number: refused.number, line: 0 })?;
        Ok(Plan { table, arrivals: self.arrivals, ticks })
    }
}

/// A line without its line feed: a letter and its numbers, parted by commas.
fn parse(line: &[u8]) -> Option<Line> {
    let mut fields = line.split(|&byte| byte == b',');
    let letter = fields.next()?;
    let numbers: Vec<u32> = fields.map(number).collect::<Option<_>>()?;
    match (letter, numbers.as_slice()) {
        (b"T", &[phase, period, exec, deadline]) => Some(Line::T(Row { phase, period, exec, deadline })),
        (b"S", &[kind, place, period, budget]) => Some(Line::S(Server { kind, place, period, budget })),
        (b"A", &[tick, id, work]) => Some(Line::A(Arrival { tick, id, work })),
        (b"R", &[ticks]) if ticks <= TICKS_MOST => Some(Line::R(ticks)),
        _ => None,
    }
}

/// A number is 1 to 10 digits, at most 4,294,967,295 (document 01). "A number may now have leading zeros; it still has 1 to 10 digits"
/// (document 02, 4/13).
fn number(digits: &[u8]) -> Option<u32> {
    if !(1..=DIGITS_MOST).contains(&digits.len()) || !digits.iter().all(u8::is_ascii_digit) {
        return None;
    }
    let value = digits.iter().fold(0u64, |value, digit| value * 10 + (digit - b'0') as u64);
    u32::try_from(value).ok()
}
