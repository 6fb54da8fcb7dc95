//! Admission, by trying every length ("Admission" in document 01).

use crate::table::*;
use crate::Refused;

#[derive(Clone, Copy, Debug, Default, PartialEq, Eq)]
pub struct Admission {
    pub bounds: [u32; ROWS],
    pub server: u32,
    pub admitted: bool,
}

/// ceil(L/p) x e: what a row asks for in any L ticks that begin with its release.
fn row_term(length: u64, row: &Row) -> u64 {
    length.div_ceil(row.period as u64) * row.exec as u64
}

/// What the server takes from a row below it.
fn server_term(length: u64, server: &Server) -> u64 {
    let (period, budget) = (server.period as u64, server.budget as u64);
    match server.kind {
        POLLING | SPORADIC | RETURNING => length.div_ceil(period) * budget,
        // A deferrable server may spend one budget just before a replenishment: 004's extra B.
        DEFERRABLE => budget + length.saturating_sub(budget).div_ceil(period) * budget,
        _ => 0,
    }
}

/// The demand of row i in L ticks.
pub fn demand(table: &Table, i: usize, length: u64) -> u64 {
    let before: u64 = table.rows[..i].iter().map(|row| row_term(length, row)).sum();
    let served = if table.server.place as usize <= i { server_term(length, &table.server) } else { 0 };
    table.rows[i].exec as u64 + before + served
}

/// The server's own demand: its budget and the rows above it.
pub fn server_demand(table: &Table, length: u64) -> u64 {
    let above = &table.rows[..table.server.place as usize];
    table.server.budget as u64 + above.iter().map(|row| row_term(length, row)).sum::<u64>()
}

/// The least length from 1 to `most` whose demand fits in it, or 0.
fn least(most: u32, demand: impl Fn(u64) -> u64) -> u32 {
    (1..=most).find(|&length| demand(length as u64) <= length as u64).unwrap_or(0)
}

pub fn admit(table: &Table) -> Result<Admission, Refused> {
    table.check()?;
    let mut answer = Admission::default();
    for (i, row) in table.used().iter().enumerate() {
        answer.bounds[i] = least(row.deadline, |length| demand(table, i, length));
    }
    let served = table.server.kind != BACKGROUND;
    if served {
        answer.server = least(table.server.period, |length| server_demand(table, length));
    }
    let rows = answer.bounds[..table.n as usize].iter().all(|&bound| bound > 0);
    answer.admitted = rows && (!served || answer.server > 0);
    Ok(answer)
}
