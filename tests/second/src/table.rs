//! The table and its limits ("The table" in document 01).

use crate::refusal::*;
use crate::Refused;

pub const ROWS: usize = 16;
pub const FIELD_MOST: u32 = 60_000;

pub const BACKGROUND: u32 = 0;
pub const POLLING: u32 = 1;
pub const DEFERRABLE: u32 = 2;
pub const SPORADIC: u32 = 3;
/// Gives back tick by tick (document 02, 3/13).
pub const RETURNING: u32 = 4;

#[derive(Clone, Copy, Debug, Default, PartialEq, Eq)]
pub struct Row {
    pub phase: u32,
    pub period: u32,
    pub exec: u32,
    pub deadline: u32,
}

#[derive(Clone, Copy, Debug, Default, PartialEq, Eq)]
pub struct Server {
    pub kind: u32,
    pub place: u32,
    pub period: u32,
    pub budget: u32,
}

/// Rows 0 to n-1 are in use; the other slots hold whatever they were given.
#[derive(Clone, Copy, Debug, Default, PartialEq, Eq)]
pub struct Table {
    pub rows: [Row; ROWS],
    pub n: u32,
    pub server: Server,
}

impl Row {
    /// "1 <= e <= D <= p <= 60,000 and f <= 60,000".
    pub fn in_limits(&self) -> bool {
        1 <= self.exec
            && self.exec <= self.deadline
            && self.deadline <= self.period
            && self.period <= FIELD_MOST
            && self.phase <= FIELD_MOST
    }
}

impl Server {
    /// "Kinds 1 to 3: s <= n, 1 <= B <= P <= 60,000. Kind 0: s = n, P = B = 0." Kind 4 has the limits of kinds 1 to 3 (document 02, 3/13).
    pub fn in_limits(&self, n: u32) -> bool {
        match self.kind {
            BACKGROUND => self.place == n && self.period == 0 && self.budget == 0,
            POLLING | DEFERRABLE | SPORADIC | RETURNING => {
                self.place <= n && 1 <= self.budget && self.budget <= self.period && self.period <= FIELD_MOST
            }
            _ => false,
        }
    }
}

impl Table {
    /// The rows in use; only for a table whose count is right.
    pub fn used(&self) -> &[Row] {
        &self.rows[..self.n as usize]
    }

    /// Refusals 1, 2 and 3, in this order.
    pub fn check(&self) -> Result<(), Refused> {
        if self.n == 0 || self.n as usize > ROWS {
            return Err(Refused { number: ROW_COUNT, index: 0 });
        }
        if let Some(i) = self.used().iter().position(|row| !row.in_limits()) {
            return Err(Refused { number: BAD_ROW, index: i as u32 });
        }
        if !self.server.in_limits(self.n) {
            return Err(Refused { number: BAD_SERVER, index: 0 });
        }
        Ok(())
    }
}
