//! The state, its fresh value, its fitness, and requests.

use crate::refusal::*;
use crate::returning::Returns;
use crate::table::*;
use crate::Refused;

/// "The queue's limit becomes 24" (document 02, 6/13).
pub const QUEUE: usize = 24;
pub const WORK_MOST: u32 = 60_000;
pub const CLOCK_LAST: u32 = 4_000_000_000;
/// The latest next replenishment: the last clock and the longest period.
pub const NEXT_LAST: u32 = CLOCK_LAST + FIELD_MOST;

#[derive(Clone, Copy, Debug, Default, PartialEq, Eq)]
pub struct Request {
    pub id: u32,
    pub work: u32,
    pub arrival: u32,
}

/// The server's state. All but the budget belongs to the sporadic kind and stays unchanged under the others.
#[derive(Clone, Copy, Debug, Default, PartialEq, Eq)]
pub struct Service {
    pub budget: u32,
    pub tr: u32,
    pub begin: u32,
    pub nr: u32,
    pub served: bool,
    pub late: bool,
    /// A row above was open in the last tick.
    pub above: bool,
    /// Any row was open in the last tick.
    pub busy: bool,
}

/// Slots not in use keep what they held.
#[derive(Clone, Copy, Debug, PartialEq, Eq)]
pub struct State {
    pub table: Table,
    pub left: [u32; ROWS],
    pub service: Service,
    pub clock: u32,
    pub queue: [Request; QUEUE],
    pub waiting: u32,
    /// The ticks of work waiting: "The state shall hold this sum" (document 02, 8/13).
    pub backlog: u32,
    /// Belongs to kind 4 and stays unchanged under the others, whatever it holds.
    pub returns: Returns,
}

impl State {
    /// Set-up: the fresh state of a table that keeps its limits.
    pub fn set_up(table: Table) -> Result<State, Refused> {
        table.check()?;
        // Kind 0 has B = 0, so "b = B, of kind 0 it has b = 0" is one assignment.
        let service = Service { budget: table.server.budget, ..Service::default() };
        let queue = [Request::default(); QUEUE];
        Ok(State { table, left: [0; ROWS], service, clock: 0, queue, waiting: 0, backlog: 0, returns: Returns::NONE })
    }

    /// The requests that wait; only for a state with at most as many as the queue holds.
    pub fn waiting(&self) -> &[Request] {
        &self.queue[..self.waiting as usize]
    }

    /// Whether no ground of refusal 11 holds.
    pub fn is_fit(&self) -> bool {
        self.table.check().is_ok() && self.rows_fit() && self.queue_fits() && self.times_fit() && self.returns_fit()
    }

    fn rows_fit(&self) -> bool {
        self.table.used().iter().zip(&self.left).all(|(row, &left)| left <= row.exec)
    }

    fn queue_fits(&self) -> bool {
        self.waiting as usize <= QUEUE
            && self.waiting().iter().all(|request| good_work(request.work) && request.arrival <= self.clock)
            && self.backlog_fits()
    }

    /// "A state whose stored figure differs from that sum is unfit" (document 02, 8/13). Any 24 numbers have a sum of 64 bits.
    fn backlog_fits(&self) -> bool {
        self.backlog as u64 == self.waiting().iter().map(|request| request.work as u64).sum::<u64>()
    }

    fn times_fit(&self) -> bool {
        self.service.budget <= self.table.server.budget
            && self.clock <= CLOCK_LAST
            && self.service.tr <= self.clock
            && self.service.begin <= self.clock
            && self.service.nr <= NEXT_LAST
    }

    /// "A state of kind 4 is also unfit if its held ticks plus b differ from B", or for its stretches; only for a budget up to B.
    fn returns_fit(&self) -> bool {
        let server = self.table.server;
        server.kind != RETURNING || self.returns.fit(self.clock, server.period, server.budget - self.service.budget)
    }

    /// Presents a request at the current tick; 11, 4, 5. "A request adds its work" (document 02, 8/13).
    pub fn request(&mut self, id: u32, work: u32) -> Result<(), u32> {
        if !self.is_fit() {
            return Err(UNFIT_STATE);
        }
        if !good_work(work) {
            return Err(BAD_WORK);
        }
        if self.waiting as usize == QUEUE {
            return Err(QUEUE_FULL);
        }
        self.queue[self.waiting as usize] = Request { id, work, arrival: self.clock };
        self.waiting += 1;
        self.backlog += work;
        Ok(())
    }

    /// The ticks of work waiting; 11. "A new call returns the figure and it equals the sum over the queue, after every call" (document 02,
    /// 8/13).
    pub fn work_waiting(&self) -> Result<u32, u32> {
        if !self.is_fit() {
            return Err(UNFIT_STATE);
        }
        Ok(self.backlog)
    }

    /// The head leaves, the others move up; the last slot keeps what it held.
    pub(crate) fn head_leaves(&mut self) -> Request {
        let head = self.queue[0];
        self.queue.copy_within(1..self.waiting as usize, 0);
        self.waiting -= 1;
        head
    }
}

pub fn good_work(work: u32) -> bool {
    (1..=WORK_MOST).contains(&work)
}
