//! A second implementation of document 01's tick scheduler, with requests 1/13, 3/13 to 6/13 and 8/13 of document 02, written from the
//! papers and the recorded readings, with free points set to the product's: what stays in slot 0 when the last request leaves, and how kind
//! 4's stretches stand in the state (`returning`).
//!
//! State is plain and mutable, every call checks what document 01 lists and then does the steps in the paper's order.
//! It shares no code with the product and exists to be compared with it.

pub mod admission;
pub mod plan;
pub mod print;
pub mod returning;
pub mod state;
pub mod table;
pub mod tick;

pub use admission::{admit, Admission};
pub use returning::{Returns, Stretch};
pub use state::{Request, Service, State};
pub use table::{Row, Server, Table};
pub use tick::{Entry, Finish, Occupant, Ticked};

/// The refusals of document 01, by their numbers.
pub mod refusal {
    pub const ROW_COUNT: u32 = 1;
    pub const BAD_ROW: u32 = 2;
    pub const BAD_SERVER: u32 = 3;
    pub const BAD_WORK: u32 = 4;
    pub const QUEUE_FULL: u32 = 5;
    pub const CLOCK_SPENT: u32 = 6;
    pub const PLAN_TOO_LONG: u32 = 7;
    pub const BAD_LINE: u32 = 8;
    pub const LINE_MISPLACED: u32 = 9;
    pub const SHORT_RECORD: u32 = 10;
    pub const UNFIT_STATE: u32 = 11;
}

/// A refused table: the number and, for 2, the first bad row.
#[derive(Clone, Copy, Debug, PartialEq, Eq)]
pub struct Refused {
    pub number: u32,
    pub index: u32,
}
