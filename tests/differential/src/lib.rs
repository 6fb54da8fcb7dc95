//! The product against the second implementation: random plans through the program, random calls through the library. And the product
//! against itself: a plan with and without zeros before its numbers, what rows above the server notice of requests, the figure of the work
//! waiting against what its own answers add up to.

pub mod abi;
pub mod backlog;
pub mod call;
pub mod convert;
pub mod digits;
pub mod idle;
pub mod ledger;
pub mod made;
pub mod open;
pub mod padding;
pub mod pair;
pub mod plan;
pub mod program;
pub mod random;
pub mod returns;
pub mod shrink;
pub mod standin;
pub mod state;
pub mod unnoticed;
pub mod waiting;
