//! The proved register run against the second implementation, call by call and byte by byte.
//!
//! * `run`: what is tried: `examples` and `lists`, then what is drawn from one seed
//! * `examiner`, `recipe`, `damage`, `file`: who draws calls, books, damaged registers and files
//! * `side_by_side`: both programs on bytes of their own, compared after each call
//! * `program`, `wrapped`, `wrong`: the programs, some of them wrong on purpose
//! * `tally`: what was tried, by call and by outcome

pub mod call;
mod damage;
pub mod desk;
mod dice;
pub mod examiner;
mod examples;
mod file;
mod image;
mod lists;
pub mod program;
mod recipe;
pub mod run;
pub mod side_by_side;
mod sums;
pub mod tally;
pub mod wrapped;
pub mod wrong;
