//! A register of RTK field tests whose figures and pass list cannot part.
//!
//! A register is sixteen books, a book holds one full test: terms, readings, and the changes
//! that can still be taken back. Nothing else is stored, so evaluation, comparison and pass list
//! are always those of the readings as they stand. The library that this crate links is proved to
//! answer every call, for any bytes and numbers, as the paper of the project says; this crate
//! adds names and types and decides nothing by itself.
//!
//! A server's day, with a correction that moves a receiver off the pass list:
//!
//! ```
//! use meliphrast::{Place, Reading, Refusal, Register, Terms};
//!
//! # fn main() -> Result<(), Refusal> {
//! // D*, h*, s_xy, s_h, sigma_xy, sigma_h, then X, Y and H of points 1 and 2, in 0.1 mm
//! let terms = Terms::from([100_000, 0, 150, 250, 20, 20, 0, 0, 0, 100_000, 0, 0]);
//! let mut register = Register::fresh();
//! register.open(7, terms)?;
//! for place in Place::sheet() {
//!     let x = if place.point == 1 { 0 } else { 100_000 };
//!     register.enter(7, place, Reading { x, y: 0, h: 0 })?;
//! }
//! assert_eq!(register.passing()?, [7]);
//! register.correct(7, Place { series: 1, set: 1, point: 1 }, Reading { x: 127, y: 0, h: 0 })?;
//! assert_eq!(register.passing()?, []);
//! register.take_back(7)?;
//! assert_eq!(register.passing()?, [7]);
//! # Ok(())
//! # }
//! ```
//!
//! Lengths are whole numbers of 0.1 mm, figures are millimetres. [`boundary`] has the calls as
//! plain numbers and slices, [`sys`] their C declarations.
//!
//! # Panics
//!
//! No call panics, whatever it is given, unless a library of another version is linked, with a
//! refusal that this crate has no name for.

mod answers;
#[allow(unsafe_code)]
pub mod boundary;
mod refusal;
mod register;
mod sheet;
pub mod sys;

pub use answers::{Axis, Comparison, Evaluation, Sheet, Verdict};
pub use refusal::{NoSuchQuantity, Quantity, Refusal, Suspect};
pub use register::Register;
pub use sheet::{Place, Point, Reading, Residual, Terms};

/// The published length of a register in bytes.
pub const LENGTH: usize = 29_696;

/// Books in a register, numbered from 1.
pub const BOOKS: usize = 16;

/// Reads a field file of any bytes and evaluates it; no register is touched.
///
/// # Errors
///
/// The first that applies of [`Refusal::Form`], [`Refusal::Terms`], [`Refusal::Far`],
/// [`Refusal::Short`], [`Refusal::Suspect`].
///
/// ```
/// use meliphrast::{evaluate_file, Refusal};
///
/// let mut file = b"CONTENTS 4\nTERMS 1\nSERIES1 1\nSERIES2 0\nSERIES3 0\n".to_vec();
/// file.extend(b"100000 0 150 250 20 20 0 0 0 100000 0 0\n1 1 126 0 133\n");
/// assert_eq!(evaluate_file(&file), Err(Refusal::Short));
/// file.pop();
/// assert_eq!(evaluate_file(&file), Err(Refusal::Form));
/// ```
pub fn evaluate_file(file: &[u8]) -> Result<Evaluation, Refusal> {
    Evaluation::told(boundary::evaluate_file(file))
}

/// README's example is run with the others.
#[cfg(doctest)]
#[doc = include_str!("../../../README.md")]
struct Readme;
