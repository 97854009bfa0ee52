//! The RTK field test register, written a second time, from document 01 and the published layout.
//!
//! It shares no code with the proved library, so that each can be run against the other.
//! Bytes are decoded to signed numbers and optional readings, all work is done on those,
//! and the result is encoded again.
//!
//! * `register`: every call on a register, one byte slice of `LENGTH` bytes
//! * `alone`: the calls on one book by itself, 232 words
//! * `file` and `report`: the field file and what the program prints for it

mod acts;
pub mod alone;
mod book;
pub mod figures;
pub mod file;
mod image;
mod judgement;
pub mod procedure;
pub mod records;
pub mod refusal;
pub mod register;
pub mod report;
pub mod root;
pub mod screening;
pub mod terms;

pub use alone::Words;
pub use book::KEPT_AT_MOST;
pub use image::BOOK_WORDS;
pub use records::{Comparison, Count, Evaluation, Reading, Sheet, Verdict};
pub use register::{BOOKS, LENGTH};
