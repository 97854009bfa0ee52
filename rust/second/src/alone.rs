//! The calls on a book by itself, given as the 232 words of its image.
//!
//! The book is held to the form that a register asks of a book. Each change gives the next
//! book beside the refusal number; a refused one gives the book that was handed in.

use crate::acts::{self, Slot};
use crate::image::{book_of, image_of, BOOK_WORDS};
use crate::judgement;
use crate::records::Evaluation;
use crate::refusal::Refusal;

pub type Words = [u64; BOOK_WORDS];

pub fn enter(book: Words, series: u64, set: u64, point: u64, reading: [i64; 3]) -> (Words, u64) {
    next(book, |slot| {
        acts::enter(slot, [series, set, point], reading)
    })
}

pub fn correct(book: Words, series: u64, set: u64, point: u64, reading: [i64; 3]) -> (Words, u64) {
    next(book, |slot| {
        acts::correct(slot, [series, set, point], reading)
    })
}

pub fn withdraw(book: Words, series: u64, set: u64, point: u64) -> (Words, u64) {
    next(book, |slot| acts::withdraw(slot, [series, set, point]))
}

pub fn take_back(book: Words) -> (Words, u64) {
    next(book, acts::take_back)
}

pub fn evaluate(book: &Words) -> Evaluation {
    let outcome = book_of(&book.map(u64::to_le_bytes))
        .and_then(|slot| judgement::evaluate(acts::open_book(&slot)?));
    outcome.into()
}

fn next(book: Words, act: impl FnOnce(&mut Slot) -> Result<(), Refusal>) -> (Words, u64) {
    let outcome = book_of(&book.map(u64::to_le_bytes)).and_then(|mut slot| {
        act(&mut slot)?;
        Ok(image_of(&slot).map(u64::from_le_bytes))
    });
    match outcome {
        Ok(words) => (words, 0),
        Err(refusal) => (book, refusal.number()),
    }
}
