//! The calls that change a book, the same for a book in a register and one by itself.
//!
//! A slot is none for a closed book. On a refusal the slot is left as it was.

use crate::book::{Book, Coordinates};
use crate::procedure::place_of;
use crate::refusal::Refusal;
use crate::terms::Terms;

pub type Slot = Option<Book>;

pub fn open(slot: &mut Slot, terms: Terms) -> Result<(), Refusal> {
    if slot.is_some() {
        return Err(Refusal::Open);
    }
    *slot = Some(Book::opened(terms)?);
    Ok(())
}

pub fn strike(slot: &mut Slot) -> Result<(), Refusal> {
    open_book_mut(slot)?;
    *slot = None;
    Ok(())
}

/// A place as it is named from outside: series, set and point, in range or not.
pub type Named = [u64; 3];

pub fn enter(slot: &mut Slot, named: Named, reading: Coordinates) -> Result<(), Refusal> {
    let (book, place) = book_and_place(slot, named)?;
    book.enter(place, reading)
}

pub fn correct(slot: &mut Slot, named: Named, reading: Coordinates) -> Result<(), Refusal> {
    let (book, place) = book_and_place(slot, named)?;
    book.correct(place, reading)
}

pub fn withdraw(slot: &mut Slot, named: Named) -> Result<(), Refusal> {
    let (book, place) = book_and_place(slot, named)?;
    book.withdraw(place)
}

pub fn take_back(slot: &mut Slot) -> Result<(), Refusal> {
    open_book_mut(slot)?.take_back()
}

pub fn open_book(slot: &Slot) -> Result<&Book, Refusal> {
    slot.as_ref().ok_or(Refusal::Closed)
}

fn open_book_mut(slot: &mut Slot) -> Result<&mut Book, Refusal> {
    slot.as_mut().ok_or(Refusal::Closed)
}

fn book_and_place(slot: &mut Slot, named: Named) -> Result<(&mut Book, usize), Refusal> {
    // PLACE has the lower number, so it is met before CLOSED.
    let [series, set, point] = named;
    let place = place_of(series, set, point)?;
    Ok((open_book_mut(slot)?, place))
}
