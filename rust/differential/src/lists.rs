//! Pass lists of every length, none to sixteen books, each asked for with every room.

use crate::call::{Call, Terms};
use crate::examiner::ROOMS;
use crate::image::{place, PLACES};
use crate::recipe;
use crate::side_by_side::{Difference, SideBySide};
use meliphrast::{BOOKS, LENGTH};

type Outcome = Result<(), Box<Difference>>;

/// Document 01's example terms.
const TERMS: Terms = [100_000, 0, 150, 250, 20, 20, 0, 0, 0, 100_000, 0, 0];

/// One more book that passes at a time, so that every number of books meets every room.
pub fn run(pair: &mut SideBySide) -> Outcome {
    pair.lend(&[0; LENGTH], 0);
    ask_with_every_room(pair)?;
    for book in scattered() {
        fill(pair, book)?;
        ask_with_every_room(pair)?;
    }
    Ok(())
}

/// Every book once, in an order in which a book's number is not its rank on the list.
fn scattered() -> impl Iterator<Item = u64> {
    let books = BOOKS as u64;
    // 17 is prime, so steps of 5 come by every number below it.
    (1..=books).map(move |turn| turn * 5 % (books + 1))
}

fn ask_with_every_room(pair: &mut SideBySide) -> Outcome {
    for room in 0..ROOMS {
        pair.call(&Call::PassList(room))?;
    }
    Ok(())
}

/// A book that passes: every reading on its point.
fn fill(pair: &mut SideBySide, book: u64) -> Outcome {
    pair.call(&Call::Open(book, TERMS))?;
    for at in 0..PLACES {
        let reading = recipe::point(&TERMS, at);
        pair.call(&Call::Enter(book, place(at), reading))?;
    }
    Ok(())
}
