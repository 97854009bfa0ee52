//! Wrong form checks.

use super::{right, Wrong};
use crate::call::{Answer, Call};
use crate::desk::Desk;
use crate::image::{Image, BOOK_WORDS, CHANGE_WORDS, FIRST_CHANGE, KEPT, KEPT_AT_MOST};
use meliphrast::{BOOKS, LENGTH};

pub fn wrong_programs() -> Vec<Wrong> {
    vec![
        Wrong::new("unused words not looked at", |call, desk| {
            lenient(call, desk, clear_unused)
        }),
        Wrong::new("kept changes not looked at", |call, desk| {
            lenient(call, desk, clear_changes)
        }),
        Wrong::new("closed books not looked at", |call, desk| {
            lenient(call, desk, clear_closed)
        }),
        Wrong::new("book 16 not looked at", last_unseen),
        Wrong::new("a longer register in form", longer_in_form),
        Wrong::new("the register's length cut to 16 bits", length_cut),
        Wrong::new("fresh only over a register in form", fresh_in_form),
    ]
}

/// The form check after something has been cleared away that should have been looked at.
fn lenient(call: &Call, desk: &mut Desk, clear: fn(&mut Image)) -> Answer {
    if *call == Call::Check && desk.register.bytes().len() == LENGTH {
        let mut cleared = desk.clone();
        for book in 1..=BOOKS as u64 {
            let register = cleared.register.bytes_mut();
            let mut image = Image::of(register, book).expect("a book of the register");
            clear(&mut image);
            image.put(register, book);
        }
        return right(call, &mut cleared);
    }
    right(call, desk)
}

fn clear_unused(image: &mut Image) {
    let used = (image.kept() as usize).min(KEPT_AT_MOST);
    image.words[FIRST_CHANGE + used * CHANGE_WORDS..].fill(0);
}

fn clear_changes(image: &mut Image) {
    image.words[KEPT..].fill(0);
}

fn clear_closed(image: &mut Image) {
    if image.words[0] == 0 {
        image.words = [0; BOOK_WORDS];
    }
}

fn last_unseen(call: &Call, desk: &mut Desk) -> Answer {
    if *call == Call::Check && desk.register.bytes().len() == LENGTH {
        let mut cleared = desk.clone();
        let closed = Image {
            words: [0; BOOK_WORDS],
        };
        closed.put(cleared.register.bytes_mut(), BOOKS as u64);
        return right(call, &mut cleared);
    }
    right(call, desk)
}

fn longer_in_form(call: &Call, desk: &mut Desk) -> Answer {
    match desk.register.bytes().get(..LENGTH) {
        Some(register) if *call == Call::Check => right(call, &mut Desk::with(register, 0)),
        _ => right(call, desk),
    }
}

fn length_cut(call: &Call, desk: &mut Desk) -> Answer {
    let length = usize::from(desk.register.bytes().len() as u16);
    match desk.register.bytes().get(..LENGTH) {
        Some(register) if *call == Call::Check && length == LENGTH => {
            right(call, &mut Desk::with(register, 0))
        }
        _ => right(call, desk),
    }
}

fn fresh_in_form(call: &Call, desk: &mut Desk) -> Answer {
    if *call == Call::Fresh && !right(&Call::Check, desk).is_accepted() {
        return Answer::number(1);
    }
    right(call, desk)
}
