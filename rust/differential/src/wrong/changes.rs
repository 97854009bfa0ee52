//! Wrong entries, corrections, withdrawals and take-backs, and wrong refusals of them.

use super::{right, Wrong};
use crate::call::{Answer, Call, Reading};
use crate::desk::Desk;
use crate::image::{
    word_of, Image, BOOK_WORDS, FIRST_CHANGE, FIRST_READING, FIRST_TERM, KEPT, KEPT_AT_MOST,
};
use crate::recipe;

pub fn wrong_programs() -> Vec<Wrong> {
    vec![
        Wrong::new("each call refused", |_, _| Answer::number(1)),
        Wrong::new("no byte ever changed", |call, desk| {
            right(call, &mut desk.clone())
        }),
        Wrong::new("corrections acknowledged and not made", only_acknowledged),
        Wrong::new("33 changes kept", thirty_three_kept),
        Wrong::new("a withdrawal not taken back", withdrawal_forgotten),
        Wrong::new("a withdrawal not kept", withdrawal_not_kept),
        Wrong::new("the same value no change", same_is_no_change),
        Wrong::new("one change more to take back", one_more),
        Wrong::new("offset 100,001 accepted", reaching_further),
        Wrong::new("offset 100,000 refused", reaching_less),
        Wrong::new("a refused correction leaves x", refused_leaves_x),
        Wrong::new("striking leaves a term", struck_term_left),
        Wrong::new("TERMS before OPEN", terms_before_open),
        Wrong::new("CLOSED before PLACE", closed_before_place),
        Wrong::new("book numbers cut to 32 bits", book_cut),
        Wrong::new("nominal values and deviations cut to 32 bits", terms_cut),
        Wrong::new("offsets cut to 32 bits", offsets_cut),
        Wrong::new("residuals with the other sign", residual_negated),
    ]
}

/// The book that a change is made in, and its image before.
fn changed_book(call: &Call, desk: &Desk) -> Option<(u64, Image)> {
    let (Call::Enter(book, ..) | Call::Correct(book, ..) | Call::Withdraw(book, _)) = *call else {
        return None;
    };
    Some((book, Image::of(desk.register.bytes(), book)?))
}

fn only_acknowledged(call: &Call, desk: &mut Desk) -> Answer {
    match call {
        Call::Correct(..) => right(call, &mut desk.clone()),
        _ => right(call, desk),
    }
}

fn thirty_three_kept(call: &Call, desk: &mut Desk) -> Answer {
    let before = changed_book(call, desk);
    let answer = right(call, desk);
    if let (Some((book, image)), true) = (before, answer.is_accepted()) {
        if image.kept() == KEPT_AT_MOST as u64 {
            set_word(desk, book, KEPT, 33);
        }
    }
    answer
}

fn set_word(desk: &mut Desk, book: u64, at: usize, word: u64) {
    let register = desk.register.bytes_mut();
    let mut image = Image::of(register, book).expect("a book of the register");
    image.words[at] = word;
    image.put(register, book);
}

fn withdrawal_forgotten(call: &Call, desk: &mut Desk) -> Answer {
    let Call::TakeBack(book) = *call else {
        return right(call, desk);
    };
    let before = Image::of(desk.register.bytes(), book);
    let answer = right(call, desk);
    if let (Some(before), true) = (before, answer.is_accepted()) {
        let (place, _) = before.latest();
        if before.reading(place).is_none() {
            for axis in 0..3 {
                set_word(desk, book, FIRST_READING + place * 3 + axis, 0);
            }
        }
    }
    answer
}

fn withdrawal_not_kept(call: &Call, desk: &mut Desk) -> Answer {
    let before = changed_book(call, desk);
    let answer = right(call, desk);
    if let (Call::Withdraw(..), Some((book, image)), true) = (call, before, answer.is_accepted()) {
        for at in KEPT..BOOK_WORDS {
            set_word(desk, book, at, image.words[at]);
        }
    }
    answer
}

fn same_is_no_change(call: &Call, desk: &mut Desk) -> Answer {
    if let Call::Correct(book, place, reading) = *call {
        let stands = right(&Call::Read(book, place), desk);
        if stands == Answer::lengths(0, reading) {
            return Answer::default();
        }
    }
    right(call, desk)
}

fn one_more(call: &Call, desk: &mut Desk) -> Answer {
    let mut answer = right(call, desk);
    if let (Call::Changes(_), true) = (call, answer.is_accepted()) {
        answer.words[0] = (answer.words[0] + 1).min(KEPT_AT_MOST as u64);
    }
    answer
}

/// How far a call's reading is from its point on each axis, where the book has one.
fn offsets(call: &Call, desk: &Desk) -> Option<[i64; 3]> {
    let (Call::Enter(book, place, reading) | Call::Correct(book, place, reading)) = *call else {
        return None;
    };
    let image = Image::of(desk.register.bytes(), book)?;
    let point: Reading = recipe::point(&image.terms(), place[2] as usize - 1);
    Some([0, 1, 2].map(|axis| reading[axis].wrapping_sub(point[axis])))
}

/// The farthest of them.
fn reach(call: &Call, desk: &Desk) -> Option<u64> {
    let away = offsets(call, desk)?.map(i64::unsigned_abs);
    away.into_iter().max()
}

fn reaching_further(call: &Call, desk: &mut Desk) -> Answer {
    let answer = right(call, desk);
    if answer.refusal == 8 && reach(call, desk) == Some(100_001) {
        return Answer::default();
    }
    answer
}

fn reaching_less(call: &Call, desk: &mut Desk) -> Answer {
    let mut tried = desk.clone();
    let answer = right(call, &mut tried);
    if answer.is_accepted() && reach(call, desk) == Some(100_000) {
        return Answer::number(8);
    }
    *desk = tried;
    answer
}

fn refused_leaves_x(call: &Call, desk: &mut Desk) -> Answer {
    let answer = right(call, desk);
    if let (Call::Correct(book, _, [x, ..]), 7) = (call, answer.refusal) {
        set_word(desk, *book, FIRST_CHANGE + 1, word_of(*x));
    }
    answer
}

fn struck_term_left(call: &Call, desk: &mut Desk) -> Answer {
    let Call::Strike(book) = *call else {
        return right(call, desk);
    };
    let before = Image::of(desk.register.bytes(), book);
    let answer = right(call, desk);
    if let (Some(before), true) = (before, answer.is_accepted()) {
        set_word(desk, book, FIRST_TERM, before.words[FIRST_TERM]);
    }
    answer
}

fn terms_before_open(call: &Call, desk: &mut Desk) -> Answer {
    let answer = right(call, desk);
    if let (Call::Open(_, terms), 3) = (call, answer.refusal) {
        let mut fresh = Desk::with(&[0; meliphrast::LENGTH], 0);
        let elsewhere = right(&Call::Open(1, *terms), &mut fresh);
        if !elsewhere.is_accepted() {
            return elsewhere;
        }
    }
    answer
}

fn closed_before_place(call: &Call, desk: &mut Desk) -> Answer {
    let answer = right(call, desk);
    if let (Call::Read(book, _), 2) = (call, answer.refusal) {
        let changes = right(&Call::Changes(*book), desk);
        if changes.refusal == 5 {
            return changes;
        }
    }
    answer
}

fn book_cut(call: &Call, desk: &mut Desk) -> Answer {
    match *call {
        Call::Evaluate(book) => right(&Call::Evaluate(u64::from(book as u32)), desk),
        _ => right(call, desk),
    }
}

/// The terms that have room in 32 bits: all but the coordinates.
fn terms_cut(call: &Call, desk: &mut Desk) -> Answer {
    let Call::Open(book, mut terms) = *call else {
        return right(call, desk);
    };
    for term in &mut terms[..6] {
        *term = i64::from(*term as i32);
    }
    right(&Call::Open(book, terms), desk)
}

fn offsets_cut(call: &Call, desk: &mut Desk) -> Answer {
    let answer = right(call, desk);
    if answer.refusal == 8 {
        let near = |offset: i64| (offset as i32).unsigned_abs() <= 100_000;
        if offsets(call, desk).is_some_and(|offsets| offsets.into_iter().all(near)) {
            return Answer::default();
        }
    }
    answer
}

fn residual_negated(call: &Call, desk: &mut Desk) -> Answer {
    let mut answer = right(call, desk);
    if let Call::Residual(..) = call {
        answer.words = answer.words.map(u64::wrapping_neg);
    }
    answer
}
