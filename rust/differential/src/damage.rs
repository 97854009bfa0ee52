//! Registers that something has happened to.

use crate::dice::Dice;
use crate::image::{
    word_of, Image, BOOK_BYTES, BOOK_WORDS, CHANGE_WORDS, FIRST_CHANGE, FIRST_READING, FIRST_TERM,
    KEPT, KEPT_AT_MOST,
};
use meliphrast::{BOOKS, LENGTH};

/// A damaged copy of a register in form. Some damage leaves it in form.
pub fn damaged(dice: &mut Dice, register: &[u8]) -> Vec<u8> {
    let mut bytes = register.to_vec();
    match dice.below(20) {
        0..=4 => flip_bytes(dice, &mut bytes, 1),
        5..=6 => {
            let many = dice.between(2, 9);
            flip_bytes(dice, &mut bytes, many);
        }
        7..=12 => spoil_word(dice, &mut bytes),
        13..=14 => spoil_changes(dice, &mut bytes),
        15 => copy_words(dice, &mut bytes),
        16 => copy_book(dice, &mut bytes),
        17 => cut(dice, &mut bytes),
        18 => lengthen(dice, &mut bytes),
        _ => scribble(dice, &mut bytes),
    }
    bytes
}

fn flip_bytes(dice: &mut Dice, bytes: &mut [u8], many: i64) {
    for _ in 0..many {
        let at = dice.index(bytes.len());
        bytes[at] ^= dice.pick(&[1, 2, 4, 8, 16, 32, 64, 128, 255, 3]);
    }
}

/// Gives one word of a book a value at the edge of what it may hold.
fn spoil_word(dice: &mut Dice, bytes: &mut [u8]) {
    let (book, mut image) = drawn_book(dice, bytes);
    let at = match dice.below(8) {
        0 => 0,
        1 => KEPT,
        2..=3 => FIRST_TERM + dice.index(FIRST_READING - FIRST_TERM),
        4..=5 => FIRST_READING + dice.index(KEPT - FIRST_READING),
        _ => FIRST_CHANGE + dice.index(BOOK_WORDS - FIRST_CHANGE),
    };
    let stands = image.words[at];
    let counts = [0, 1, 2, 29, 30, 31, 32, 33, u64::MAX];
    let lengths = [0, 1, 10_000, 10_001, 500_000, 500_001, 100_000_000_001, -1];
    image.words[at] = match dice.below(6) {
        0 => dice.pick(&counts),
        1 => word_of(dice.pick(&lengths) * dice.sign()),
        2 => stands.wrapping_add(1),
        3 => stands.wrapping_sub(1),
        4 => stands.wrapping_add_signed(dice.pick(&[100_000, 200_001]) * dice.sign()),
        _ => dice.word(),
    };
    image.put(bytes, book);
}

/// Swaps, drops or repeats kept changes, which may or may not leave them in order.
fn spoil_changes(dice: &mut Dice, bytes: &mut [u8]) {
    let (book, mut image) = drawn_book(dice, bytes);
    let kept = (image.kept() as usize).clamp(1, KEPT_AT_MOST);
    let start = |change: usize| FIRST_CHANGE + change * CHANGE_WORDS;
    let (one, other) = (start(dice.index(kept)), start(dice.index(kept)));
    match dice.below(4) {
        0 => (0..CHANGE_WORDS).for_each(|at| image.words.swap(one + at, other + at)),
        1 => image.words.copy_within(one..one + CHANGE_WORDS, other),
        2 => {
            // The oldest is dropped, and the count says so.
            image.words[start(kept - 1)..start(kept)].fill(0);
            image.words[KEPT] = kept as u64 - 1;
        }
        _ => {
            // A change that found an empty place.
            image.words[one + 1..one + CHANGE_WORDS].fill(0);
        }
    }
    image.put(bytes, book);
}

fn drawn_book(dice: &mut Dice, bytes: &[u8]) -> (u64, Image) {
    let book = dice.below(BOOKS as u64) + 1;
    let image = Image::of(bytes, book).expect("the register is whole");
    (book, image)
}

fn copy_words(dice: &mut Dice, bytes: &mut [u8]) {
    let from = dice.index(LENGTH / 8) * 8;
    let many = dice.pick(&[1, 3, 4, 12]) * 8;
    let from = from.min(LENGTH - many);
    let to = dice.index((LENGTH - many) / 8) * 8;
    bytes.copy_within(from..from + many, to);
}

/// One book over another: in form, unless it is laid a little aside.
fn copy_book(dice: &mut Dice, bytes: &mut [u8]) {
    let from = dice.index(BOOKS) * BOOK_BYTES;
    let aside = dice.pick(&[0, 0, 1, 8]);
    let to = (dice.index(BOOKS) * BOOK_BYTES + aside).min(LENGTH - BOOK_BYTES);
    bytes.copy_within(from..from + BOOK_BYTES, to);
}

fn cut(dice: &mut Dice, bytes: &mut Vec<u8>) {
    let anywhere = dice.index(LENGTH);
    let ends = [
        0,
        1,
        BOOK_BYTES,
        LENGTH - BOOK_BYTES,
        LENGTH - 8,
        LENGTH - 1,
    ];
    let whole = dice.pick(&ends);
    bytes.truncate(dice.pick(&[anywhere, whole]));
}

fn lengthen(dice: &mut Dice, bytes: &mut Vec<u8>) {
    // With 65,536 bytes more the length is right if its high bits are lost.
    let more = dice.pick(&[1, 7, 8, BOOK_BYTES, LENGTH, 1 << 16]);
    let filler = dice.pick(&[0, 0, 0xFF]);
    bytes.resize(LENGTH + more, filler);
}

fn scribble(dice: &mut Dice, bytes: &mut [u8]) {
    match dice.below(4) {
        0 => bytes.fill(0xFF),
        1 => bytes.fill_with(|| dice.byte()),
        2 => bytes.reverse(),
        _ => bytes.rotate_left(dice.pick(&[1, 8, BOOK_BYTES, BOOK_BYTES * 3])),
    }
}
