//! A book's image of 232 words: the form check, decoding and encoding.
//!
//! opened, 12 terms, 90 words of readings in sheet order, the number of kept changes, then
//! 32 changes of four words each, newest first.

use crate::book::{Book, Change, Coordinates, KEPT_AT_MOST};
use crate::procedure::{point_of, AXES, PLACES};
use crate::refusal::Refusal;
use crate::terms::{Terms, TERMS};

pub const BOOK_WORDS: usize = FIRST_CHANGE + KEPT_AT_MOST * CHANGE_WORDS;

const FIRST_TERM: usize = 1;
const FIRST_READING: usize = FIRST_TERM + TERMS;
const KEPT: usize = FIRST_READING + PLACES * AXES;
const FIRST_CHANGE: usize = KEPT + 1;
const CHANGE_WORDS: usize = 1 + AXES;

/// A length z stands in the image as z plus this, so that no length is stored as 0.
const LENGTH_BIAS: i64 = 1_000_000_000_000;

/// A word of the image: eight bytes, the lowest first.
pub type Word = [u8; 8];

pub type Image = [Word; BOOK_WORDS];

/// A closed book, and every unused word, is zero.
pub const CLOSED: Image = [[0; 8]; BOOK_WORDS];

/// The book, or none for a closed one; REGISTER when the words are not in form.
pub fn book_of(image: &Image) -> Result<Option<Book>, Refusal> {
    if in_form(image) {
        Ok(decoded(image))
    } else {
        Err(Refusal::Register)
    }
}

pub fn in_form(image: &Image) -> bool {
    match u64::from_le_bytes(image[0]) {
        0 => all_zero(image),
        1 => open_in_form(image),
        _ => false,
    }
}

fn open_in_form(image: &Image) -> bool {
    let terms = terms_of(image);
    let kept = u64::from_le_bytes(image[KEPT]);
    if !terms.in_range() || kept > KEPT_AT_MOST as u64 {
        return false;
    }
    let mut filled = [false; PLACES];
    for (place, words) in readings_in(image).enumerate() {
        let reading = reading_of(words);
        filled[place] = reading.is_some();
        if !reading.is_none_or(|reading| terms.near(point_of(place), &reading)) {
            return false;
        }
    }
    let (changes, unused) = image[FIRST_CHANGE..].split_at(kept as usize * CHANGE_WORDS);
    all_zero(unused) && can_be_taken_back(changes, &terms, filled)
}

/// No change leaves an empty place empty, so taking back must never meet that.
fn can_be_taken_back(changes: &[Word], terms: &Terms, mut filled: [bool; PLACES]) -> bool {
    for change in changes.chunks_exact(CHANGE_WORDS) {
        let place = u64::from_le_bytes(change[0]);
        if place >= PLACES as u64 {
            return false;
        }
        let place = place as usize;
        let left_filled = filled[place];
        match reading_of(&change[1..]) {
            None if !left_filled => return false,
            Some(before) if !terms.near(point_of(place), &before) => return false,
            before => filled[place] = before.is_some(),
        }
    }
    true
}

/// The book of words in form, or none for a closed one.
pub fn decoded(image: &Image) -> Option<Book> {
    if image[0] == CLOSED[0] {
        return None;
    }
    let kept = u64::from_le_bytes(image[KEPT]) as usize;
    let mut book = Book::with_terms(terms_of(image));
    for (reading, words) in book.readings.iter_mut().zip(readings_in(image)) {
        *reading = reading_of(words);
    }
    let newest_first = image[FIRST_CHANGE..].chunks_exact(CHANGE_WORDS);
    for (change, words) in book.changes[..kept].iter_mut().rev().zip(newest_first) {
        *change = Change {
            place: u64::from_le_bytes(words[0]) as usize,
            before: reading_of(&words[1..]),
        };
    }
    book.kept = kept;
    Some(book)
}

pub fn image_of(book: &Option<Book>) -> Image {
    let mut image = CLOSED;
    let Some(book) = book else {
        return image;
    };
    image[0] = 1_u64.to_le_bytes();
    image[FIRST_TERM..FIRST_READING].copy_from_slice(&book.terms.numbers().map(word_of));
    for (place, reading) in book.readings.iter().enumerate() {
        write_reading(&mut image[FIRST_READING + place * AXES..], reading);
    }
    image[KEPT] = (book.kept as u64).to_le_bytes();
    for (age, change) in book.changes[..book.kept].iter().rev().enumerate() {
        let at = FIRST_CHANGE + age * CHANGE_WORDS;
        image[at] = (change.place as u64).to_le_bytes();
        write_reading(&mut image[at + 1..], &change.before);
    }
    image
}

fn terms_of(image: &Image) -> Terms {
    let mut numbers = [0; TERMS];
    for (number, word) in numbers.iter_mut().zip(&image[FIRST_TERM..]) {
        *number = length_of(*word);
    }
    Terms::from_numbers(numbers)
}

/// The three words of each place in sheet order.
fn readings_in(image: &Image) -> impl Iterator<Item = &[Word]> {
    image[FIRST_READING..KEPT].chunks_exact(AXES)
}

fn reading_of(words: &[Word]) -> Option<Coordinates> {
    let &[x, y, h] = words else {
        unreachable!("three words a reading");
    };
    (!all_zero(words)).then(|| [x, y, h].map(length_of))
}

fn write_reading(words: &mut [Word], reading: &Option<Coordinates>) {
    if let Some(reading) = reading {
        words[..AXES].copy_from_slice(&reading.map(word_of));
    }
}

/// One length for each word, so a word that stands for no length decodes out of range.
fn length_of(word: Word) -> i64 {
    i64::from_le_bytes(word).wrapping_sub(LENGTH_BIAS)
}

fn word_of(length: i64) -> Word {
    length.wrapping_add(LENGTH_BIAS).to_le_bytes()
}

fn all_zero(words: &[Word]) -> bool {
    // Without an early way out the compiler can take several words at a time.
    let seen = |seen, word: &Word| seen | u64::from_le_bytes(*word);
    words.iter().fold(0, seen) == 0
}
