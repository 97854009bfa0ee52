//! A look into a book's image, for whoever has to know what stands in a register.

use crate::call::{Place, Reading, Terms};
use meliphrast::{BOOKS, LENGTH};
use std::ops::Range;

/// Places of the field sheet.
pub const PLACES: usize = 30;

/// Changes that can be taken back.
pub const KEPT_AT_MOST: usize = 32;

pub const BOOK_BYTES: usize = LENGTH / BOOKS;
pub const BOOK_WORDS: usize = BOOK_BYTES / 8;

/// Where a book's parts begin, counted in words; the first word tells whether it is open.
pub const FIRST_TERM: usize = 1;
pub const FIRST_READING: usize = 13;
pub const KEPT: usize = 103;
pub const FIRST_CHANGE: usize = 104;
pub const CHANGE_WORDS: usize = 4;

/// What is added to a length in the image.
const LENGTH_BIAS: i64 = 1_000_000_000_000;

/// The place with this number in sheet order, from 0.
pub fn place(index: usize) -> Place {
    let index = index as u64;
    [index / 10 + 1, index % 10 / 2 + 1, index % 2 + 1]
}

/// Where a book stands in a register.
pub fn bytes_of(book: u64) -> Option<Range<usize>> {
    if !(1..=BOOKS as u64).contains(&book) {
        return None;
    }
    let start = (book as usize - 1) * BOOK_BYTES;
    Some(start..start + BOOK_BYTES)
}

pub fn word_of(length: i64) -> u64 {
    length.wrapping_add(LENGTH_BIAS) as u64
}

fn length_of(word: u64) -> i64 {
    (word as i64).wrapping_sub(LENGTH_BIAS)
}

/// A book's words.
#[derive(Clone, Copy, Debug, Eq, PartialEq)]
pub struct Image {
    pub words: [u64; BOOK_WORDS],
}

impl Image {
    /// None where there is no such book.
    pub fn of(register: &[u8], book: u64) -> Option<Image> {
        let bytes = register.get(bytes_of(book)?)?;
        let mut words = [0; BOOK_WORDS];
        for (word, bytes) in words.iter_mut().zip(bytes.as_chunks().0) {
            *word = u64::from_le_bytes(*bytes);
        }
        Some(Image { words })
    }

    /// Puts the words in the place of a book that is there.
    pub fn put(&self, register: &mut [u8], book: u64) {
        let range = bytes_of(book).expect("a book of the register");
        let bytes = self.words.map(u64::to_le_bytes);
        register[range].copy_from_slice(bytes.as_flattened());
    }

    pub fn is_open(&self) -> bool {
        self.words[0] == 1
    }

    pub fn is_full(&self) -> bool {
        (0..PLACES).all(|place| self.reading(place).is_some())
    }

    pub fn terms(&self) -> Terms {
        let words: [u64; 12] = self.part(FIRST_TERM);
        words.map(length_of)
    }

    pub fn reading(&self, place: usize) -> Option<Reading> {
        reading_of(self.part(FIRST_READING + place * 3))
    }

    /// All thirty, where none is empty.
    pub fn readings(&self) -> Option<[Reading; PLACES]> {
        let mut readings = [[0; 3]; PLACES];
        for (place, reading) in readings.iter_mut().enumerate() {
            *reading = self.reading(place)?;
        }
        Some(readings)
    }

    pub fn kept(&self) -> u64 {
        self.words[KEPT]
    }

    /// The place of the latest change, and what stood there before it.
    pub fn latest(&self) -> (usize, Option<Reading>) {
        let before = reading_of(self.part(FIRST_CHANGE + 1));
        (self.words[FIRST_CHANGE] as usize, before)
    }

    fn part<const N: usize>(&self, start: usize) -> [u64; N] {
        let part = self.words[start..].first_chunk();
        *part.expect("a part of the book")
    }
}

fn reading_of(words: [u64; 3]) -> Option<Reading> {
    (words != [0; 3]).then(|| words.map(length_of))
}
