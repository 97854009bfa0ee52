//! What the tests share: a register with books to their needs.

#![allow(dead_code)]

use second::register::{enter, fresh, open};
use second::LENGTH;

/// Document 01's example terms.
pub const TERMS: [i64; 12] = [100_000, 0, 150, 250, 20, 20, 0, 0, 0, 100_000, 0, 0];

pub const POINTS: [[i64; 3]; 2] = [[0, 0, 0], [100_000, 0, 0]];

/// An offset at one place: series, set, point, then x, y, h.
pub type Offset = ([u64; 3], [i64; 3]);

pub fn fresh_register() -> Vec<u8> {
    let mut register = vec![0xAA; LENGTH];
    assert_eq!(fresh(&mut register), 0);
    register
}

pub fn places() -> impl Iterator<Item = [u64; 3]> {
    (1..=3).flat_map(|series| {
        (1..=5).flat_map(move |set| (1..=2).map(move |point| [series, set, point]))
    })
}

pub fn enter_at(register: &mut [u8], book: u64, place: [u64; 3], reading: [i64; 3]) -> u64 {
    let ([series, set, point], [x, y, h]) = (place, reading);
    enter(register, book, series, set, point, x, y, h)
}

/// Opens a book with the example's terms and all 30 readings, on their points but for offsets.
pub fn fill(register: &mut [u8], book: u64, offsets: &[Offset]) {
    assert_eq!(open(register, book, TERMS), 0);
    for place in places() {
        let mut reading = POINTS[place[2] as usize - 1];
        for (_, by) in offsets.iter().filter(|(at, _)| *at == place) {
            for axis in 0..3 {
                reading[axis] += by[axis];
            }
        }
        assert_eq!(enter_at(register, book, place, reading), 0);
    }
}

pub fn filled(offsets: &[Offset]) -> Vec<u8> {
    let mut register = fresh_register();
    fill(&mut register, 1, offsets);
    register
}

/// Small numbers in a fixed, uneven order, so that a failing run can be repeated.
pub struct Dice(u64);

impl Dice {
    pub fn new(seed: u64) -> Dice {
        Dice(seed)
    }

    pub fn roll(&mut self, sides: u64) -> u64 {
        self.0 ^= self.0 << 13;
        self.0 ^= self.0 >> 7;
        self.0 ^= self.0 << 17;
        (self.0 >> 11) % sides
    }

    pub fn between(&mut self, low: i64, high: i64) -> i64 {
        low + self.roll((high - low + 1) as u64) as i64
    }
}
