//! An open book: terms, readings, and the changes that can still be taken back.

use crate::procedure::{point_of, AXES, PLACES};
use crate::refusal::Refusal;
use crate::terms::Terms;

pub const KEPT_AT_MOST: usize = 32;

/// x, y and h in units.
pub type Coordinates = [i64; AXES];

/// A kept change: where it was made and what stood there before.
#[derive(Clone, Copy, Debug, Eq, PartialEq)]
pub struct Change {
    pub place: usize,
    pub before: Option<Coordinates>,
}

impl Change {
    pub const UNUSED: Change = Change {
        place: 0,
        before: None,
    };
}

#[derive(Clone, Debug, Eq, PartialEq)]
pub struct Book {
    pub terms: Terms,
    pub readings: [Option<Coordinates>; PLACES],
    /// Oldest first; only the first `kept` count.
    pub changes: [Change; KEPT_AT_MOST],
    pub kept: usize,
}

impl Book {
    /// A book with these terms, no reading and nothing to take back.
    pub fn opened(terms: Terms) -> Result<Book, Refusal> {
        if !terms.in_range() {
            return Err(Refusal::Terms);
        }
        Ok(Book::with_terms(terms))
    }

    /// For terms that are known to be in range.
    pub fn with_terms(terms: Terms) -> Book {
        Book {
            terms,
            readings: [None; PLACES],
            changes: [Change::UNUSED; KEPT_AT_MOST],
            kept: 0,
        }
    }

    pub fn enter(&mut self, place: usize, reading: Coordinates) -> Result<(), Refusal> {
        if self.readings[place].is_some() {
            return Err(Refusal::Filled);
        }
        self.must_be_near(place, &reading)?;
        self.change(place, Some(reading));
        Ok(())
    }

    pub fn correct(&mut self, place: usize, reading: Coordinates) -> Result<(), Refusal> {
        self.read(place)?;
        self.must_be_near(place, &reading)?;
        self.change(place, Some(reading));
        Ok(())
    }

    pub fn withdraw(&mut self, place: usize) -> Result<(), Refusal> {
        self.read(place)?;
        self.change(place, None);
        Ok(())
    }

    pub fn take_back(&mut self) -> Result<(), Refusal> {
        if self.kept == 0 {
            return Err(Refusal::Nothing);
        }
        self.kept -= 1;
        let latest = self.changes[self.kept];
        self.readings[latest.place] = latest.before;
        Ok(())
    }

    pub fn read(&self, place: usize) -> Result<Coordinates, Refusal> {
        self.readings[place].ok_or(Refusal::Empty)
    }

    pub fn must_be_near(&self, place: usize, reading: &Coordinates) -> Result<(), Refusal> {
        if self.terms.near(point_of(place), reading) {
            Ok(())
        } else {
            Err(Refusal::Far)
        }
    }

    fn change(&mut self, place: usize, after: Option<Coordinates>) {
        if self.kept == KEPT_AT_MOST {
            // The oldest change can no longer be taken back.
            self.changes.copy_within(1.., 0);
            self.kept -= 1;
        }
        self.changes[self.kept] = Change {
            place,
            before: self.readings[place],
        };
        self.kept += 1;
        self.readings[place] = after;
    }
}
