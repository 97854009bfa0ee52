//! Evaluation of one book and comparison of two, in whole numbers.

use crate::book::{Book, Coordinates};
use crate::figures::{bound_h, bound_xy, fifteen_residuals, shown, Sums};
use crate::procedure::{AXES, PLACES};
use crate::refusal::Refusal;
use crate::screening::first_suspect;

/// One answer: within or beyond, with the figure m and the bound b in 1/1,024 mm.
#[derive(Clone, Copy, Debug, Eq, PartialEq)]
pub struct Answer {
    pub within: bool,
    pub m: u64,
    pub b: u64,
}

/// A book that evaluates: its sums and the stated deviations they are held against.
#[derive(Clone, Copy, Debug, Eq, PartialEq)]
pub struct Judgement {
    pub sums: Sums,
    sigma_xy: i64,
    sigma_h: i64,
}

impl Judgement {
    // The sums decide; the shown figures can be equal though the verdict is beyond.
    fn xy_within(&self) -> bool {
        40 * self.sums.xy() <= 22_341 * self.sigma_xy * self.sigma_xy
    }

    fn h_within(&self) -> bool {
        10 * self.sums.h <= 6_201 * self.sigma_h * self.sigma_h
    }

    pub fn passed(&self) -> bool {
        self.xy_within() && self.h_within()
    }

    pub fn xy(&self) -> Answer {
        Answer {
            within: self.xy_within(),
            m: shown(self.sums.xy()),
            b: bound_xy(self.sigma_xy),
        }
    }

    pub fn h(&self) -> Answer {
        Answer {
            within: self.h_within(),
            m: shown(self.sums.h),
            b: bound_h(self.sigma_h),
        }
    }
}

pub fn evaluate(book: &Book) -> Result<Judgement, Refusal> {
    let readings = all_readings(book)?;
    screen(book, &readings)?;
    Ok(Judgement {
        sums: Sums::of(&book.terms, &readings),
        sigma_xy: book.terms.sigma_xy,
        sigma_h: book.terms.sigma_h,
    })
}

pub fn residual(book: &Book, place: usize) -> Result<Coordinates, Refusal> {
    Ok(fifteen_residuals(&all_readings(book)?, place))
}

#[derive(Clone, Copy, Debug, Eq, PartialEq)]
pub enum Axis {
    Xy,
    H,
}

impl Axis {
    pub fn numbered(number: u64) -> Result<Axis, Refusal> {
        match number {
            1 => Ok(Axis::Xy),
            2 => Ok(Axis::H),
            _ => Err(Refusal::Place),
        }
    }
}

/// Each refusal number is looked for in both books before the next number.
pub fn same_population(first: &Book, second: &Book, axis: Axis) -> Result<bool, Refusal> {
    let (readings1, readings2) = (all_readings(first)?, all_readings(second)?);
    screen(first, &readings1)?;
    screen(second, &readings2)?;
    let sums1 = Sums::of(&first.terms, &readings1);
    let sums2 = Sums::of(&second.terms, &readings2);
    let (q1, q2, lower, upper) = match axis {
        Axis::Xy => (sums1.xy(), sums2.xy(), 59, 170),
        Axis::H => (sums1.h, sums2.h, 47, 213),
    };
    if q2 == 0 {
        return Err(Refusal::Zero);
    }
    Ok(lower * q2 <= 100 * q1 && 100 * q1 <= upper * q2)
}

fn all_readings(book: &Book) -> Result<[Coordinates; PLACES], Refusal> {
    let mut readings = [[0; AXES]; PLACES];
    for (known, reading) in readings.iter_mut().zip(&book.readings) {
        *known = reading.ok_or(Refusal::Short)?;
    }
    Ok(readings)
}

fn screen(book: &Book, readings: &[Coordinates; PLACES]) -> Result<(), Refusal> {
    match first_suspect(&book.terms, readings) {
        Some(suspect) => Err(Refusal::Suspect(suspect)),
        None => Ok(()),
    }
}
