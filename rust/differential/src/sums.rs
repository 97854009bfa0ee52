//! Sums of a full book, and where they stand to the bounds of the verdicts.

use crate::call::{Reading, Terms};
use crate::image::{Image, PLACES};
use second::figures::Sums;
use second::terms;

pub fn of(image: Image) -> Option<(Terms, Sums)> {
    let readings = image.readings()?;
    let terms = image.terms();
    Some((terms, of_readings(&terms, &readings)))
}

pub fn of_readings(terms: &Terms, readings: &[Reading; PLACES]) -> Sums {
    Sums::of(&terms::Terms::from_numbers(*terms), readings)
}

/// Above 0 when xy is beyond, 0 when it is exactly at its bound.
pub fn xy_over_bound(terms: &Terms, sums: &Sums) -> i64 {
    40 * sums.xy() - 22_341 * terms[4] * terms[4]
}

/// Above 0 when h is beyond, 0 when it is exactly at its bound.
pub fn h_over_bound(terms: &Terms, sums: &Sums) -> i64 {
    10 * sums.h - 6_201 * terms[5] * terms[5]
}
