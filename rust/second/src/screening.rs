//! Screening of each set against the nominal values (document 003, 5.2 and 6.2.2).

use crate::book::Coordinates;
use crate::procedure::{PLACES, POINTS, SERIES, SETS};
use crate::refusal::Suspect;
use crate::root::nearest_root;
use crate::terms::Terms;

const DISTANCE: u64 = 1;
const HEIGHT: u64 = 2;

/// The first suspect set in sheet order, distance before height in a set.
pub fn first_suspect(terms: &Terms, readings: &[Coordinates; PLACES]) -> Option<Suspect> {
    for series in 0..SERIES {
        for set in 0..SETS {
            let place = (series * SETS + set) * POINTS;
            if let Some(quantity) = suspect_quantity(terms, &readings[place], &readings[place + 1])
            {
                return Some(Suspect {
                    series: series as u64 + 1,
                    set: set as u64 + 1,
                    quantity,
                });
            }
        }
    }
    None
}

fn suspect_quantity(terms: &Terms, first: &Coordinates, second: &Coordinates) -> Option<u64> {
    let d = (distance(first, second) - terms.distance).abs();
    if !passes(d, terms.screening_xy) {
        return Some(DISTANCE);
    }
    let d = (second[2] - first[2] - terms.height).abs();
    if !passes(d, terms.screening_h) {
        return Some(HEIGHT);
    }
    None
}

/// The horizontal distance D rounded to the nearest unit.
pub fn distance(first: &Coordinates, second: &Coordinates) -> i64 {
    let (dx, dy) = (second[0] - first[0], second[1] - first[1]);
    nearest_root((dx * dx + dy * dy) as u64) as i64
}

/// d within 2.5·√2·s, tested on whole numbers.
pub fn passes(d: i64, s: i64) -> bool {
    2 * d * d <= 25 * s * s
}
