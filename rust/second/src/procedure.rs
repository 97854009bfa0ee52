//! What belongs to the procedure itself (document 003, 5.1 and 6.1).

use crate::refusal::Refusal;

pub const SERIES: usize = 3;
pub const SETS: usize = 5;
pub const POINTS: usize = 2;

/// Places of the field sheet: 30.
pub const PLACES: usize = SERIES * SETS * POINTS;

/// Readings of one point in a full test: 15.
pub const READINGS_OF_A_POINT: i64 = (SERIES * SETS) as i64;

/// x, y and h.
pub const AXES: usize = 3;

/// The place's number in sheet order, from 0: series, then set, then point.
pub fn place_of(series: u64, set: u64, point: u64) -> Result<usize, Refusal> {
    let known = (1..=SERIES as u64).contains(&series)
        && (1..=SETS as u64).contains(&set)
        && (1..=POINTS as u64).contains(&point);
    if !known {
        return Err(Refusal::Place);
    }
    let (series, set, point) = (series as usize - 1, set as usize - 1, point as usize - 1);
    Ok((series * SETS + set) * POINTS + point)
}

/// The point, 0 or 1, that a place of the sheet belongs to.
pub fn point_of(place: usize) -> usize {
    place % POINTS
}
