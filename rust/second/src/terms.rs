//! The twelve terms of a test, their ranges, and nearness of a reading to its point.

use crate::procedure::{AXES, POINTS};

pub const TERMS: usize = 12;

const NOMINAL_AT_MOST: i64 = 500_000;
const DEVIATION_AT_MOST: i64 = 10_000;
const COORDINATE_AT_MOST: i64 = 100_000_000_000;
const POINTS_APART_AT_MOST: u64 = 500_000;
const OFFSET_AT_MOST: u64 = 100_000;

/// Terms in units of 0.1 mm; a value of this type need not be in range.
#[derive(Clone, Copy, Debug, Eq, PartialEq)]
pub struct Terms {
    /// D*
    pub distance: i64,
    /// h*
    pub height: i64,
    /// s_xy and s_h of the screening
    pub screening_xy: i64,
    pub screening_h: i64,
    pub sigma_xy: i64,
    pub sigma_h: i64,
    /// Approximate X, Y, H of points 1 and 2
    pub points: [[i64; AXES]; POINTS],
}

impl Terms {
    /// In the order of a file's TERMS line, which is also the order of the image.
    pub fn from_numbers(numbers: [i64; TERMS]) -> Terms {
        let [distance, height, screening_xy, screening_h, sigma_xy, sigma_h, points @ ..] = numbers;
        let [x1, y1, h1, x2, y2, h2] = points;
        Terms {
            distance,
            height,
            screening_xy,
            screening_h,
            sigma_xy,
            sigma_h,
            points: [[x1, y1, h1], [x2, y2, h2]],
        }
    }

    pub fn numbers(&self) -> [i64; TERMS] {
        let [[x1, y1, h1], [x2, y2, h2]] = self.points;
        [
            self.distance,
            self.height,
            self.screening_xy,
            self.screening_h,
            self.sigma_xy,
            self.sigma_h,
            x1,
            y1,
            h1,
            x2,
            y2,
            h2,
        ]
    }

    pub fn in_range(&self) -> bool {
        let deviations = [
            self.screening_xy,
            self.screening_h,
            self.sigma_xy,
            self.sigma_h,
        ];
        let [first, second] = self.points;
        (1..=NOMINAL_AT_MOST).contains(&self.distance)
            && (-NOMINAL_AT_MOST..=NOMINAL_AT_MOST).contains(&self.height)
            && deviations
                .iter()
                .all(|deviation| (1..=DEVIATION_AT_MOST).contains(deviation))
            && self
                .points
                .iter()
                .flatten()
                .all(|coordinate| (-COORDINATE_AT_MOST..=COORDINATE_AT_MOST).contains(coordinate))
            && (0..AXES).all(|axis| first[axis].abs_diff(second[axis]) <= POINTS_APART_AT_MOST)
    }

    /// Whether each coordinate lies within 100,000 of the point's approximate value.
    pub fn near(&self, point: usize, reading: &[i64; AXES]) -> bool {
        let about = &self.points[point];
        // `abs_diff` is right for every pair of numbers, the extreme ones included.
        let near = |axis: usize| reading[axis].abs_diff(about[axis]) <= OFFSET_AT_MOST;
        // All three at once: a reading is hardly ever far, so leaving early gains nothing.
        near(0) & near(1) & near(2)
    }
}
