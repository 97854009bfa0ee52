//! Sums, residuals and figures (document 002, 5.3; document 003, 6.2.3).

use crate::book::Coordinates;
use crate::procedure::{point_of, AXES, PLACES, POINTS, READINGS_OF_A_POINT};
use crate::root::root;
use crate::terms::Terms;

/// Qx, Qy and Qh: 15 times the sum of squared residuals over both points.
#[derive(Clone, Copy, Debug, Eq, PartialEq)]
pub struct Sums {
    pub x: i64,
    pub y: i64,
    pub h: i64,
}

impl Sums {
    pub fn of(terms: &Terms, readings: &[Coordinates; PLACES]) -> Sums {
        let mut sum = [[0; AXES]; POINTS];
        let mut squares = [0; AXES];
        for (place, reading) in readings.iter().enumerate() {
            let point = point_of(place);
            for axis in 0..AXES {
                let offset = reading[axis] - terms.points[point][axis];
                sum[point][axis] += offset;
                squares[axis] += offset * offset;
            }
        }
        let q = |axis: usize| {
            READINGS_OF_A_POINT * squares[axis] - sum[0][axis].pow(2) - sum[1][axis].pow(2)
        };
        Sums {
            x: q(0),
            y: q(1),
            h: q(2),
        }
    }

    /// P, the sum for xy.
    pub fn xy(&self) -> i64 {
        self.x + self.y
    }
}

/// 15 times the residual, mean minus reading, of a place on each axis.
pub fn fifteen_residuals(readings: &[Coordinates; PLACES], place: usize) -> Coordinates {
    let mut residuals = [0; AXES];
    for other in readings.iter().skip(point_of(place)).step_by(POINTS) {
        for axis in 0..AXES {
            // The approximate value falls out of a difference of two readings.
            residuals[axis] += other[axis] - readings[place][axis];
        }
    }
    residuals
}

/// The greatest m with m²·42,000 <= 1,048,576·q: the figure in 1/1,024 mm.
pub fn shown(q: i64) -> u64 {
    // q is at most 9·10^12, so the product fits an unsigned word though not a signed one.
    root(1_048_576 * q as u64 / 42_000)
}

/// The greatest b with b²·560,000 <= sigma²·7,447·1,048,576.
pub fn bound_xy(sigma: i64) -> u64 {
    root((sigma * sigma) as u64 * 7_447 * 1_048_576 / 560_000)
}

/// The greatest b with b²·280,000 <= sigma²·4,134·1,048,576.
pub fn bound_h(sigma: i64) -> u64 {
    root((sigma * sigma) as u64 * 4_134 * 1_048_576 / 280_000)
}

/// m/1,024 mm as a double; m has far fewer than 53 bits, so nothing is lost.
pub fn millimetres(m: u64) -> f64 {
    m as f64 / 1_024.0
}
