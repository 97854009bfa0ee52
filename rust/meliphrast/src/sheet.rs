//! What goes into a book: terms, places and readings, in units of 0.1 mm.

/// The terms of one test. All twelve are given; the library holds each to its range (TERMS).
///
/// ```
/// use meliphrast::{Point, Refusal, Register, Terms};
///
/// let terms = Terms {
///     distance: 100_000, // 10 m
///     height: 0,
///     s_xy: 150,
///     s_h: 250,
///     sigma_xy: 20,
///     sigma_h: 20,
///     point_1: Point { x: 0, y: 0, h: 0 },
///     point_2: Point { x: 100_000, y: 0, h: 0 },
/// };
/// let mut register = Register::fresh();
/// assert_eq!(register.open(1, Terms { sigma_h: 0, ..terms }), Err(Refusal::Terms));
/// assert_eq!(register.open(1, terms), Ok(()));
///
/// // The same in the order of a file's TERMS line.
/// let numbers = [100_000, 0, 150, 250, 20, 20, 0, 0, 0, 100_000, 0, 0];
/// assert_eq!(Terms::from(numbers), terms);
/// assert_eq!(terms.numbers(), numbers);
/// ```
#[derive(Clone, Copy, Debug, Eq, Hash, PartialEq)]
pub struct Terms {
    /// nominal distance D*, 1 to 500,000
    pub distance: i64,
    /// nominal height difference h*, -500,000 to 500,000
    pub height: i64,
    /// s_xy of the screening, 1 to 10,000
    pub s_xy: i64,
    /// s_h of the screening, 1 to 10,000
    pub s_h: i64,
    /// stated sigma_xy, 1 to 10,000
    pub sigma_xy: i64,
    /// stated sigma_h, 1 to 10,000
    pub sigma_h: i64,
    /// approximate values of point 1
    pub point_1: Point,
    /// approximate values of point 2, on each axis at most 500,000 from point 1
    pub point_2: Point,
}

impl Terms {
    /// In the order of a file's TERMS line.
    pub fn numbers(&self) -> [i64; 12] {
        let (one, two) = (self.point_1, self.point_2);
        [
            self.distance,
            self.height,
            self.s_xy,
            self.s_h,
            self.sigma_xy,
            self.sigma_h,
            one.x,
            one.y,
            one.h,
            two.x,
            two.y,
            two.h,
        ]
    }
}

/// In the order of a file's TERMS line.
impl From<[i64; 12]> for Terms {
    fn from(numbers: [i64; 12]) -> Terms {
        let [distance, height, s_xy, s_h, sigma_xy, sigma_h, points @ ..] = numbers;
        let [x1, y1, h1, x2, y2, h2] = points;
        let point = |x, y, h| Point { x, y, h };
        Terms {
            distance,
            height,
            s_xy,
            s_h,
            sigma_xy,
            sigma_h,
            point_1: point(x1, y1, h1),
            point_2: point(x2, y2, h2),
        }
    }
}

/// Approximate X, Y and H of a point, each -100,000,000,000 to 100,000,000,000.
#[derive(Clone, Copy, Debug, Eq, Hash, PartialEq)]
pub struct Point {
    /// X
    pub x: i64,
    /// Y
    pub y: i64,
    /// H
    pub h: i64,
}

/// A place of the field sheet. Numbers out of range are refused by the library (PLACE).
#[derive(Clone, Copy, Debug, Eq, Hash, Ord, PartialEq, PartialOrd)]
pub struct Place {
    /// 1 to 3
    pub series: u64,
    /// 1 to 5
    pub set: u64,
    /// 1 or 2
    pub point: u64,
}

/// What belongs to the procedure: series, sets in each, points in each set.
const SERIES: u8 = 3;
const SETS: u8 = 5;
const POINTS: u8 = 2;

impl Place {
    /// The thirty places in sheet order: series, then set, then point.
    ///
    /// ```
    /// use meliphrast::Place;
    ///
    /// let places = Place::sheet();
    /// assert_eq!(places.len(), 30);
    /// assert!(places.clone().is_sorted());
    /// assert_eq!(places.clone().nth(1), Some(Place { series: 1, set: 1, point: 2 }));
    /// assert_eq!(places.rev().next(), Some(Place { series: 3, set: 5, point: 2 }));
    /// ```
    pub fn sheet() -> impl ExactSizeIterator<Item = Place> + DoubleEndedIterator + Clone {
        (0..SERIES * SETS * POINTS).map(|index| {
            let (set, point) = (index / POINTS, index % POINTS);
            Place::from([set / SETS, set % SETS, point].map(|from_0| u64::from(from_0) + 1))
        })
    }

    pub(crate) fn numbers(self) -> [u64; 3] {
        [self.series, self.set, self.point]
    }
}

/// Series, set and point.
///
/// ```
/// use meliphrast::Place;
///
/// assert_eq!(Place::from([2, 4, 1]), Place { series: 2, set: 4, point: 1 });
/// ```
impl From<[u64; 3]> for Place {
    fn from([series, set, point]: [u64; 3]) -> Place {
        Place { series, set, point }
    }
}

/// A reading of a point. The library holds each coordinate to 100,000 units of the point's
/// approximate value (FAR).
#[derive(Clone, Copy, Debug, Eq, Hash, PartialEq)]
pub struct Reading {
    /// x
    pub x: i64,
    /// y
    pub y: i64,
    /// h
    pub h: i64,
}

/// Fifteen times a residual, mean minus reading: whole numbers of units, nothing rounded.
#[derive(Clone, Copy, Debug, Eq, Hash, PartialEq)]
pub struct Residual {
    /// 15·r of x
    pub x: i64,
    /// 15·r of y
    pub y: i64,
    /// 15·r of h
    pub h: i64,
}
