//! What comes out of a full book: figures, verdicts and comparisons.

use crate::refusal::Refusal;
use crate::sys;

pub use crate::sys::Sheet;

/// A book or file that evaluates.
#[derive(Clone, Copy, Debug, PartialEq)]
pub struct Evaluation {
    /// the candidate's sheet
    pub sheet: Sheet,
    /// the verdict on position
    pub xy: Verdict,
    /// the verdict on height
    pub h: Verdict,
}

impl Evaluation {
    /// Whether both verdicts are within: such a book is on the pass list.
    pub fn passes(&self) -> bool {
        self.xy.is_within() && self.h.is_within()
    }

    pub(crate) fn told(told: sys::Evaluation) -> Result<Evaluation, Refusal> {
        Refusal::told(told.refusal, [told.series, told.set, told.quantity])?;
        Ok(Evaluation {
            sheet: told.sheet,
            xy: Verdict::told(told.xy),
            h: Verdict::told(told.h),
        })
    }
}

/// Within or beyond, with both figures in millimetres.
///
/// The figures show the verdict and do not decide it: they can be equal though it is beyond.
#[derive(Clone, Copy, Debug, PartialEq)]
pub enum Verdict {
    /// the deviation is within the bound
    Within {
        /// s in millimetres, a whole number of 1/1,024 mm
        deviation: f64,
        /// what s is held against, in the same way
        bound: f64,
    },
    /// the deviation is beyond the bound
    Beyond {
        /// s in millimetres, a whole number of 1/1,024 mm
        deviation: f64,
        /// what s is held against, in the same way
        bound: f64,
    },
}

impl Verdict {
    /// Whether the verdict is within.
    pub fn is_within(&self) -> bool {
        matches!(self, Verdict::Within { .. })
    }

    /// The deviation s in millimetres.
    pub fn deviation(&self) -> f64 {
        self.figures().0
    }

    /// The bound in millimetres.
    pub fn bound(&self) -> f64 {
        self.figures().1
    }

    fn figures(&self) -> (f64, f64) {
        let (Verdict::Within { deviation, bound } | Verdict::Beyond { deviation, bound }) = *self;
        (deviation, bound)
    }

    fn told(mark: sys::Mark) -> Verdict {
        let (deviation, bound) = (mark.deviation, mark.bound);
        if mark.within == 1 {
            Verdict::Within { deviation, bound }
        } else {
            Verdict::Beyond { deviation, bound }
        }
    }
}

/// Whether two books can be of the same population.
#[derive(Clone, Copy, Debug, Eq, Hash, PartialEq)]
pub enum Comparison {
    /// the same population
    Same,
    /// not the same
    NotSame,
}

impl Comparison {
    /// Whether it says the same population.
    pub fn is_same(self) -> bool {
        self == Comparison::Same
    }

    pub(crate) fn told(told: sys::Comparison) -> Result<Comparison, Refusal> {
        Refusal::told(told.refusal, [told.series, told.set, told.quantity])?;
        Ok(if told.same == 1 {
            Comparison::Same
        } else {
            Comparison::NotSame
        })
    }
}

/// What two books are compared on.
///
/// A number that is no axis is PLACE here as it is in the library. The library looks at the
/// register before it; [`boundary::compare`](crate::boundary::compare) leaves the number to it.
///
/// ```
/// use meliphrast::{Axis, Refusal};
///
/// assert_eq!(Axis::try_from(Axis::H.number()), Ok(Axis::H));
/// assert_eq!(Axis::try_from(3), Err(Refusal::Place));
/// ```
#[derive(Clone, Copy, Debug, Eq, Hash, PartialEq)]
pub enum Axis {
    /// 1: position
    Xy,
    /// 2: height
    H,
}

impl Axis {
    /// 1 for xy, 2 for h.
    pub fn number(self) -> u64 {
        match self {
            Axis::Xy => 1,
            Axis::H => 2,
        }
    }
}

impl TryFrom<u64> for Axis {
    type Error = Refusal;

    fn try_from(number: u64) -> Result<Axis, Refusal> {
        match number {
            1 => Ok(Axis::Xy),
            2 => Ok(Axis::H),
            _ => Err(Refusal::Place),
        }
    }
}
