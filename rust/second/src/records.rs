//! The records that calls give back. Beside a refusal everything else in them is zero.

use crate::book::Coordinates;
use crate::figures::{millimetres, shown};
use crate::judgement::{Answer, Judgement};
use crate::refusal::{number_of, Refusal};

#[derive(Clone, Copy, Debug, Default, PartialEq)]
pub struct Reading {
    pub refusal: u64,
    pub x: i64,
    pub y: i64,
    pub h: i64,
}

#[derive(Clone, Copy, Debug, Default, Eq, PartialEq)]
pub struct Count {
    pub refusal: u64,
    pub count: u64,
}

/// The candidate's sheet in millimetres.
#[derive(Clone, Copy, Debug, Default, PartialEq)]
pub struct Sheet {
    pub s_x: f64,
    pub s_y: f64,
    pub s_xy: f64,
    pub s_h: f64,
}

/// `within` is 1 or 0; both figures are in millimetres.
#[derive(Clone, Copy, Debug, Default, PartialEq)]
pub struct Verdict {
    pub within: u64,
    pub deviation: f64,
    pub bound: f64,
}

#[derive(Clone, Copy, Debug, Default, PartialEq)]
pub struct Evaluation {
    pub refusal: u64,
    pub series: u64,
    pub set: u64,
    pub quantity: u64,
    pub sheet: Sheet,
    pub xy: Verdict,
    pub h: Verdict,
}

#[derive(Clone, Copy, Debug, Default, Eq, PartialEq)]
pub struct Comparison {
    pub refusal: u64,
    pub series: u64,
    pub set: u64,
    pub quantity: u64,
    pub same: u64,
}

impl From<Result<Coordinates, Refusal>> for Reading {
    fn from(outcome: Result<Coordinates, Refusal>) -> Reading {
        let refusal = number_of(&outcome);
        let [x, y, h] = outcome.unwrap_or_default();
        Reading { refusal, x, y, h }
    }
}

impl From<Result<u64, Refusal>> for Count {
    fn from(outcome: Result<u64, Refusal>) -> Count {
        Count {
            refusal: number_of(&outcome),
            count: outcome.unwrap_or_default(),
        }
    }
}

impl From<Answer> for Verdict {
    fn from(answer: Answer) -> Verdict {
        Verdict {
            within: u64::from(answer.within),
            deviation: millimetres(answer.m),
            bound: millimetres(answer.b),
        }
    }
}

impl From<Result<Judgement, Refusal>> for Evaluation {
    fn from(outcome: Result<Judgement, Refusal>) -> Evaluation {
        match outcome {
            Ok(judgement) => {
                let (xy, h) = (judgement.xy(), judgement.h());
                Evaluation {
                    sheet: Sheet {
                        s_x: millimetres(shown(judgement.sums.x)),
                        s_y: millimetres(shown(judgement.sums.y)),
                        s_xy: millimetres(xy.m),
                        s_h: millimetres(h.m),
                    },
                    xy: xy.into(),
                    h: h.into(),
                    ..Evaluation::default()
                }
            }
            Err(refusal) => Evaluation {
                refusal: refusal.number(),
                series: refusal.named().series,
                set: refusal.named().set,
                quantity: refusal.named().quantity,
                ..Evaluation::default()
            },
        }
    }
}

impl From<Result<bool, Refusal>> for Comparison {
    fn from(outcome: Result<bool, Refusal>) -> Comparison {
        match outcome {
            Ok(same) => Comparison {
                same: u64::from(same),
                ..Comparison::default()
            },
            Err(refusal) => Comparison {
                refusal: refusal.number(),
                series: refusal.named().series,
                set: refusal.named().set,
                quantity: refusal.named().quantity,
                same: 0,
            },
        }
    }
}
