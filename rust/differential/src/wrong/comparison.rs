//! Wrong comparisons.

use super::{right, Wrong};
use crate::call::{Answer, Call};
use crate::desk::Desk;
use crate::image::Image;
use crate::sums;

pub fn wrong_programs() -> Vec<Wrong> {
    vec![
        Wrong::new("the books of a comparison swapped", swapped),
        Wrong::new("the second book's suspect set first", second_first),
        Wrong::new("ZERO by the first book", zero_by_the_first),
        Wrong::new("same only between the limits", only_between),
        Wrong::new("axis 0 taken for xy", any_axis),
        Wrong::new("the axis cut to 32 bits", axis_cut),
    ]
}

fn swapped(call: &Call, desk: &mut Desk) -> Answer {
    match *call {
        Call::Compare(first, second, axis) => right(&Call::Compare(second, first, axis), desk),
        _ => right(call, desk),
    }
}

fn second_first(call: &Call, desk: &mut Desk) -> Answer {
    let answer = right(call, desk);
    match *call {
        Call::Compare(_, second, axis) if answer.refusal == 11 => {
            let alone = right(&Call::Compare(second, second, axis), desk);
            if alone.refusal == 11 {
                alone
            } else {
                answer
            }
        }
        _ => answer,
    }
}

fn zero_by_the_first(call: &Call, desk: &mut Desk) -> Answer {
    let answer = right(call, desk);
    match *call {
        Call::Compare(first, _, axis) if answer.is_accepted() => {
            let alone = right(&Call::Compare(first, first, axis), desk);
            if alone.refusal == 12 {
                alone
            } else {
                answer
            }
        }
        _ => answer,
    }
}

fn only_between(call: &Call, desk: &mut Desk) -> Answer {
    let mut answer = right(call, desk);
    if let (Call::Compare(first, second, axis), true) = (call, answer.is_accepted()) {
        let sum = |book: &u64| {
            let image = Image::of(desk.register.bytes(), *book);
            let (_, sums) = image.and_then(sums::of).expect("a full book");
            [sums.xy(), sums.h][*axis as usize - 1]
        };
        let (low, high) = [(59, 170), (47, 213)][*axis as usize - 1];
        let (first, second) = (100 * sum(first), sum(second));
        let between = low * second < first && first < high * second;
        answer.words[0] = u64::from(between);
    }
    answer
}

fn any_axis(call: &Call, desk: &mut Desk) -> Answer {
    match *call {
        Call::Compare(first, second, 0) => right(&Call::Compare(first, second, 1), desk),
        _ => right(call, desk),
    }
}

fn axis_cut(call: &Call, desk: &mut Desk) -> Answer {
    match *call {
        Call::Compare(first, second, axis) => {
            right(&Call::Compare(first, second, u64::from(axis as u32)), desk)
        }
        _ => right(call, desk),
    }
}
