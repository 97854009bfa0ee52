//! Wrong figures, verdicts and screenings.

use super::{right, Wrong};
use crate::call::{Answer, Call, Reading, Terms, BOUND, DEVIATION, H, S_H, S_X, S_XY, S_Y, XY};
use crate::desk::Desk;
use crate::image::{Image, PLACES};
use crate::{recipe, sums};
use second::figures::{bound_h, bound_xy, millimetres, shown, Sums};
use second::file::read_file;
use second::root::root;
use second::screening::{distance, passes};

/// Each is tried twice, wrong for books of a register alone and for files alone.
pub fn wrong_programs() -> Vec<Wrong> {
    let judges: [(&str, Judge); 14] = [
        ("xy within only below its bound", xy_only_below),
        ("h within only below its bound", h_only_below),
        ("verdicts by the shown figures", by_the_figures),
        ("one fixed verdict", fixed),
        ("no screening", not_screened),
        ("height screened before distance", height_first),
        ("the last suspect set named", last_named),
        ("half a unit rounded up", rounded_up),
        ("a bound beside SUSPECT", bound_beside_suspect),
        ("29 degrees for 28", by_29),
        ("s_xy from the mean of the squares", averaged),
        ("figures rounded to the nearest", nearest_figures),
        ("a zero with a sign", signed_zero),
        ("offset 0 taken for an absent reading", zero_is_absent),
    ];
    let twice = |(name, judge)| [judging(name, judge, false), judging(name, judge, true)];
    judges.into_iter().flat_map(twice).collect()
}

type Judge = fn(&Full, &mut Answer);

/// A full book or file, as its evaluation goes by it.
struct Full {
    terms: Terms,
    readings: [Reading; PLACES],
    sums: Sums,
}

/// Changes the right answer of every evaluation that gets as far as the screening.
fn judging(name: &str, judge: Judge, files: bool) -> Wrong {
    let of = if files { "file" } else { "book" };
    Wrong::new(&format!("{name}, of a {of}"), move |call, desk| {
        let mut answer = right(call, desk);
        if matches!(call, Call::EvaluateFile(_)) == files && matches!(answer.refusal, 0 | 11) {
            if let Some(full) = full(call, desk) {
                judge(&full, &mut answer);
            }
        }
        answer
    })
}

fn full(call: &Call, desk: &Desk) -> Option<Full> {
    let image = match call {
        Call::Evaluate(book) => Image::of(desk.register.bytes(), *book)?,
        Call::EvaluateFile(_) => Image {
            words: read_file(desk.file.bytes()).0,
        },
        _ => return None,
    };
    let (terms, sums) = sums::of(image)?;
    Some(Full {
        terms,
        readings: image.readings()?,
        sums,
    })
}

fn set_figure(answer: &mut Answer, at: usize, m: u64) {
    answer.words[at] = millimetres(m).to_bits();
}

fn xy_only_below(full: &Full, answer: &mut Answer) {
    if answer.is_accepted() {
        answer.words[XY] = u64::from(sums::xy_over_bound(&full.terms, &full.sums) < 0);
    }
}

fn h_only_below(full: &Full, answer: &mut Answer) {
    if answer.is_accepted() {
        answer.words[H] = u64::from(sums::h_over_bound(&full.terms, &full.sums) < 0);
    }
}

fn by_the_figures(_: &Full, answer: &mut Answer) {
    for axis in [XY, H] {
        let [s, bound] = [DEVIATION, BOUND].map(|at| f64::from_bits(answer.words[axis + at]));
        answer.words[axis] = u64::from(answer.is_accepted() && s <= bound);
    }
}

fn fixed(_: &Full, answer: &mut Answer) {
    answer.words[XY] = u64::from(answer.is_accepted());
}

fn not_screened(full: &Full, answer: &mut Answer) {
    let (terms, sums) = (&full.terms, &full.sums);
    *answer = Answer::default();
    answer.words[XY] = u64::from(sums::xy_over_bound(terms, sums) <= 0);
    answer.words[H] = u64::from(sums::h_over_bound(terms, sums) <= 0);
    let figures = [
        (S_X, shown(sums.x)),
        (S_Y, shown(sums.y)),
        (S_XY, shown(sums.xy())),
        (S_H, shown(sums.h)),
        (XY + DEVIATION, shown(sums.xy())),
        (XY + BOUND, bound_xy(terms[4])),
        (H + DEVIATION, shown(sums.h)),
        (H + BOUND, bound_h(terms[5])),
    ];
    for (at, m) in figures {
        set_figure(answer, at, m);
    }
}

/// For each set, whether the distance and the height difference pass.
fn screened(full: &Full) -> Vec<[bool; 2]> {
    let pairs = full.readings.as_chunks().0.iter();
    let set = |[one, two]: &[Reading; 2]| {
        let d = (distance(one, two) - full.terms[0]).abs();
        let height = (two[2] - one[2] - full.terms[1]).abs();
        [passes(d, full.terms[2]), passes(height, full.terms[3])]
    };
    pairs.map(set).collect()
}

fn height_first(full: &Full, answer: &mut Answer) {
    if answer.refusal == 11 {
        let [series, set, _] = answer.named;
        let [_, height_passes] = screened(full)[(series as usize - 1) * 5 + set as usize - 1];
        answer.named[2] = if height_passes { 1 } else { 2 };
    }
}

fn last_named(full: &Full, answer: &mut Answer) {
    let sets = screened(full);
    if let Some(last) = sets.iter().rposition(|passes| *passes != [true, true]) {
        let quantity = if sets[last][0] { 2 } else { 1 };
        answer.named = [last as u64 / 5 + 1, last as u64 % 5 + 1, quantity];
    }
}

/// q = m² + m has its root just below m + 1/2, and belongs to m.
fn rounded_up(full: &Full, answer: &mut Answer) {
    for (set, [one, two]) in full.readings.as_chunks().0.iter().enumerate() {
        let (dx, dy) = (two[0] - one[0], two[1] - one[1]);
        let m = distance(one, two);
        let tie = dx * dx + dy * dy == m * m + m && m > 0;
        let d = (m + i64::from(tie) - full.terms[0]).abs();
        if answer.is_accepted() && !passes(d, full.terms[2]) {
            let named = [set as u64 / 5 + 1, set as u64 % 5 + 1, 1];
            *answer = Answer {
                named,
                ..Answer::number(11)
            };
        }
    }
}

fn bound_beside_suspect(full: &Full, answer: &mut Answer) {
    if answer.refusal == 11 {
        set_figure(answer, H + BOUND, bound_h(full.terms[5]));
    }
}

fn by_29(full: &Full, answer: &mut Answer) {
    if answer.is_accepted() {
        let m = root(1_048_576 * full.sums.h as u64 / 43_500);
        set_figure(answer, S_H, m);
        set_figure(answer, H + DEVIATION, m);
    }
}

fn averaged(full: &Full, answer: &mut Answer) {
    if answer.is_accepted() {
        let m = shown(full.sums.xy() / 2);
        set_figure(answer, S_XY, m);
        set_figure(answer, XY + DEVIATION, m);
    }
}

fn nearest_figures(full: &Full, answer: &mut Answer) {
    if answer.is_accepted() {
        let m = shown(full.sums.x);
        // A figure past m + 1/2 has a double past 2·m + 1.
        let past = root(4 * (1_048_576 * full.sums.x as u64 / 42_000)) > 2 * m;
        set_figure(answer, S_X, m + u64::from(past));
    }
}

fn signed_zero(_: &Full, answer: &mut Answer) {
    if answer.is_accepted() && answer.words[S_Y] == 0 {
        answer.words[S_Y] = (-0.0_f64).to_bits();
    }
}

fn zero_is_absent(full: &Full, answer: &mut Answer) {
    let mut readings = full.readings.iter().enumerate();
    if readings.any(|(place, reading)| *reading == recipe::point(&full.terms, place)) {
        *answer = Answer::number(10);
    }
}
