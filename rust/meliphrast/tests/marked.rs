//! Document 01's marked examples through the wrapper.

mod common;

use common::{at, fill, filled, off, FIRST, TERMS};
use meliphrast::{
    evaluate_file, Axis, Comparison, Place, Quantity, Reading, Refusal, Register, Residual,
    Suspect, Verdict,
};

fn within(m: u64, b: u64) -> Verdict {
    let (deviation, bound) = (m as f64 / 1_024.0, b as f64 / 1_024.0);
    Verdict::Within { deviation, bound }
}

fn beyond(m: u64, b: u64) -> Verdict {
    let (deviation, bound) = (m as f64 / 1_024.0, b as f64 / 1_024.0);
    Verdict::Beyond { deviation, bound }
}

fn suspect(series: u64, set: u64, quantity: Quantity) -> Refusal {
    Refusal::Suspect(Suspect {
        series,
        set,
        quantity,
    })
}

#[test]
fn the_example_k5_and_k6() {
    for (x, h, xy, height) in [
        (126, 133, within(2355, 2361), within(2486, 2488)),
        (127, 133, beyond(2374, 2361), within(2486, 2488)),
        (126, 134, within(2355, 2361), beyond(2505, 2488)),
    ] {
        let given = filled(&[(FIRST, [x, 0, h])]).evaluate(1).unwrap();
        assert_eq!((given.xy, given.h), (xy, height));
        let (sheet, s_x, s_h) = (given.sheet, xy.deviation(), height.deviation());
        assert_eq!(
            [sheet.s_x, sheet.s_y, sheet.s_xy, sheet.s_h],
            [s_x, 0.0, s_x, s_h]
        );
        assert_eq!(given.passes(), xy.is_within() && height.is_within());
    }
}

#[test]
fn k1_and_k2_screening() {
    let place = at(2, 3, 2);
    assert!(filled(&[(place, [530, 0, 0])]).evaluate(1).is_ok());
    let refused = filled(&[(place, [531, 0, 0])]).evaluate(1);
    assert_eq!(refused, Err(suspect(2, 3, Quantity::Distance)));
    assert!(filled(&[(place, [0, 0, 883])]).evaluate(1).is_ok());
    let refused = filled(&[(place, [0, 0, 884])]).evaluate(1);
    assert_eq!(refused, Err(suspect(2, 3, Quantity::Height)));
}

/// D* lies 7 or 8 units past the distance D that is to come out; s 2 lets 7 pass and not 8.
#[test]
fn k3_and_k4_distances() {
    for (apart, distance) in [
        ([-166_490, 111_120], 200_166),
        ([0, 0], 0),
        ([1, 1], 1),
        ([2, 0], 2),
    ] {
        for (past, passes) in [(7, true), (8, false)] {
            let file = full_file(distance + past, 2, apart);
            assert_eq!(evaluate_file(&file).is_ok(), passes, "{apart:?} {past}");
        }
    }
}

/// The screening's s does not come into the figures: from s_xy 59 on d 206, K3's, passes.
#[test]
fn annex_a_three_times_over() {
    let thrice = evaluate_file(include_bytes!("../../../examples/annex_a_thrice.field")).unwrap();
    assert_eq!(thrice.xy, within(7452, 17712));
    assert_eq!(thrice.h, within(6331, 31106));
    assert!(thrice.passes());
    let at_limit = include_bytes!("../../../examples/annex_a_at_limit.field");
    assert_eq!(evaluate_file(at_limit), Ok(thrice));
    let suspected = include_bytes!("../../../examples/annex_a_suspect.field");
    let refused = suspect(1, 1, Quantity::Distance);
    assert_eq!(evaluate_file(suspected), Err(refused));
}

/// Thirty readings on their points, which are so far apart on x and y.
fn full_file(nominal: i64, s_xy: i64, [dx, dy]: [i64; 2]) -> Vec<u8> {
    let mut text = String::from("CONTENTS 4\nTERMS 1\nSERIES1 10\nSERIES2 10\nSERIES3 10\n");
    text += &format!("{nominal} 0 {s_xy} 250 20 20 0 0 0 {dx} {dy} 0\n");
    for place in Place::sheet() {
        let (x, y) = if place.point == 1 { (0, 0) } else { (dx, dy) };
        text += &format!("{} {} {x} {y} 0\n", place.set, place.point);
    }
    text.into_bytes()
}

#[test]
fn k7_equal_offsets() {
    let all = Place::sheet().map(|place| (place, [7, 7, 7]));
    let register = filled(&all.collect::<Vec<_>>());
    let given = register.evaluate(1).unwrap();
    assert_eq!((given.xy, given.h), (within(0, 2361), within(0, 2488)));
    let none = Residual { x: 0, y: 0, h: 0 };
    assert_eq!(register.residual(1, at(3, 5, 2)), Ok(none));
    assert_eq!(register.compare(1, 1, Axis::H), Err(Refusal::Zero));
}

#[test]
fn k8_comparison() {
    for (offset, same) in [
        (145, Comparison::Same),
        (146, Comparison::NotSame),
        (69, Comparison::Same),
        (68, Comparison::NotSame),
    ] {
        let mut register = filled(&[(at(3, 4, 2), [0, 0, offset])]);
        fill(&mut register, 16, &[(FIRST, [0, 0, 100])]);
        assert_eq!(register.compare(1, 16, Axis::H), Ok(same));
    }
}

#[test]
fn k9_kept_changes() {
    let mut register = Register::fresh();
    register.open(4, TERMS).unwrap();
    register.enter(4, FIRST, off(FIRST, [0; 3])).unwrap();
    for count in 2..=33 {
        register.correct(4, FIRST, off(FIRST, [count; 3])).unwrap();
        assert_eq!(register.changes(4), Ok(count.min(32) as u64));
    }
    for left in (0..32).rev() {
        assert_eq!(register.take_back(4), Ok(()));
        assert_eq!(register.changes(4), Ok(left));
    }
    assert_eq!(register.take_back(4), Err(Refusal::Nothing));
    assert_eq!(register.read(4, FIRST), Ok(off(FIRST, [0; 3])));
}

#[test]
fn k10_nearness() {
    let mut register = Register::fresh();
    register.open(1, TERMS).unwrap();
    let place = at(3, 5, 2);
    let far = off(place, [0, -100_001, 0]);
    assert_eq!(register.enter(1, place, far), Err(Refusal::Far));
    let near = off(place, [100_000, -100_000, 100_000]);
    assert_eq!(register.enter(1, place, near), Ok(()));
    assert_eq!(register.read(1, place), Ok(near));
}

#[test]
fn residuals_are_fifteen_fold() {
    let register = filled(&[(at(1, 2, 2), [4, -5, 6]), (at(3, 1, 2), [1, 1, 1])]);
    let (x, y, h) = (5 - 60, -4 + 75, 7 - 90);
    assert_eq!(register.residual(1, at(1, 2, 2)), Ok(Residual { x, y, h }));
    assert_eq!(
        register.read(1, at(1, 2, 2)),
        Ok(Reading {
            x: 100_004,
            y: -5,
            h: 6
        })
    );
}
