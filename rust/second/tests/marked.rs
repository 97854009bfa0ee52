//! Document 01's marked examples and the edges of the verdicts.

mod common;

use common::{enter_at, fill, filled, fresh_register, places, Offset, TERMS};
use second::register::{changes, compare, correct, evaluate, open, residual, take_back};
use second::root::{nearest_root, root};
use second::screening::{distance, passes};
use second::Verdict;

const FIRST: [u64; 3] = [1, 1, 1];

fn verdict(within: u64, m: u64, b: u64) -> Verdict {
    Verdict {
        within,
        deviation: m as f64 / 1024.0,
        bound: b as f64 / 1024.0,
    }
}

fn three_offsets(axis: usize, offsets: [i64; 3]) -> Vec<Offset> {
    let at = |set: u64, offset: i64| {
        let mut by = [0; 3];
        by[axis] = offset;
        ([1, set, 1], by)
    };
    (1..)
        .zip(offsets)
        .map(|(set, offset)| at(set, offset))
        .collect()
}

#[test]
fn k1_distance_screening() {
    assert!(passes(530, 150) && !passes(531, 150));
    for d in [530, -530] {
        assert_eq!(evaluate(&filled(&[([2, 3, 2], [d, 0, 0])]), 1).refusal, 0);
    }
    for d in [531, -531] {
        let refused = evaluate(&filled(&[([2, 3, 2], [d, 0, 0])]), 1);
        let named = (refused.series, refused.set, refused.quantity);
        assert_eq!((refused.refusal, named), (11, (2, 3, 1)));
    }
}

#[test]
fn k2_height_screening() {
    assert!(passes(883, 250) && !passes(884, 250));
    assert_eq!(evaluate(&filled(&[(FIRST, [0, 0, 883])]), 1).refusal, 0);
    let refused = evaluate(&filled(&[(FIRST, [0, 0, 884])]), 1);
    let named = (refused.series, refused.set, refused.quantity);
    assert_eq!((refused.refusal, named), (11, (1, 1, 2)));
}

#[test]
fn k3_annex_a_first_set() {
    let first = [-676_374_330, -639_455_540, 3_207_320];
    let second = [-676_540_820, -639_344_420, 3_207_810];
    assert_eq!(distance(&first, &second), 200_166);
    assert_eq!(distance(&[0; 3], &[-166_490, 111_120, 0]) - 199_960, 206);
}

#[test]
fn k4_nearest_roots() {
    assert_eq!([0, 2, 3].map(nearest_root), [0, 1, 2]);
    for m in (1..2_000).chain(989_000..990_000) {
        let last_below = m * m - m;
        assert_eq!(nearest_root(last_below), m - 1);
        assert_eq!(nearest_root(last_below + 1), m);
        assert_eq!(nearest_root(m * m + m), m);
    }
}

#[test]
fn roots_of_great_numbers() {
    for side in [1, 2, 3, 94_906_265, 94_906_267, 4_294_967_295u64] {
        assert_eq!(root(side * side), side);
        assert_eq!(root(side * side - 1), side - 1);
        assert_eq!(root(side * side + 1), side);
    }
    assert_eq!((root(0), root(u64::MAX)), (0, 4_294_967_295));
}

#[test]
fn the_example_k5_and_k6() {
    for (x, h, xy_answer, h_answer) in [
        (126, 133, verdict(1, 2355, 2361), verdict(1, 2486, 2488)),
        (127, 133, verdict(0, 2374, 2361), verdict(1, 2486, 2488)),
        (126, 134, verdict(1, 2355, 2361), verdict(0, 2505, 2488)),
    ] {
        let given = evaluate(&filled(&[(FIRST, [x, 0, h])]), 1);
        assert_eq!((given.refusal, given.xy, given.h), (0, xy_answer, h_answer));
        assert_eq!(
            (given.sheet.s_x, given.sheet.s_y),
            (xy_answer.deviation, 0.0)
        );
        let (s_xy, s_h) = (given.sheet.s_xy, given.sheet.s_h);
        assert_eq!((s_xy, s_h), (xy_answer.deviation, h_answer.deviation));
    }
}

#[test]
fn verdicts_at_their_bounds() {
    let at_bound = evaluate(&filled(&three_offsets(0, [2, -53, 111])), 1);
    assert_eq!(at_bound.xy, verdict(1, 2361, 2361));
    let beyond = evaluate(&filled(&three_offsets(1, [2, -126, -20])), 1);
    assert_eq!(beyond.xy, verdict(0, 2361, 2361));
    let at_bound = evaluate(&filled(&three_offsets(2, [2, -76, 104])), 1);
    assert_eq!(at_bound.h, verdict(1, 2488, 2488));
    let beyond = evaluate(&filled(&three_offsets(2, [0, -132, -29])), 1);
    assert_eq!(beyond.h, verdict(0, 2488, 2488));
}

#[test]
fn k7_equal_offsets_have_no_deviation() {
    let offsets: Vec<Offset> = places()
        .filter(|place| place[2] == 1)
        .map(|place| (place, [7, 7, 7]))
        .collect();
    let register = filled(&offsets);
    let given = evaluate(&register, 1);
    assert_eq!(
        (given.xy, given.h),
        (verdict(1, 0, 2361), verdict(1, 0, 2488))
    );
    let none = residual(&register, 1, 3, 5, 1);
    assert_eq!((none.refusal, none.x, none.y, none.h), (0, 0, 0, 0));
}

#[test]
fn residuals_are_mean_minus_reading_times_fifteen() {
    let register = filled(&[([1, 2, 2], [4, -5, 6]), ([3, 1, 2], [1, 1, 1])]);
    let own = residual(&register, 1, 1, 2, 2);
    assert_eq!([own.x, own.y, own.h], [5 - 60, -4 + 75, 7 - 90]);
    let other = residual(&register, 1, 2, 2, 2);
    assert_eq!([other.x, other.y, other.h], [5, -4, 7]);
    let first_point = residual(&register, 1, 1, 2, 1);
    assert_eq!([first_point.x, first_point.y, first_point.h], [0, 0, 0]);
}

#[test]
fn k8_comparison_of_heights() {
    for (offset, same) in [(145, 1), (146, 0), (69, 1), (68, 0)] {
        let mut register = filled(&[([2, 2, 2], [0, 0, offset])]);
        fill(&mut register, 9, &[(FIRST, [0, 0, 100])]);
        let given = compare(&register, 1, 9, 2);
        assert_eq!((given.refusal, given.same), (0, same), "offset {offset}");
    }
}

#[test]
fn comparison_of_positions() {
    // 100·e² lies between 59·100² and 170·100² for e from 77 to 130.
    for (offset, same) in [(130, 1), (131, 0), (77, 1), (76, 0)] {
        let mut register = filled(&[([2, 2, 2], [0, offset, 0])]);
        fill(&mut register, 16, &[(FIRST, [100, 0, 0])]);
        let given = compare(&register, 1, 16, 1);
        assert_eq!((given.refusal, given.same), (0, same), "offset {offset}");
    }
}

#[test]
fn k9_only_32_changes_are_kept() {
    let mut register = fresh_register();
    assert_eq!(open(&mut register, 4, TERMS), 0);
    assert_eq!(enter_at(&mut register, 4, FIRST, [0, 0, 0]), 0);
    for count in 2..=33 {
        assert_eq!(correct(&mut register, 4, 1, 1, 1, 0, 0, 0), 0);
        assert_eq!(changes(&register, 4).count, count.min(32));
    }
    for left in (0..32).rev() {
        assert_eq!(take_back(&mut register, 4), 0);
        assert_eq!(changes(&register, 4).count, left);
    }
    let before = register.clone();
    assert_eq!(take_back(&mut register, 4), 9);
    assert!(register == before);
}

#[test]
fn k10_nearness() {
    for axis in 0..3 {
        for (offset, refusal) in [(100_000, 0), (-100_000, 0), (100_001, 8), (-100_001, 8)] {
            let mut register = fresh_register();
            assert_eq!(open(&mut register, 1, TERMS), 0);
            let mut reading = [100_000, 0, 0];
            reading[axis] += offset;
            assert_eq!(enter_at(&mut register, 1, [3, 5, 2], reading), refusal);
        }
    }
}
