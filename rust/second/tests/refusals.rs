//! Each refusal exactly when it applies, the lowest number first, and no byte changed.

mod common;

use common::{enter_at, fill, filled, fresh_register, Offset, TERMS};
use second::register::{
    changes, compare, correct, evaluate, fresh, open, pass_list, read, residual, strike, take_back,
    withdraw,
};
use second::{Comparison, Count, Evaluation, Reading, LENGTH};

const SUSPECT_HEIGHT: Offset = ([1, 2, 1], [0, 0, -884]);

/// Runs a call that must be refused and checks that no byte changed.
fn refuses(register: &[u8], number: u64, call: impl FnOnce(&mut [u8]) -> u64) {
    let mut after = register.to_vec();
    assert_eq!(call(&mut after), number);
    assert!(after == register);
}

fn refuses_everything(register: &[u8], number: u64, book: u64) {
    refuses(register, number, |r| strike(r, book));
    refuses(register, number, |r| {
        enter_at(r, book, [1, 1, 1], [0, 0, 0])
    });
    refuses(register, number, |r| correct(r, book, 1, 1, 1, 0, 0, 0));
    refuses(register, number, |r| withdraw(r, book, 1, 1, 1));
    refuses(register, number, |r| take_back(r, book));
    let no_reading = Reading {
        refusal: number,
        ..Reading::default()
    };
    assert_eq!(read(register, book, 1, 1, 1), no_reading);
    assert_eq!(residual(register, book, 1, 1, 1), no_reading);
    let no_count = Count {
        refusal: number,
        count: 0,
    };
    assert_eq!(changes(register, book), no_count);
    let no_evaluation = Evaluation {
        refusal: number,
        ..Evaluation::default()
    };
    assert_eq!(evaluate(register, book), no_evaluation);
    let no_comparison = Comparison {
        refusal: number,
        ..Comparison::default()
    };
    assert_eq!(compare(register, book, 1, 1), no_comparison);
    assert_eq!(compare(register, 1, book, 2), no_comparison);
}

#[test]
fn register_of_a_wrong_length() {
    for length in [0, 1, LENGTH - 1, LENGTH + 1] {
        let register = vec![0; length];
        refuses(&register, 1, fresh);
        refuses(&register, 1, |r| open(r, 99, [0; 12]));
        refuses_everything(&register, 1, 99);
        let mut list = [7; 16];
        assert_eq!(pass_list(&register, &mut list).refusal, 1);
        assert_eq!(list, [7; 16]);
    }
}

#[test]
fn books_out_of_range() {
    let register = filled(&[]);
    for book in [0, 17, u64::MAX] {
        refuses(&register, 2, |r| open(r, book, [0; 12]));
        refuses_everything(&register, 2, book);
    }
}

#[test]
fn closed_books() {
    refuses_everything(&filled(&[]), 5, 2);
}

#[test]
fn places_out_of_range_come_before_closed() {
    let register = fresh_register();
    for [series, set, point] in [
        [0, 1, 1],
        [4, 1, 1],
        [1, 0, 1],
        [1, 6, 1],
        [1, 1, 0],
        [1, 1, 3],
    ] {
        let far = [i64::MAX; 3];
        refuses(&register, 2, |r| enter_at(r, 1, [series, set, point], far));
        refuses(&register, 2, |r| {
            correct(r, 1, series, set, point, i64::MIN, 0, 0)
        });
        refuses(&register, 2, |r| withdraw(r, 1, series, set, point));
        assert_eq!(read(&register, 1, series, set, point).refusal, 2);
        assert_eq!(residual(&register, 1, series, set, point).refusal, 2);
    }
    refuses(&register, 5, |r| enter_at(r, 1, [1, 1, 1], [i64::MIN; 3]));
}

#[test]
fn opening() {
    let register = filled(&[]);
    refuses(&register, 3, |r| open(r, 1, TERMS));
    refuses(&register, 3, |r| open(r, 1, [0; 12]));
    for (term, low, high) in [(0, 0, 500_001), (1, -500_001, 500_001)]
        .into_iter()
        .chain((2..6).map(|term| (term, 0, 10_001)))
        .chain((6..12).map(|term| (term, -100_000_000_001, 100_000_000_001)))
    {
        for value in [low, high, i64::MIN, i64::MAX] {
            let mut terms = TERMS;
            terms[term] = value;
            refuses(&register, 4, |r| open(r, 2, terms));
        }
    }
}

const FAR_OUT: i64 = 100_000_000_000;

#[test]
fn opening_at_the_ends_of_the_ranges() {
    let mut low = [-FAR_OUT; 12];
    low[..6].copy_from_slice(&[1, -500_000, 1, 1, 1, 1]);
    low[9] += 500_000;
    let mut high = [FAR_OUT; 12];
    high[..6].copy_from_slice(&[500_000, 500_000, 10_000, 10_000, 10_000, 10_000]);
    high[11] -= 500_000;
    for terms in [low, high] {
        let mut register = fresh_register();
        assert_eq!(open(&mut register, 16, terms), 0);
        let reading = [terms[6] + 100_000, terms[7] - 100_000, terms[8]];
        assert_eq!(enter_at(&mut register, 16, [1, 1, 1], reading), 0);
        let given = read(&register, 16, 1, 1, 1);
        assert_eq!([given.x, given.y, given.h], reading);
    }
}

#[test]
fn points_apart() {
    for axis in 0..3 {
        for (apart, refusal) in [(500_000, 0), (500_001, 4), (-500_000, 0), (-500_001, 4)] {
            let mut terms = [1, 0, 1, 1, 1, 1, 0, 0, 0, 0, 0, 0];
            terms[9 + axis] = apart;
            assert_eq!(open(&mut fresh_register(), 1, terms), refusal);
        }
    }
}

#[test]
fn filled_and_empty_come_before_far() {
    let mut register = fresh_register();
    assert_eq!(open(&mut register, 1, TERMS), 0);
    refuses(&register, 7, |r| correct(r, 1, 1, 1, 1, i64::MAX, 0, 0));
    refuses(&register, 7, |r| withdraw(r, 1, 1, 1, 1));
    assert_eq!(read(&register, 1, 1, 1, 1).refusal, 7);
    refuses(&register, 9, |r| take_back(r, 1));
    // Offset 0 is a reading, not an absent one.
    assert_eq!(enter_at(&mut register, 1, [1, 1, 1], [0, 0, 0]), 0);
    refuses(&register, 6, |r| enter_at(r, 1, [1, 1, 1], [i64::MIN; 3]));
    for far in [i64::MIN, i64::MAX, -100_001, 100_001] {
        refuses(&register, 8, |r| correct(r, 1, 1, 1, 1, 0, far, 0));
        refuses(&register, 8, |r| enter_at(r, 1, [1, 2, 1], [0, 0, far]));
    }
}

#[test]
fn short_comes_before_suspect() {
    let mut register = filled(&[SUSPECT_HEIGHT]);
    fill(&mut register, 2, &[]);
    assert_eq!(withdraw(&mut register, 2, 3, 5, 2), 0);
    assert_eq!(evaluate(&register, 2).refusal, 10);
    assert_eq!(residual(&register, 2, 1, 1, 1).refusal, 10);
    assert_eq!(compare(&register, 1, 2, 1).refusal, 10);
    assert_eq!(compare(&register, 2, 1, 1).refusal, 10);
    assert_eq!(compare(&register, 3, 2, 1).refusal, 5);
    assert_eq!(compare(&register, 2, 3, 3).refusal, 2);
    assert_eq!(compare(&register, 2, 2, 0).refusal, 2);
    // A residual asks for all 30 readings only, suspect or not.
    assert_eq!(residual(&register, 1, 1, 2, 1).h, -884 + 15 * 884);
}

#[test]
fn suspect_names_the_first_book_and_set() {
    let mut register = filled(&[
        SUSPECT_HEIGHT,
        ([1, 2, 2], [600, 0, 0]),
        ([1, 3, 1], [600, 0, 0]),
    ]);
    fill(&mut register, 2, &[([3, 5, 2], [0, 0, 900])]);
    fill(&mut register, 3, &[]);
    let named = |first, second| {
        let given = compare(&register, first, second, 2);
        [
            given.refusal,
            given.series,
            given.set,
            given.quantity,
            given.same,
        ]
    };
    assert_eq!(named(1, 2), [11, 1, 2, 1, 0]);
    assert_eq!(named(2, 1), [11, 3, 5, 2, 0]);
    assert_eq!(named(3, 1), [11, 1, 2, 1, 0]);
    // SUSPECT in the first book comes before ZERO in the second.
    assert_eq!(named(2, 3), [11, 3, 5, 2, 0]);
    assert_eq!(named(3, 3), [12, 0, 0, 0, 0]);
}

#[test]
fn zero_asks_the_second_book_on_that_axis() {
    let mut register = filled(&[([1, 1, 1], [0, 5, 0])]);
    fill(&mut register, 2, &[([1, 1, 2], [0, 0, 5])]);
    let given = |first, second, axis| {
        let given = compare(&register, first, second, axis);
        (given.refusal, given.same)
    };
    assert_eq!(given(1, 1, 1), (0, 1));
    assert_eq!(given(1, 1, 2), (12, 0));
    assert_eq!(given(2, 1, 1), (0, 0));
    assert_eq!(given(1, 2, 1), (12, 0));
    assert_eq!(given(1, 2, 2), (0, 0));
    assert_eq!(given(2, 2, 2), (0, 1));
}

#[test]
fn pass_list_and_its_room() {
    let mut register = fresh_register();
    for book in [16, 3, 9] {
        fill(&mut register, book, &[([1, 1, 1], [126, 0, 133])]);
    }
    fill(&mut register, 1, &[([1, 1, 1], [127, 0, 0])]);
    fill(&mut register, 2, &[([1, 1, 1], [0, 0, 134])]);
    fill(&mut register, 4, &[SUSPECT_HEIGHT]);
    assert_eq!(open(&mut register, 5, TERMS), 0);
    let mut list = [0xEE; 5];
    assert_eq!(
        pass_list(&register, &mut list),
        Count {
            refusal: 0,
            count: 3
        }
    );
    assert_eq!(list, [3, 9, 16, 0xEE, 0xEE]);
    let mut exact = [0; 3];
    assert_eq!(pass_list(&register, &mut exact).count, 3);
    assert_eq!(exact, [3, 9, 16]);
    let mut small = [0xEE; 2];
    assert_eq!(
        pass_list(&register, &mut small),
        Count {
            refusal: 13,
            count: 0
        }
    );
    assert_eq!(small, [0xEE; 2]);
    assert_eq!(
        pass_list(&fresh_register(), &mut []),
        Count {
            refusal: 0,
            count: 0
        }
    );
}

#[test]
fn striking_frees_the_number() {
    let mut register = filled(&[]);
    fill(&mut register, 2, &[]);
    assert_eq!(strike(&mut register, 1), 0);
    assert!(register[..LENGTH / 16].iter().all(|byte| *byte == 0));
    assert_eq!(changes(&register, 1).refusal, 5);
    assert_eq!(changes(&register, 2).count, 30);
    assert_eq!(open(&mut register, 1, TERMS), 0);
    assert_eq!(take_back(&mut register, 1), 9);
    assert_eq!(fresh(&mut register), 0);
    assert!(register.iter().all(|byte| *byte == 0));
}
