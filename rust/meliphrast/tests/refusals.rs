//! Each refusal once, by number, name and text; a refusal from its numbers.

mod common;

use common::{at, fill, filled, off, FIRST, TERMS};
use meliphrast::{evaluate_file, Axis, Quantity, Refusal, Register, Suspect, Terms, BOOKS, LENGTH};
use std::error::Error;

fn text<T: std::fmt::Debug>(outcome: Result<T, Refusal>) -> String {
    let refusal = outcome.unwrap_err();
    let source: Box<dyn Error> = Box::new(refusal);
    assert!(source
        .to_string()
        .starts_with(&refusal.number().to_string()));
    assert!(source.to_string().contains(refusal.name()));
    source.to_string()
}

/// By the calls of the test below.
const TEXTS: [&str; 13] = [
    "1 REGISTER: wrong length, or not in form",
    "2 PLACE: book not 1 to 16, place out of range, or axis not 1 or 2",
    "3 OPEN: opening an open book",
    "4 TERMS: a term out of its range",
    "5 CLOSED: a call on a closed book, other than opening it",
    "6 FILLED: entering at a filled place",
    "8 FAR: a coordinate more than 100,000 from its point",
    "12 ZERO: comparison whose second book has sum 0 on that axis",
    "13 ROOM: list shorter than the number of books on it",
    "14 FORM: file not of the form",
    "7 EMPTY: correcting, withdrawing or reading an empty place",
    "9 NOTHING: taking back when there is no change to take back",
    "10 SHORT: residual, evaluation or comparison with any of 30 places empty",
];

#[test]
fn every_refusal_says_its_number_its_name_and_when() {
    let mut full = filled(&[]);
    let mut closed = Register::fresh();
    let reading = off(FIRST, [0; 3]);
    let far = off(FIRST, [0, 0, 100_001]);
    let terms = Terms { s_h: 0, ..TERMS };
    let mut texts = vec![
        text(Register::over([0; 5]).check()),
        text(full.read(1, at(1, 6, 1))),
        text(full.open(1, TERMS)),
        text(closed.open(1, terms)),
        text(closed.strike(1)),
        text(full.enter(1, FIRST, reading)),
        text(full.correct(1, FIRST, far)),
        text(full.compare(1, 1, Axis::Xy)),
        text(full.pass_list(&mut [])),
        text(evaluate_file(b"CONTENTS 5\n")),
    ];
    closed.open(1, TERMS).unwrap();
    texts.push(text(closed.withdraw(1, FIRST)));
    texts.push(text(closed.take_back(1)));
    texts.push(text(closed.evaluate(1)));
    assert_eq!(texts, TEXTS);
}

#[test]
fn suspect_says_where_and_what() {
    let told = "11 SUSPECT: evaluation or comparison of a book that fails screening";
    let register = filled(&[(at(2, 3, 1), [600, 0, 900])]);
    let named = format!("{told} (series 2, set 3, distance)");
    assert_eq!(text(register.evaluate(1)), named);
    let mut register = filled(&[]);
    fill(&mut register, 2, &[(at(3, 5, 1), [0, 0, 900])]);
    let named = format!("{told} (series 3, set 5, height)");
    assert_eq!(text(register.compare(1, 2, Axis::Xy)), named);
}

#[test]
fn a_refusal_comes_back_from_its_numbers() {
    for number in 1..=14 {
        let refusal = Refusal::from_numbers(number, [2, 3, 1]).unwrap();
        assert_eq!(refusal.number(), number);
    }
    let (series, set, quantity) = (3, 5, Quantity::Height);
    let suspect = Suspect {
        series,
        set,
        quantity,
    };
    let named = Refusal::from_numbers(11, [3, 5, 2]);
    assert_eq!(named, Some(Refusal::Suspect(suspect)));
    for number in [0, 15, 1 << 32 | 8, u64::MAX] {
        assert_eq!(Refusal::from_numbers(number, [1, 1, 1]), None);
    }
    for quantity in [0, 3, 1 << 32 | 1] {
        assert_eq!(Refusal::from_numbers(11, [1, 1, quantity]), None);
    }
}

/// Every call on a lent slice of another length, none of which may panic.
#[test]
fn a_wrong_length_is_refused_by_the_library() {
    for length in [0, 1, LENGTH - 1, LENGTH + 1, 2 * LENGTH] {
        let mut bytes = vec![0; length];
        let mut register = Register::over(&mut bytes);
        let reading = off(FIRST, [0; 3]);
        let refusals = [
            register.check(),
            register.make_fresh(),
            register.open(1, TERMS),
            register.strike(1),
            register.enter(1, FIRST, reading),
            register.correct(1, FIRST, reading),
            register.withdraw(1, FIRST),
            register.take_back(1),
            register.read(1, FIRST).map(drop),
            register.residual(1, FIRST).map(drop),
            register.changes(1).map(drop),
            register.evaluate(1).map(drop),
            register.compare(1, 2, Axis::H).map(drop),
            register.pass_list(&mut [0; BOOKS]).map(drop),
        ];
        assert_eq!(refusals, [Err(Refusal::Register); 14]);
        assert!(bytes.iter().all(|byte| *byte == 0));
    }
}

#[test]
fn a_refused_list_is_left_alone() {
    let mut register = filled(&[]);
    fill(&mut register, 16, &[]);
    let mut list = [170; 3];
    assert_eq!(register.pass_list(&mut list[..1]), Err(Refusal::Room));
    assert_eq!(list, [170; 3]);
    assert_eq!(register.pass_list(&mut list), Ok(&[1, 16][..]));
    assert_eq!(register.passing(), Ok(vec![1, 16]));
    assert_eq!(list, [1, 16, 170]);
}
