//! The image: its published layout, and registers that are not in form.

mod common;

use common::{enter_at, fill, fresh_register, Dice, TERMS};
use second::register::{changes, correct, in_form, open, strike, take_back, withdraw};
use second::{alone, Words, BOOK_WORDS, LENGTH};

const BIAS: i64 = 1_000_000_000_000;
const FIRST_READING: usize = 13;
const KEPT: usize = 103;
const FIRST_CHANGE: usize = 104;

fn word(register: &[u8], at: usize) -> u64 {
    u64::from_le_bytes(register[at * 8..at * 8 + 8].try_into().unwrap())
}

fn with(register: &[u8], changed: &[(usize, u64)]) -> Vec<u8> {
    let mut register = register.to_vec();
    for (at, value) in changed {
        register[at * 8..at * 8 + 8].copy_from_slice(&value.to_le_bytes());
    }
    register
}

const fn stored(length: i64) -> u64 {
    (length + BIAS) as u64
}

/// Enter, correct and withdraw at the second place, then enter at the last.
fn busy() -> Vec<u8> {
    let mut register = fresh_register();
    assert_eq!(open(&mut register, 1, TERMS), 0);
    assert_eq!(enter_at(&mut register, 1, [1, 1, 2], [100_001, 2, 3]), 0);
    assert_eq!(correct(&mut register, 1, 1, 1, 2, 100_004, 5, -6), 0);
    assert_eq!(withdraw(&mut register, 1, 1, 1, 2), 0);
    assert_eq!(enter_at(&mut register, 1, [3, 5, 2], [99_999, 0, 7]), 0);
    register
}

#[test]
fn layout() {
    let register = busy();
    assert_eq!((LENGTH, BOOK_WORDS), (29_696, 232));
    assert_eq!(word(&register, 0), 1);
    for (at, term) in (1..).zip(TERMS) {
        assert_eq!(word(&register, at), stored(term));
    }
    let mut expected = vec![0; BOOK_WORDS - FIRST_READING];
    expected[29 * 3..90].copy_from_slice(&[99_999, 0, 7].map(stored));
    expected[90] = 4;
    let newest_first = [
        (29, [0; 3]),
        (1, [100_004, 5, -6].map(stored)),
        (1, [100_001, 2, 3].map(stored)),
        (1, [0; 3]),
    ];
    for (change, (place, before)) in expected[91..].chunks_mut(4).zip(newest_first) {
        change[0] = place;
        change[1..].copy_from_slice(&before);
    }
    let given: Vec<u64> = (FIRST_READING..BOOK_WORDS)
        .map(|at| word(&register, at))
        .collect();
    assert_eq!(given, expected);
    assert!(register[BOOK_WORDS * 8..].iter().all(|byte| *byte == 0));
}

#[test]
fn taken_back_changes_leave_no_trace() {
    let mut register = busy();
    for _ in 0..4 {
        assert_eq!(take_back(&mut register, 1), 0);
    }
    let mut opened = fresh_register();
    assert_eq!(open(&mut opened, 1, TERMS), 0);
    assert!(register == opened);
}

/// Words that, put into `busy`, leave it out of form.
const WRONG_WORDS: &[&[(usize, u64)]] = &[
    &[(0, 0)],
    &[(0, 2)],
    &[(0, u64::MAX)],
    &[(1, 100_000)],
    &[(1, stored(0))],
    &[(2, stored(500_001))],
    &[(7, stored(-1_000_000))],
    &[(12, u64::MAX)],
    &[(FIRST_READING, stored(0))],
    &[
        (FIRST_READING, 1),
        (FIRST_READING + 1, 1),
        (FIRST_READING + 2, 1),
    ],
    &[(FIRST_READING + 89, 0)],
    &[(FIRST_READING + 89, stored(100_001))],
    &[(FIRST_READING + 88, u64::MAX)],
    &[(KEPT, 3)],
    &[(KEPT, 33)],
    &[(KEPT, u64::MAX)],
    &[(FIRST_CHANGE, 30)],
    &[(FIRST_CHANGE, u64::MAX)],
    &[(FIRST_CHANGE + 5, stored(200_001))],
    &[(FIRST_CHANGE + 16, 1)],
    &[(231, 1)],
    &[(232 + 5, 1)],
    &[(15 * 232, 1)],
    &[(3711, 1 << 63)],
];

#[test]
fn words_out_of_form() {
    let register = busy();
    for changed in WRONG_WORDS {
        let damaged = with(&register, changed);
        assert!(!in_form(&damaged), "{changed:?}");
        let mut after = damaged.clone();
        assert_eq!(strike(&mut after, 1), 1, "{changed:?}");
        assert!(after == damaged);
    }
}

#[test]
fn changes_that_cannot_be_taken_back() {
    let register = busy();
    // The newest change is an entry at the last place, so that place must be filled.
    let last = FIRST_READING + 29 * 3;
    assert!(!in_form(&with(
        &register,
        &[(last, 0), (last + 1, 0), (last + 2, 0)]
    )));
    // Emptiness before a change that left emptiness, met after one step back.
    let before = FIRST_CHANGE + 5;
    assert!(!in_form(&with(
        &register,
        &[(before, 0), (before + 1, 0), (before + 2, 0)]
    )));
    // Nearness goes by the place's own point.
    assert!(!in_form(&with(&register, &[(FIRST_CHANGE + 4, 2)])));
    // Fewer kept changes than readings is in form: a book read from a file is so.
    let forgotten: Vec<_> = (KEPT..KEPT + 17).map(|at| (at, 0)).collect();
    assert!(in_form(&with(&register, &forgotten)));
    // A kept correction of a reading that stands now is in form as well.
    let corrected = [
        (FIRST_CHANGE + 1, 1),
        (FIRST_CHANGE + 2, 2),
        (FIRST_CHANGE + 3, 3),
    ];
    let corrected = corrected.map(|(at, length)| (at, stored(length)));
    assert!(in_form(&with(&register, &corrected)));
}

#[test]
fn an_accepted_image_is_the_image_of_its_state() {
    let mut register = busy();
    fill(&mut register, 16, &[]);
    let mut dice = Dice::new(20_261);
    let mut accepted = 0;
    for _ in 0..20_000 {
        let mut damaged = register.clone();
        let book = [0, 15][dice.roll(2) as usize];
        let at = book * BOOK_WORDS * 8 + dice.roll(BOOK_WORDS as u64 * 8) as usize;
        damaged[at] ^= 1 << dice.roll(8);
        if in_form(&damaged) {
            accepted += 1;
            // A change and its take-back write the whole book anew, unless one is pushed out.
            let mut after = damaged.clone();
            let number = book as u64 + 1;
            assert!(changes(&after, number).count < 32);
            assert_eq!(withdraw(&mut after, number, 3, 5, 2), 0);
            assert_eq!(take_back(&mut after, number), 0);
            assert!(after == damaged);
        }
    }
    assert!(accepted > 1_000);
}

#[test]
fn a_book_by_itself() {
    let register = busy();
    let book: Words = std::array::from_fn(|at| word(&register, at));
    assert_eq!(alone::enter(book, 3, 5, 2, [0, 0, 0]), (book, 6));
    assert_eq!(alone::enter(book, 1, 1, 1, [100_001, 0, 0]), (book, 8));
    assert_eq!(alone::enter(book, 0, 1, 1, [0, 0, 0]), (book, 2));
    assert_eq!(alone::correct(book, 1, 1, 1, [0, 0, 0]), (book, 7));
    assert_eq!(alone::withdraw(book, 1, 1, 1), (book, 7));
    assert_eq!(alone::evaluate(&book).refusal, 10);
    let (next, refusal) = alone::enter(book, 1, 1, 1, [-5, 6, 7]);
    assert_eq!(refusal, 0);
    assert_eq!(alone::take_back(next), (book, 0));
    let (next, refusal) = alone::correct(next, 1, 1, 1, [-5, 6, 7]);
    assert_eq!((next[KEPT], refusal), (6, 0));
    let closed = [0; BOOK_WORDS];
    assert_eq!(alone::take_back(closed), (closed, 5));
    assert_eq!(alone::enter(closed, 1, 6, 1, [0, 0, 0]), (closed, 2));
    assert_eq!(alone::evaluate(&closed).refusal, 5);
    let mut broken = book;
    broken[KEPT] = 3;
    assert_eq!(alone::enter(broken, 9, 9, 9, [0, 0, 0]), (broken, 1));
    assert_eq!(alone::evaluate(&broken).refusal, 1);
}
