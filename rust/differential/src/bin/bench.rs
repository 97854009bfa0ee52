//! The proved library timed against the second implementation, in one run and turn about.
//!
//! Both are optimised for speed by LLVM; the library is called through the boundary, the second
//! implementation is compiled into this program. The rounds are many and short, and the ratio is
//! the median of what each round's two times give: they lie milliseconds apart, so that a machine
//! that is slower for a while is slower for both.

use meliphrast::{boundary, BOOKS, LENGTH};
use second::register as written_again;
use std::hint::black_box;
use std::time::Instant;

const ROUNDS: u64 = 100;
const CORRECTIONS: u64 = 100_000;
const TERMS: [i64; 12] = [100_000, 0, 150, 250, 20, 20, 0, 0, 0, 100_000, 0, 0];
const EXAMPLE: &[u8] = include_bytes!("../../../../examples/example.field");

type Work = Box<dyn FnMut(u64)>;

/// The same work done by each, so many turns a round; the number tells one turn from another.
struct Case {
    name: &'static str,
    turns: u64,
    library: Work,
    second: Work,
}

fn main() {
    let register = full_register();
    println!("Sixteen full books, 32 changes kept in each, but in the last two rows.");
    println!("Medians of {ROUNDS} rounds.\n");
    println!("| Work | library | second | ratio |\n|---|---|---|---|");
    for case in [
        check("the form check apart", &register),
        read(&register),
        changes(&register),
        residual(&register),
        evaluate(&register),
        compare(&register),
        pass_list(&register),
        file(),
        fresh(&register),
        strike_and_open(&register),
        withdraw_and_enter(&register),
        take_back_and_correct(&register),
    ] {
        tell_case(case);
    }
    let case = correct_and_evaluate(&register);
    let (name, turns) = (case.name, case.turns);
    let rounds = timed(case);
    tell_turn(name, turns, &rounds);
    tell_whole("100,000 corrections, each evaluated", &rounds);
    tell_case(check(
        "the form check, sixteen open books without a reading",
        &empty_register(),
    ));
    tell_case(check("the form check, sixteen closed books", &[0; LENGTH]));
}

fn tell_case(case: Case) {
    let (name, turns) = (case.name, case.turns);
    tell_turn(name, turns, &timed(case));
}

/// By the turn: the medians.
fn tell_turn(name: &str, turns: u64, rounds: &[[f64; 2]]) {
    let [library, second] =
        [0, 1].map(|side| median(rounds.iter().map(|times| times[side])) / turns as f64);
    tell(name, library, second, rounds);
}

/// All rounds together.
fn tell_whole(name: &str, rounds: &[[f64; 2]]) {
    let [library, second] = [0, 1].map(|side| rounds.iter().map(|times| times[side]).sum());
    tell(name, library, second, rounds);
}

fn tell(name: &str, library: f64, second: f64, rounds: &[[f64; 2]]) {
    let ratio = median(rounds.iter().map(|[library, second]| library / second));
    let [library, second] = [library, second].map(time);
    println!("| {name} | {library} | {second} | {ratio:.2} |");
}

fn median(values: impl Iterator<Item = f64>) -> f64 {
    let mut values: Vec<f64> = values.collect();
    values.sort_by(f64::total_cmp);
    values[values.len() / 2]
}

fn time(nanoseconds: f64) -> String {
    if nanoseconds < 1e6 {
        format!("{:.2} µs", nanoseconds / 1e3)
    } else {
        format!("{:.0} ms", nanoseconds / 1e6)
    }
}

/// Nanoseconds of each round, the library's and the second implementation's.
fn timed(case: Case) -> Vec<[f64; 2]> {
    let (mut sides, turns) = ([case.library, case.second], case.turns);
    (0..ROUNDS)
        .map(|number| {
            // Turn about here too, in case it matters who goes first.
            let first = number as usize % 2;
            let mut times = [0.0; 2];
            for side in [first, 1 - first] {
                times[side] = round(&mut sides[side], number * turns..(number + 1) * turns);
            }
            times
        })
        .collect()
}

fn round(work: &mut Work, turns: std::ops::Range<u64>) -> f64 {
    let start = Instant::now();
    turns.for_each(work);
    start.elapsed().as_nanos() as f64
}

/// Every book open, and nothing in it.
fn empty_register() -> Vec<u8> {
    let mut register = vec![0; LENGTH];
    for book in 1..=BOOKS as u64 {
        assert_eq!(boundary::open(&mut register, book, TERMS), 0);
    }
    register
}

/// Every book full, with as many changes kept as can be.
fn full_register() -> Vec<u8> {
    let mut register = vec![0; LENGTH];
    for book in 1..=BOOKS as u64 {
        assert_eq!(boundary::open(&mut register, book, TERMS), 0);
        for turn in 0..30 {
            let (place, reading) = correction(turn);
            assert_eq!(boundary::enter(&mut register, book, place, reading), 0);
        }
        for turn in 30..64 {
            let (place, reading) = correction(turn);
            assert_eq!(boundary::correct(&mut register, book, place, reading), 0);
        }
    }
    register
}

/// A place and a reading a few units off its point, another each turn.
fn correction(turn: u64) -> ([u64; 3], [i64; 3]) {
    let (index, offset) = (turn % 30, turn as i64 % 37 - 18);
    let place = [index / 10 + 1, index % 10 / 2 + 1, index % 2 + 1];
    let x = if place[2] == 2 { 100_000 } else { 0 };
    (place, [x + offset, -offset, offset / 2])
}

fn book_of(turn: u64) -> u64 {
    turn % BOOKS as u64 + 1
}

/// Work on a register of its own for each side.
fn on_register(
    name: &'static str,
    turns: u64,
    register: &[u8],
    mut library: impl FnMut(&mut [u8], u64) + 'static,
    mut second: impl FnMut(&mut [u8], u64) + 'static,
) -> Case {
    let (mut ours, mut theirs) = (register.to_vec(), register.to_vec());
    Case {
        name,
        turns,
        library: Box::new(move |turn| library(black_box(&mut ours), turn)),
        second: Box::new(move |turn| second(black_box(&mut theirs), turn)),
    }
}

/// An accepted answer, all of which has to be worked out.
macro_rules! accepted {
    ($answer:expr) => {
        assert_eq!(black_box($answer).refusal, 0)
    };
}

fn check(name: &'static str, register: &[u8]) -> Case {
    on_register(
        name,
        5_000,
        register,
        |register, _| assert_eq!(boundary::check(register), 0),
        |register, _| assert!(written_again::in_form(register)),
    )
}

fn read(register: &[u8]) -> Case {
    on_register(
        "one call: read a place",
        5_000,
        register,
        |register, turn| {
            let (place, _) = correction(turn);
            accepted!(boundary::read(register, book_of(turn), place));
        },
        |register, turn| {
            let ([a, b, c], _) = correction(turn);
            accepted!(written_again::read(register, book_of(turn), a, b, c));
        },
    )
}

fn changes(register: &[u8]) -> Case {
    on_register(
        "how many can be taken back",
        5_000,
        register,
        |register, turn| accepted!(boundary::changes(register, book_of(turn))),
        |register, turn| accepted!(written_again::changes(register, book_of(turn))),
    )
}

fn residual(register: &[u8]) -> Case {
    on_register(
        "residual",
        5_000,
        register,
        |register, turn| {
            let (place, _) = correction(turn);
            accepted!(boundary::residual(register, book_of(turn), place));
        },
        |register, turn| {
            let ([a, b, c], _) = correction(turn);
            accepted!(written_again::residual(register, book_of(turn), a, b, c));
        },
    )
}

fn evaluate(register: &[u8]) -> Case {
    on_register(
        "evaluate",
        5_000,
        register,
        |register, turn| accepted!(boundary::evaluate(register, book_of(turn))),
        |register, turn| accepted!(written_again::evaluate(register, book_of(turn))),
    )
}

fn compare(register: &[u8]) -> Case {
    let books_and_axis = |turn| (book_of(turn), book_of(turn + 1), turn % 2 + 1);
    on_register(
        "compare",
        5_000,
        register,
        move |register, turn| {
            let (first, second, axis) = books_and_axis(turn);
            accepted!(boundary::compare(register, first, second, axis));
        },
        move |register, turn| {
            let (first, second, axis) = books_and_axis(turn);
            accepted!(written_again::compare(register, first, second, axis));
        },
    )
}

fn pass_list(register: &[u8]) -> Case {
    on_register(
        "pass list",
        2_000,
        register,
        |register, _| {
            let mut list = [0; BOOKS];
            accepted!(boundary::pass_list(register, &mut list));
            black_box(list);
        },
        |register, _| {
            let mut list = [0; BOOKS];
            accepted!(written_again::pass_list(register, &mut list));
            black_box(list);
        },
    )
}

fn file() -> Case {
    Case {
        name: "read and evaluate a file",
        turns: 10_000,
        library: Box::new(|_| accepted!(boundary::evaluate_file(black_box(EXAMPLE)))),
        second: Box::new(|_| accepted!(second::file::evaluate_file(black_box(EXAMPLE)))),
    }
}

fn fresh(register: &[u8]) -> Case {
    on_register(
        "a fresh register",
        10_000,
        register,
        |register, _| assert_eq!(boundary::fresh(register), 0),
        |register, _| assert_eq!(written_again::fresh(register), 0),
    )
}

fn strike_and_open(register: &[u8]) -> Case {
    on_register(
        "strike a book, then open it",
        2_000,
        register,
        |register, _| {
            assert_eq!(boundary::strike(register, 1), 0);
            assert_eq!(boundary::open(register, 1, TERMS), 0);
        },
        |register, _| {
            assert_eq!(written_again::strike(register, 1), 0);
            assert_eq!(written_again::open(register, 1, TERMS), 0);
        },
    )
}

fn withdraw_and_enter(register: &[u8]) -> Case {
    on_register(
        "withdraw, then enter",
        2_000,
        register,
        |register, turn| {
            let (book, (place, reading)) = (book_of(turn), correction(turn));
            assert_eq!(boundary::withdraw(register, book, place), 0);
            assert_eq!(boundary::enter(register, book, place, reading), 0);
        },
        |register, turn| {
            let (book, ([a, b, c], [x, y, h])) = (book_of(turn), correction(turn));
            assert_eq!(written_again::withdraw(register, book, a, b, c), 0);
            let refusal = written_again::enter(register, book, a, b, c, x, y, h);
            assert_eq!(refusal, 0);
        },
    )
}

fn take_back_and_correct(register: &[u8]) -> Case {
    on_register(
        "take back, then correct",
        2_000,
        register,
        |register, turn| {
            let (book, (place, reading)) = (book_of(turn), correction(turn));
            assert_eq!(boundary::take_back(register, book), 0);
            assert_eq!(boundary::correct(register, book, place, reading), 0);
        },
        |register, turn| {
            let (book, ([a, b, c], [x, y, h])) = (book_of(turn), correction(turn));
            assert_eq!(written_again::take_back(register, book), 0);
            let refusal = written_again::correct(register, book, a, b, c, x, y, h);
            assert_eq!(refusal, 0);
        },
    )
}

fn correct_and_evaluate(register: &[u8]) -> Case {
    on_register(
        "correct, then evaluate",
        CORRECTIONS / ROUNDS,
        register,
        |register, turn| {
            let (book, (place, reading)) = (book_of(turn), correction(turn));
            assert_eq!(boundary::correct(register, book, place, reading), 0);
            accepted!(boundary::evaluate(register, book));
        },
        |register, turn| {
            let (book, ([a, b, c], [x, y, h])) = (book_of(turn), correction(turn));
            let refusal = written_again::correct(register, book, a, b, c, x, y, h);
            assert_eq!(refusal, 0);
            accepted!(written_again::evaluate(register, book));
        },
    )
}
