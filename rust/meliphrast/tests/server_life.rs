//! A register's life in a server: copied, kept in a file, moved between threads, used again.

mod common;

use common::{at, fill, filled, off, FIRST, TERMS};
use meliphrast::{Place, Refusal, Register, BOOKS, LENGTH};
use std::path::Path;
use std::sync::mpsc;
use std::{fs, thread};

const ALL: std::ops::RangeInclusive<u64> = 1..=BOOKS as u64;

/// Offsets 120 to 133, so that some books pass (to 126) and some do not.
fn offset_in(round: u64, book: u64) -> i64 {
    120 + (round * 3 + book * 5) as i64 % 14
}

fn fill_all(register: &mut Register, round: u64) {
    for book in ALL {
        fill(register, book, &[(FIRST, [offset_in(round, book), 0, 0])]);
    }
}

fn expected_list(round: u64) -> Vec<u8> {
    let passes = |book: &u64| offset_in(round, *book) <= 126;
    ALL.filter(passes).map(|book| book as u8).collect()
}

fn list_of<S: AsRef<[u8]>>(register: &Register<S>) -> Vec<u8> {
    let mut list = [0; BOOKS];
    register.pass_list(&mut list).unwrap().to_vec()
}

#[test]
fn sixteen_books_used_again_a_thousand_times() {
    let mut register = Register::fresh();
    let fresh = register.clone();
    for round in 0..1_000 {
        fill_all(&mut register, round);
        assert_eq!(list_of(&register), expected_list(round));
        for book in ALL {
            let passes = register.evaluate(book).unwrap().passes();
            assert_eq!(passes, offset_in(round, book) <= 126);
            register.strike(book).unwrap();
        }
        assert_eq!(register, fresh);
    }
}

#[test]
fn a_register_is_kept_in_a_file() {
    let path = Path::new(env!("CARGO_TARGET_TMPDIR")).join("kept.register");
    let mut register = Register::fresh();
    fill_all(&mut register, 3);
    fs::write(&path, register.as_bytes()).unwrap();
    let bytes = fs::read(&path).unwrap();
    assert_eq!(bytes.len(), LENGTH);
    let mut kept = Register::over(bytes);
    assert_eq!(kept, register);
    assert_eq!(kept.check(), Ok(()));
    // The changes are kept with it: they can still be taken back.
    for _ in 0..30 {
        kept.take_back(5).unwrap();
    }
    assert_eq!(kept.take_back(5), Err(Refusal::Nothing));
    assert_eq!(kept.read(5, FIRST), Err(Refusal::Empty));
    assert_eq!(kept.evaluate(6), register.evaluate(6));
    fs::remove_file(&path).unwrap();
}

#[test]
fn a_file_cut_short_or_scratched_is_refused() {
    let mut register = Register::fresh();
    fill_all(&mut register, 3);
    let mut bytes = register.into_bytes().into_vec();
    bytes[0] = 2;
    assert_eq!(Register::over(&bytes).evaluate(9), Err(Refusal::Register));
    bytes[0] = 1;
    assert!(Register::over(&bytes).evaluate(9).is_ok());
    bytes.pop();
    assert_eq!(Register::over(&bytes).evaluate(9), Err(Refusal::Register));
}

#[test]
fn copies_go_their_own_ways() {
    let original = filled(&[]);
    let mut copy = original.clone();
    copy.correct(1, FIRST, off(FIRST, [127, 0, 0])).unwrap();
    assert_eq!(list_of(&original), [1]);
    assert_eq!(list_of(&copy), [0; 0]);
    assert_ne!(original, copy);
    copy.strike(1).unwrap();
    assert_eq!(copy, Register::fresh());
    assert!(original.evaluate(1).unwrap().passes());
}

/// Each of four threads enters one quarter of every book, then hands the register on.
#[test]
fn a_register_moves_between_threads() {
    let mut register = Register::fresh();
    for book in ALL {
        register.open(book, TERMS).unwrap();
    }
    let places: Vec<Place> = Place::sheet().collect();
    for quarter in places.chunks(8) {
        let quarter = quarter.to_vec();
        let (give, take) = mpsc::channel();
        let worker = thread::spawn(move || {
            let mut register: Register = take.recv().unwrap();
            for (book, place) in ALL.flat_map(|book| quarter.iter().map(move |at| (book, *at))) {
                register.enter(book, place, off(place, [0; 3])).unwrap();
            }
            register
        });
        give.send(register).unwrap();
        register = worker.join().unwrap();
    }
    let all: Vec<u8> = ALL.map(|book| book as u8).collect();
    assert_eq!(list_of(&register), all);
}

#[test]
fn threads_read_one_register_side_by_side() {
    let mut register = Register::fresh();
    fill_all(&mut register, 11);
    let shared = &register;
    thread::scope(|scope| {
        for _ in 0..4 {
            scope.spawn(move || {
                for _ in 0..500 {
                    assert_eq!(list_of(shared), expected_list(11));
                    assert_eq!(shared.changes(16), Ok(30));
                }
            });
        }
    });
}

/// Registers of their own in several threads do not touch each other.
#[test]
fn threads_have_registers_of_their_own() {
    thread::scope(|scope| {
        for round in 0..4 {
            scope.spawn(move || {
                let mut register = Register::fresh();
                for _ in 0..20 {
                    fill_all(&mut register, round);
                    assert_eq!(list_of(&register), expected_list(round));
                    register.make_fresh().unwrap();
                }
            });
        }
    });
}

/// A slice out of the middle of the server's memory, at any address; what lies around it stays.
#[test]
fn a_register_is_lent_at_any_address() {
    for start in 0..9 {
        let mut memory = vec![0xEE; LENGTH + 16];
        let mut register = Register::over(&mut memory[start..start + LENGTH]);
        assert_eq!(register.check(), Err(Refusal::Register));
        register.make_fresh().unwrap();
        fill(&mut register, 16, &[(at(2, 2, 2), [126, 0, 0])]);
        assert_eq!(list_of(&register), [16]);
        assert!(memory[..start].iter().all(|byte| *byte == 0xEE));
        assert!(memory[start + LENGTH..].iter().all(|byte| *byte == 0xEE));
    }
}
