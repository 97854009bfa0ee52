//! The gate's run: the proved library, bare and in its wrapper, against the second
//! implementation.

use differential::program::Library;
use differential::run::{flip_every_bit, run, run_on_two, GATE, SEED};
use differential::side_by_side::Difference;
use differential::tally::Tally;
use differential::wrapped::Wrapped;
use meliphrast::LENGTH;
use std::io::Write;

/// Shown without being asked for, so that a passing gate says what it tried.
fn show(title: &str, tally: &Tally) {
    let mut out = std::io::stdout().lock();
    writeln!(out, "\n{title}, seed {SEED}: {tally}").expect("standard output");
}

/// A difference fails the test with all that is needed to see it again.
fn told(outcome: Result<Tally, Box<Difference>>) -> Tally {
    outcome.unwrap_or_else(|part| panic!("seed {SEED}, {part}"))
}

/// Every outcome of every call, every list, and whatever else is worth a case.
fn must_have_tried_all(tally: &Tally) {
    let missing = tally.missing();
    assert!(missing.is_empty(), "not tried: {missing:?}");
}

#[test]
fn the_library_answers_as_the_second_implementation() {
    let tally = told(run_on_two(SEED, GATE));
    show("library", &tally);
    must_have_tried_all(&tally);
    assert!(tally.calls() >= 1_000_000);
    assert!(tally.files() >= 100_000);
    assert!(tally.damaged >= 100_000);
}

#[test]
fn every_flipped_bit_is_seen_alike() {
    let tally = told(flip_every_bit(&mut Library, SEED));
    show("every bit", &tally);
    assert_eq!(tally.damaged, 8 * LENGTH as u64);
}

#[test]
fn the_wrapper_answers_as_the_library() {
    let tally = told(run(&mut Wrapped, SEED, 0..10));
    show("wrapper", &tally);
    must_have_tried_all(&tally);
}
