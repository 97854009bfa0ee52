//! The gate's run finds every program that is wrong on purpose.

use differential::run::{run, GATE, SEED};
use differential::wrong::wrong_programs;
use std::io::Write;

/// As many as README tells of.
const PROGRAMS: usize = 80;

#[test]
fn every_wrong_program_is_caught() {
    let mut out = std::io::stdout().lock();
    writeln!(out, "\nwrong programs, seed {SEED}:").expect("standard output");
    let mut missed = Vec::new();
    let programs = wrong_programs();
    assert_eq!(programs.len(), PROGRAMS);
    for mut wrong in programs {
        match run(&mut wrong, SEED, GATE) {
            Ok(_) => missed.push(wrong.name),
            Err(part) => {
                let (name, calls, kind) = (wrong.name, part.calls, part.call.name());
                writeln!(out, "  {name}: caught at call {calls}, {kind}").expect("standard output");
            }
        }
    }
    assert!(missed.is_empty(), "not caught: {missed:?}");
}
