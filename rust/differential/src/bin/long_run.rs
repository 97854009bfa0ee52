//! The gate's comparison at length: `long_run CALLS SEED ROUND`.
//!
//! Rounds from ROUND on, until so many calls are made. A difference is told with the command that
//! runs its round alone.

use differential::run::{run_on_two, ROUND};
use std::env;
use std::process::ExitCode;

fn main() -> ExitCode {
    let numbers: Result<Vec<u64>, _> = env::args().skip(1).map(|word| word.parse()).collect();
    let Ok([calls, seed, first]) = numbers.as_deref() else {
        eprintln!("long_run CALLS SEED ROUND, all of them numbers");
        return ExitCode::FAILURE;
    };
    let rounds = *first..first.saturating_add(calls.div_ceil(ROUND));
    println!("seed {seed}, rounds {rounds:?}");
    match run_on_two(*seed, rounds) {
        Ok(tally) => {
            println!("no difference: {tally}");
            ExitCode::SUCCESS
        }
        Err(part) => {
            println!("seed {seed}, {part}");
            println!("again: make long CALLS=1 SEED={seed} ROUND={}", part.round);
            ExitCode::FAILURE
        }
    }
}
