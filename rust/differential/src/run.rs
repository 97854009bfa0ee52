//! A run: the examples and the pass lists, then rounds of calls, damaged registers and files, all
//! from one seed.

use crate::call::Call;
use crate::damage::damaged;
use crate::dice::Dice;
use crate::examiner::Examiner;
use crate::program::{Library, Program};
use crate::side_by_side::{Difference, SideBySide};
use crate::tally::Tally;
use crate::{examples, file, lists};
use meliphrast::LENGTH;
use std::ops::Range;
use std::thread;

/// The seed of the gate's run.
pub const SEED: u64 = 171_238;

/// The rounds of the gate's run.
pub const GATE: Range<u64> = 0..100;

/// How many of each kind in a round.
const CALLS: u64 = 6_000;
const DAMAGED: u64 = 1_000;
const CALLS_ON_DAMAGED: u64 = 2;
const FILES: u64 = 1_000;

/// Calls of a round in all; each damaged register is checked as well.
pub const ROUND: u64 = CALLS + DAMAGED * (1 + CALLS_ON_DAMAGED) + FILES;

/// All that was tried, or the first difference from the second implementation. A round is the
/// same whichever others are run.
pub fn run(
    program: &mut dyn Program,
    seed: u64,
    rounds: Range<u64>,
) -> Result<Tally, Box<Difference>> {
    let mut pair = SideBySide::new(program);
    examples::run(&mut pair)?;
    lists::run(&mut pair)?;
    for round in rounds {
        pair.round = round;
        let mut examiner = Examiner::new(Dice::of_round(seed, round));
        make_calls(&mut pair, &mut examiner, CALLS)?;
        let register = pair.register().to_vec();
        try_damaged(&mut pair, &mut examiner, &register)?;
        try_files(&mut pair, &mut examiner.dice)?;
    }
    Ok(pair.tally)
}

/// The same of the library, its rounds shared out to two threads: it takes calls from any.
pub fn run_on_two(seed: u64, rounds: Range<u64>) -> Result<Tally, Box<Difference>> {
    let half = rounds.start + (rounds.end - rounds.start) / 2;
    thread::scope(|threads| {
        let first = threads.spawn(|| run(&mut Library, seed, rounds.start..half));
        let mut tally = run(&mut Library, seed, half..rounds.end)?;
        tally += first.join().expect("the other thread ends")?;
        Ok(tally)
    })
}

type Outcome = Result<(), Box<Difference>>;

/// A register from fresh on, at an address of any kind.
fn make_calls(pair: &mut SideBySide, examiner: &mut Examiner, calls: u64) -> Outcome {
    let before: Vec<u8> = (0..LENGTH).map(|_| examiner.dice.byte()).collect();
    pair.lend(&before, examiner.dice.index(8));
    pair.call(&Call::Fresh)?;
    for _ in 1..calls {
        let call = examiner.next(pair.register());
        pair.call(&call)?;
    }
    Ok(())
}

/// Each damaged register is checked, then met with calls of any kind.
fn try_damaged(pair: &mut SideBySide, examiner: &mut Examiner, register: &[u8]) -> Outcome {
    for _ in 0..DAMAGED {
        let bytes = damaged(&mut examiner.dice, register);
        pair.lend(&bytes, examiner.dice.index(8));
        check_damaged(pair)?;
        for _ in 0..CALLS_ON_DAMAGED {
            let call = examiner.stray(pair.register());
            pair.call(&call)?;
        }
    }
    Ok(())
}

fn check_damaged(pair: &mut SideBySide) -> Outcome {
    let in_form = pair.call(&Call::Check)?.is_accepted();
    pair.tally.damaged += 1;
    pair.tally.case(match in_form {
        true => "damaged and in form",
        false => "damaged and not in form",
    });
    Ok(())
}

fn try_files(pair: &mut SideBySide, dice: &mut Dice) -> Outcome {
    for _ in 0..FILES {
        pair.call(&Call::EvaluateFile(file::drawn(dice)))?;
    }
    Ok(())
}

/// Every bit of one busy register flipped, one at a time.
pub fn flip_every_bit(program: &mut dyn Program, seed: u64) -> Result<Tally, Box<Difference>> {
    let mut pair = SideBySide::new(program);
    let mut examiner = Examiner::new(Dice::new(seed));
    make_calls(&mut pair, &mut examiner, 4_000)?;
    for byte in 0..LENGTH {
        for bit in 0..8 {
            pair.flip(byte, bit);
            check_damaged(&mut pair)?;
            pair.flip(byte, bit);
        }
    }
    Ok(pair.tally)
}
