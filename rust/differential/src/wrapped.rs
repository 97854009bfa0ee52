//! The proved library in its safe wrapper, its answers taken back to numbers.

use crate::call::{self, Answer, Call};
use crate::desk::Desk;
use crate::program::{Library, Program};
use meliphrast::{
    evaluate_file, Axis, Evaluation, Place, Reading, Refusal, Register, Terms, Verdict, LENGTH,
};

pub struct Wrapped;

impl Program for Wrapped {
    fn answer(&mut self, call: &Call, desk: &mut Desk) -> Answer {
        let mut register = Register::over(desk.register.bytes_mut());
        let outcome = match *call {
            Call::Length => return Answer::number(LENGTH as u64),
            Call::Check => register.check(),
            Call::Fresh => register.make_fresh(),
            Call::Open(book, numbers) => register.open(book, Terms::from(numbers)),
            Call::Strike(book) => register.strike(book),
            Call::Enter(book, at, read) => register.enter(book, Place::from(at), reading(read)),
            Call::Correct(book, at, read) => register.correct(book, Place::from(at), reading(read)),
            Call::Withdraw(book, at) => register.withdraw(book, Place::from(at)),
            Call::TakeBack(book) => register.take_back(book),
            Call::PassList(_) => return listed(&register, desk.list.bytes_mut()),
            Call::EvaluateFile(_) => return evaluated(evaluate_file(desk.file.bytes())),
            // The wrapper's axis has two cases, so a third has to go past it.
            Call::Compare(_, _, axis) if Axis::try_from(axis).is_err() => {
                return Library.answer(call, desk)
            }
            _ => return looked_up(call, &register),
        };
        answer(outcome, |_| Answer::default())
    }
}

fn looked_up(call: &Call, register: &Register<&mut [u8]>) -> Answer {
    match *call {
        Call::Read(book, at) => answer(register.read(book, Place::from(at)), |read| {
            Answer::lengths(0, [read.x, read.y, read.h])
        }),
        Call::Residual(book, at) => answer(register.residual(book, Place::from(at)), |residual| {
            Answer::lengths(0, [residual.x, residual.y, residual.h])
        }),
        Call::Changes(book) => answer(register.changes(book), |count| Answer::count(0, count)),
        Call::Evaluate(book) => evaluated(register.evaluate(book)),
        Call::Compare(first, second, axis) => {
            let axis = Axis::try_from(axis).expect("any other goes past the wrapper");
            answer(register.compare(first, second, axis), |comparison| {
                Answer::count(0, u64::from(comparison.is_same()))
            })
        }
        _ => unreachable!("a call that changes something"),
    }
}

fn answer<T>(outcome: Result<T, Refusal>, accepted: impl FnOnce(T) -> Answer) -> Answer {
    match outcome {
        Ok(given) => accepted(given),
        Err(Refusal::Suspect(suspect)) => Answer {
            named: [suspect.series, suspect.set, suspect.quantity.number()],
            ..Answer::number(11)
        },
        Err(refusal) => Answer::number(refusal.number()),
    }
}

fn listed(register: &Register<&mut [u8]>, list: &mut [u8]) -> Answer {
    answer(register.pass_list(list), |listed| {
        Answer::count(0, listed.len() as u64)
    })
}

fn evaluated(outcome: Result<Evaluation, Refusal>) -> Answer {
    answer(outcome, |evaluation| {
        let sheet = evaluation.sheet;
        let mut answer = Answer::default();
        answer.words[call::S_X] = sheet.s_x.to_bits();
        answer.words[call::S_Y] = sheet.s_y.to_bits();
        answer.words[call::S_XY] = sheet.s_xy.to_bits();
        answer.words[call::S_H] = sheet.s_h.to_bits();
        answer.words[call::XY..call::H].copy_from_slice(&words(evaluation.xy));
        answer.words[call::H..].copy_from_slice(&words(evaluation.h));
        answer
    })
}

fn words(verdict: Verdict) -> [u64; 3] {
    let within = u64::from(verdict.is_within());
    [
        within,
        verdict.deviation().to_bits(),
        verdict.bound().to_bits(),
    ]
}

fn reading([x, y, h]: call::Reading) -> Reading {
    Reading { x, y, h }
}
