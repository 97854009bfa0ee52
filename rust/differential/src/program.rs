//! The programs that answer calls: the proved library by its exported calls, and the second
//! implementation.

use crate::call::{Answer, Call};
use crate::desk::Desk;
use meliphrast::boundary;
use second::register as written_again;

pub trait Program {
    fn answer(&mut self, call: &Call, desk: &mut Desk) -> Answer;
}

// Both implementations' records have the same names in them, so one rule serves for each.
macro_rules! evaluation {
    ($told:expr) => {{
        let told = $told;
        let (sheet, xy, h) = (told.sheet, told.xy, told.h);
        Answer {
            refusal: told.refusal,
            named: [told.series, told.set, told.quantity],
            words: [
                sheet.s_x.to_bits(),
                sheet.s_y.to_bits(),
                sheet.s_xy.to_bits(),
                sheet.s_h.to_bits(),
                xy.within,
                xy.deviation.to_bits(),
                xy.bound.to_bits(),
                h.within,
                h.deviation.to_bits(),
                h.bound.to_bits(),
            ],
        }
    }};
}

macro_rules! comparison {
    ($told:expr) => {{
        let told = $told;
        Answer {
            named: [told.series, told.set, told.quantity],
            ..Answer::count(told.refusal, told.same)
        }
    }};
}

macro_rules! lengths {
    ($told:expr) => {{
        let told = $told;
        Answer::lengths(told.refusal, [told.x, told.y, told.h])
    }};
}

macro_rules! count {
    ($told:expr) => {{
        let told = $told;
        Answer::count(told.refusal, told.count)
    }};
}

/// The proved library by its exported calls.
pub struct Library;

impl Program for Library {
    fn answer(&mut self, call: &Call, desk: &mut Desk) -> Answer {
        let (register, list) = (desk.register.bytes_mut(), desk.list.bytes_mut());
        let refusal = match *call {
            Call::Length => boundary::length(),
            Call::Check => boundary::check(register),
            Call::Fresh => boundary::fresh(register),
            Call::Open(book, terms) => boundary::open(register, book, terms),
            Call::Strike(book) => boundary::strike(register, book),
            Call::Enter(book, place, read) => boundary::enter(register, book, place, read),
            Call::Correct(book, place, read) => boundary::correct(register, book, place, read),
            Call::Withdraw(book, place) => boundary::withdraw(register, book, place),
            Call::TakeBack(book) => boundary::take_back(register, book),
            Call::Read(book, place) => return lengths!(boundary::read(register, book, place)),
            Call::Residual(book, place) => {
                return lengths!(boundary::residual(register, book, place))
            }
            Call::Changes(book) => return count!(boundary::changes(register, book)),
            Call::Evaluate(book) => return evaluation!(boundary::evaluate(register, book)),
            Call::Compare(first, second, axis) => {
                return comparison!(boundary::compare(register, first, second, axis))
            }
            Call::PassList(_) => return count!(boundary::pass_list(register, list)),
            Call::EvaluateFile(_) => {
                return evaluation!(boundary::evaluate_file(desk.file.bytes()))
            }
        };
        Answer::number(refusal)
    }
}

/// The second implementation, which every other program is held against.
pub struct Second;

impl Program for Second {
    fn answer(&mut self, call: &Call, desk: &mut Desk) -> Answer {
        let (register, list) = (desk.register.bytes_mut(), desk.list.bytes_mut());
        let refusal = match *call {
            Call::Length => second::LENGTH as u64,
            Call::Check => u64::from(!written_again::in_form(register)),
            Call::Fresh => written_again::fresh(register),
            Call::Open(book, terms) => written_again::open(register, book, terms),
            Call::Strike(book) => written_again::strike(register, book),
            Call::Enter(book, [a, b, c], [x, y, h]) => {
                written_again::enter(register, book, a, b, c, x, y, h)
            }
            Call::Correct(book, [a, b, c], [x, y, h]) => {
                written_again::correct(register, book, a, b, c, x, y, h)
            }
            Call::Withdraw(book, [a, b, c]) => written_again::withdraw(register, book, a, b, c),
            Call::TakeBack(book) => written_again::take_back(register, book),
            Call::PassList(_) => return count!(written_again::pass_list(register, list)),
            Call::EvaluateFile(_) => {
                return evaluation!(second::file::evaluate_file(desk.file.bytes()))
            }
            _ => return looked_up(call, register),
        };
        Answer::number(refusal)
    }
}

/// The second implementation's calls that change nothing and give more than a number.
fn looked_up(call: &Call, register: &[u8]) -> Answer {
    match *call {
        Call::Read(book, [a, b, c]) => lengths!(written_again::read(register, book, a, b, c)),
        Call::Residual(book, [a, b, c]) => {
            lengths!(written_again::residual(register, book, a, b, c))
        }
        Call::Changes(book) => count!(written_again::changes(register, book)),
        Call::Evaluate(book) => evaluation!(written_again::evaluate(register, book)),
        Call::Compare(first, second, axis) => {
            comparison!(written_again::compare(register, first, second, axis))
        }
        _ => unreachable!("a call that changes something"),
    }
}
