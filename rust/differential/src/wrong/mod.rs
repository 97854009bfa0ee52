//! Programs that are wrong on purpose, each in one thing. A comparison that lets one of them pass
//! is worth nothing.

mod changes;
mod comparison;
mod evaluation;
mod file;
mod form;
mod list;

use crate::call::{Answer, Call};
use crate::desk::Desk;
use crate::program::{Program, Second};

type Answers = dyn FnMut(&Call, &mut Desk) -> Answer;

pub struct Wrong {
    pub name: String,
    answers: Box<Answers>,
}

impl Wrong {
    fn new(name: &str, answers: impl FnMut(&Call, &mut Desk) -> Answer + 'static) -> Wrong {
        Wrong {
            name: name.to_string(),
            answers: Box::new(answers),
        }
    }
}

impl Program for Wrong {
    fn answer(&mut self, call: &Call, desk: &mut Desk) -> Answer {
        (self.answers)(call, desk)
    }
}

pub fn wrong_programs() -> Vec<Wrong> {
    let groups = [
        evaluation::wrong_programs(),
        comparison::wrong_programs(),
        changes::wrong_programs(),
        list::wrong_programs(),
        form::wrong_programs(),
        file::wrong_programs(),
    ];
    groups.into_iter().flatten().collect()
}

/// The right answer, and the right bytes on the desk.
fn right(call: &Call, desk: &mut Desk) -> Answer {
    Second.answer(call, desk)
}
