//! A program run beside the second implementation: the same calls on bytes of their own, the
//! answers and every byte compared after each.

use crate::call::{Answer, Call};
use crate::desk::{Desk, Lent};
use crate::program::{Program, Second};
use crate::tally::Tally;
use std::fmt;

/// Where two programs part.
#[derive(Debug)]
pub struct Difference {
    pub round: u64,
    /// Calls that were made until then, this one among them
    pub calls: u64,
    pub call: Call,
    pub what: String,
}

impl fmt::Display for Difference {
    fn fmt(&self, f: &mut fmt::Formatter<'_>) -> fmt::Result {
        let Difference { round, calls, .. } = self;
        write!(f, "round {round}, call {calls}: {}", self.what)?;
        match &self.call {
            Call::EvaluateFile(file) => write!(f, "\n{}", file.escape_ascii()),
            call => write!(f, "\n{call:?}"),
        }
    }
}

pub struct SideBySide<'p> {
    program: &'p mut dyn Program,
    ours: Desk,
    theirs: Desk,
    pub tally: Tally,
    pub round: u64,
}

impl SideBySide<'_> {
    pub fn new(program: &mut dyn Program) -> SideBySide<'_> {
        SideBySide {
            program,
            ours: Desk::with(&[], 0),
            theirs: Desk::with(&[], 0),
            tally: Tally::default(),
            round: 0,
        }
    }

    /// Lends both the same bytes, each a copy of its own, from now on.
    pub fn lend(&mut self, register: &[u8], shift: usize) {
        self.ours = Desk::with(register, shift);
        self.theirs = Desk::with(register, 0);
    }

    /// What the register holds, as the second implementation left it.
    pub fn register(&self) -> &[u8] {
        self.theirs.register.bytes()
    }

    /// Flips one bit of what both were lent.
    pub fn flip(&mut self, byte: usize, bit: u32) {
        for desk in [&mut self.ours, &mut self.theirs] {
            desk.register.bytes_mut()[byte] ^= 1 << bit;
        }
    }

    /// The answer, if both give it and leave the same bytes.
    pub fn call(&mut self, call: &Call) -> Result<Answer, Box<Difference>> {
        self.ours.lay_out(call);
        self.theirs.lay_out(call);
        let ours = self.program.answer(call, &mut self.ours);
        let theirs = Second.answer(call, &mut self.theirs);
        self.tally
            .count(call, &theirs, self.theirs.register.bytes());
        if ours != theirs {
            return Err(self.part(call, format!("{ours:?}\nand not {theirs:?}")));
        }
        self.compare_bytes(call)?;
        Ok(theirs)
    }

    fn compare_bytes(&self, call: &Call) -> Result<(), Box<Difference>> {
        let lent = [
            ("register", &self.ours.register, &self.theirs.register),
            ("list", &self.ours.list, &self.theirs.list),
            ("file", &self.ours.file, &self.theirs.file),
        ];
        for (name, ours, theirs) in lent {
            if let Some(at) = first_other_byte(ours, theirs) {
                return Err(self.part(call, format!("byte {at} of the {name} is another")));
            }
        }
        if !self.ours.is_guarded() {
            return Err(self.part(call, String::from("bytes that were not lent are written")));
        }
        Ok(())
    }

    pub fn part(&self, call: &Call, what: String) -> Box<Difference> {
        Box::new(Difference {
            round: self.round,
            calls: self.tally.calls(),
            call: call.clone(),
            what,
        })
    }
}

/// Where one of two ends before the other, that is the first other byte.
fn first_other_byte(ours: &Lent, theirs: &Lent) -> Option<usize> {
    let (ours, theirs) = (ours.bytes(), theirs.bytes());
    if ours == theirs {
        return None;
    }
    let pairs = ours.iter().zip(theirs);
    Some(pairs.take_while(|(one, other)| one == other).count())
}

#[cfg(test)]
mod tests {
    use super::*;

    #[test]
    fn another_byte_and_another_length_are_told() {
        let first_other = |ours: &[u8], theirs: &[u8]| {
            first_other_byte(&Lent::copy_of(ours, 3), &Lent::copy_of(theirs, 0))
        };
        assert_eq!(first_other(b"list", b"list"), None);
        assert_eq!(first_other(b"list", b"lost"), Some(1));
        assert_eq!(first_other(b"list", b"lis"), Some(3));
        assert_eq!(first_other(b"", b"list"), Some(0));
    }
}
