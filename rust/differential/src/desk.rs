//! What a program is lent: a register, a list and a file, at any address, with guarded
//! surroundings.

use crate::call::Call;

const GUARD: usize = 64;
const GUARD_BYTE: u8 = 0xA5;

/// Bytes lent to a call. Whoever writes around them is found out.
#[derive(Clone, Debug)]
pub struct Lent {
    bytes: Vec<u8>,
    start: usize,
    length: usize,
}

impl Lent {
    /// A copy of `content`, `shift` bytes off a multiple of eight.
    pub fn copy_of(content: &[u8], shift: usize) -> Lent {
        let length = content.len();
        let mut bytes = vec![GUARD_BYTE; length + 2 * GUARD + 16];
        let start = GUARD + bytes.as_ptr().align_offset(8) + shift % 8;
        bytes[start..start + length].copy_from_slice(content);
        Lent {
            bytes,
            start,
            length,
        }
    }

    pub fn bytes(&self) -> &[u8] {
        &self.bytes[self.start..self.start + self.length]
    }

    pub fn bytes_mut(&mut self) -> &mut [u8] {
        &mut self.bytes[self.start..self.start + self.length]
    }

    /// Whether nothing around the lent bytes was written.
    pub fn is_guarded(&self) -> bool {
        let (before, rest) = self.bytes.split_at(self.start);
        let after = &rest[self.length..];
        let mut around = before.iter().chain(after);
        around.all(|byte| *byte == GUARD_BYTE)
    }
}

/// One program's own copy of everything that is lent to it.
#[derive(Clone, Debug)]
pub struct Desk {
    pub register: Lent,
    pub list: Lent,
    pub file: Lent,
}

impl Desk {
    pub fn with(register: &[u8], shift: usize) -> Desk {
        Desk {
            register: Lent::copy_of(register, shift),
            list: Lent::copy_of(&[], 0),
            file: Lent::copy_of(&[], 0),
        }
    }

    /// Lays out the list or the file that the call is lent.
    pub fn lay_out(&mut self, call: &Call) {
        match call {
            Call::PassList(room) => {
                // Bytes that are no book's number.
                let filler: Vec<u8> = (0..*room).map(|at| 0xE0 | at as u8 & 0x0F).collect();
                self.list = Lent::copy_of(&filler, *room);
            }
            Call::EvaluateFile(file) => self.file = Lent::copy_of(file, file.len()),
            _ => {}
        }
    }

    pub fn is_guarded(&self) -> bool {
        self.register.is_guarded() && self.list.is_guarded() && self.file.is_guarded()
    }
}
