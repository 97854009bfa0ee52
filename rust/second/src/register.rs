//! The register: sixteen books in one lent byte slice, and every call on it.

use crate::acts::{self, Slot};
use crate::image::{self, decoded, image_of, Image, Word, BOOK_WORDS};
use crate::judgement::{self, Axis};
use crate::procedure::place_of;
use crate::records::{Comparison, Count, Evaluation, Reading};
use crate::refusal::{number_of, Refusal};
use crate::terms::{Terms, TERMS};

pub const BOOKS: usize = 16;

const BOOK_BYTES: usize = BOOK_WORDS * 8;

/// The published length of a register in bytes: 29,696.
pub const LENGTH: usize = BOOKS * BOOK_BYTES;

/// Whether bytes of any length are a register in form.
pub fn in_form(register: &[u8]) -> bool {
    look(register, []).is_ok()
}

/// Closes every book of whatever the bytes held before; meets only a wrong length.
pub fn fresh(register: &mut [u8]) -> u64 {
    if register.len() != LENGTH {
        return Refusal::Register.number();
    }
    register.fill(0);
    0
}

/// The twelve terms in the order of a file's TERMS line.
pub fn open(register: &mut [u8], book: u64, terms: [i64; TERMS]) -> u64 {
    change(register, book, |slot| {
        acts::open(slot, Terms::from_numbers(terms))
    })
}

pub fn strike(register: &mut [u8], book: u64) -> u64 {
    change(register, book, acts::strike)
}

// The calls take plain numbers as the published boundary does.
#[allow(clippy::too_many_arguments)]
pub fn enter(
    register: &mut [u8],
    book: u64,
    series: u64,
    set: u64,
    point: u64,
    x: i64,
    y: i64,
    h: i64,
) -> u64 {
    change(register, book, |slot| {
        acts::enter(slot, [series, set, point], [x, y, h])
    })
}

#[allow(clippy::too_many_arguments)]
pub fn correct(
    register: &mut [u8],
    book: u64,
    series: u64,
    set: u64,
    point: u64,
    x: i64,
    y: i64,
    h: i64,
) -> u64 {
    change(register, book, |slot| {
        acts::correct(slot, [series, set, point], [x, y, h])
    })
}

pub fn withdraw(register: &mut [u8], book: u64, series: u64, set: u64, point: u64) -> u64 {
    change(register, book, |slot| {
        acts::withdraw(slot, [series, set, point])
    })
}

pub fn take_back(register: &mut [u8], book: u64) -> u64 {
    change(register, book, acts::take_back)
}

pub fn read(register: &[u8], book: u64, series: u64, set: u64, point: u64) -> Reading {
    let outcome = look(register, [book]).and_then(|[slot]| {
        let place = place_of(series, set, point)?;
        acts::open_book(&slot)?.read(place)
    });
    outcome.into()
}

/// How many changes can be taken back.
pub fn changes(register: &[u8], book: u64) -> Count {
    let outcome = look(register, [book]).and_then(|[slot]| Ok(acts::open_book(&slot)?.kept as u64));
    outcome.into()
}

/// 15 times the residual of a place for x, y and h.
pub fn residual(register: &[u8], book: u64, series: u64, set: u64, point: u64) -> Reading {
    let outcome = look(register, [book]).and_then(|[slot]| {
        let place = place_of(series, set, point)?;
        judgement::residual(acts::open_book(&slot)?, place)
    });
    outcome.into()
}

pub fn evaluate(register: &[u8], book: u64) -> Evaluation {
    let outcome =
        look(register, [book]).and_then(|[slot]| judgement::evaluate(acts::open_book(&slot)?));
    outcome.into()
}

/// First against second on axis 1 (xy) or 2 (h).
pub fn compare(register: &[u8], first: u64, second: u64, axis: u64) -> Comparison {
    let outcome = look(register, [first, second]).and_then(|[first, second]| {
        let axis = Axis::numbered(axis)?;
        let (first, second) = (acts::open_book(&first)?, acts::open_book(&second)?);
        judgement::same_population(first, second, axis)
    });
    outcome.into()
}

/// Writes the numbers of the books that pass, rising, from the buffer's start.
pub fn pass_list(register: &[u8], list: &mut [u8]) -> Count {
    let mut passed = [0; BOOKS];
    let mut count = 0;
    let outcome = each_book(register, |index, image| {
        let slot = decoded(image);
        let judged = acts::open_book(&slot).and_then(judgement::evaluate);
        if judged.is_ok_and(|judgement| judgement.passed()) {
            passed[count] = index as u8 + 1;
            count += 1;
        }
    });
    let outcome = outcome.and_then(|()| {
        let room = list.get_mut(..count).ok_or(Refusal::Room)?;
        room.copy_from_slice(&passed[..count]);
        Ok(count as u64)
    });
    outcome.into()
}

/// Looks at one book, lets the act change it, and writes it back if the act was accepted.
fn change(
    register: &mut [u8],
    book: u64,
    act: impl FnOnce(&mut Slot) -> Result<(), Refusal>,
) -> u64 {
    let outcome = look(register, [book]).and_then(|[mut slot]| {
        act(&mut slot)?;
        let at = (book as usize - 1) * BOOK_BYTES;
        register[at..at + BOOK_BYTES].copy_from_slice(image_of(&slot).as_flattened());
        Ok(())
    });
    number_of(&outcome)
}

/// The books asked for, once the whole register is known to be in form.
fn look<const N: usize>(register: &[u8], numbers: [u64; N]) -> Result<[Slot; N], Refusal> {
    let mut found = [const { None }; N];
    each_book(register, |index, image| {
        for (found, number) in found.iter_mut().zip(numbers) {
            if number == index as u64 + 1 {
                *found = decoded(image);
            }
        }
    })?;
    if numbers
        .iter()
        .all(|number| (1..=BOOKS as u64).contains(number))
    {
        Ok(found)
    } else {
        Err(Refusal::Place)
    }
}

/// Hands over the image of each book in form; stops at the first one not in form.
fn each_book(register: &[u8], mut visit: impl FnMut(usize, &Image)) -> Result<(), Refusal> {
    if register.len() != LENGTH {
        return Err(Refusal::Register);
    }
    let (words, _): (&[Word], _) = register.as_chunks();
    let (images, _): (&[Image], _) = words.as_chunks();
    for (index, image) in images.iter().enumerate() {
        if !image::in_form(image) {
            return Err(Refusal::Register);
        }
        visit(index, image);
    }
    Ok(())
}
