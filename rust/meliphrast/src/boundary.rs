//! The library's calls as they are exported, made safe: numbers and byte slices go in, a refusal
//! number or one of the records of [`sys`] comes out.
//!
//! [`Register`](crate::Register) has the same calls with names for the numbers. Use this module
//! where the numbers themselves are wanted, as a protocol or a test does.
//!
//! ```
//! use meliphrast::{boundary, LENGTH};
//!
//! let mut register = vec![0; LENGTH];
//! assert_eq!(boundary::fresh(&mut register), 0);
//! assert_eq!(boundary::take_back(&mut register, 17), 2); // PLACE
//! assert_eq!(boundary::take_back(&mut register, 16), 5); // CLOSED
//! assert_eq!(boundary::check(&register[1..]), 1); // REGISTER
//! ```

// The only module with `unsafe` in it. What each SAFETY line rests on: a slice's pointer and
// length are passed together and lent for that one call; the library keeps no pointer, and reads
// and writes no byte outside the slices, whatever they hold and however long they are.

use crate::sys;

/// The length of a register in bytes.
pub fn length() -> u64 {
    // SAFETY: the call takes nothing.
    unsafe { sys::rtk_length() }
}

/// The form check apart: 0 in form, 1 REGISTER.
#[must_use = "the number is all that tells of a refusal"]
pub fn check(register: &[u8]) -> u64 {
    // SAFETY: pointer and length of a slice lent for the call.
    unsafe { sys::rtk_check(register.as_ptr(), register.len()) }
}

/// Closes every book, whatever the bytes held before.
#[must_use = "the number is all that tells of a refusal"]
pub fn fresh(register: &mut [u8]) -> u64 {
    // SAFETY: pointer and length of a slice lent for the call.
    unsafe { sys::rtk_fresh(register.as_mut_ptr(), register.len()) }
}

/// Opens a closed book; the terms are in the order of a file's TERMS line.
#[must_use = "the number is all that tells of a refusal"]
pub fn open(register: &mut [u8], book: u64, terms: [i64; 12]) -> u64 {
    let (pointer, length) = (register.as_mut_ptr(), register.len());
    let [d, h, s_xy, s_h, sigma_xy, sigma_h, x1, y1, h1, x2, y2, h2] = terms;
    // SAFETY: pointer and length of a slice lent for the call.
    unsafe {
        sys::rtk_open(
            pointer, length, book, d, h, s_xy, s_h, sigma_xy, sigma_h, x1, y1, h1, x2, y2, h2,
        )
    }
}

/// Closes an open book; its readings and changes are gone.
#[must_use = "the number is all that tells of a refusal"]
pub fn strike(register: &mut [u8], book: u64) -> u64 {
    // SAFETY: pointer and length of a slice lent for the call.
    unsafe { sys::rtk_strike(register.as_mut_ptr(), register.len(), book) }
}

/// Enters x, y, h at the empty place (series, set, point).
#[must_use = "the number is all that tells of a refusal"]
pub fn enter(register: &mut [u8], book: u64, place: [u64; 3], reading: [i64; 3]) -> u64 {
    let (pointer, length) = (register.as_mut_ptr(), register.len());
    let ([series, set, point], [x, y, h]) = (place, reading);
    // SAFETY: pointer and length of a slice lent for the call.
    unsafe { sys::rtk_enter(pointer, length, book, series, set, point, x, y, h) }
}

/// Corrects the filled place (series, set, point) to x, y, h.
#[must_use = "the number is all that tells of a refusal"]
pub fn correct(register: &mut [u8], book: u64, place: [u64; 3], reading: [i64; 3]) -> u64 {
    let (pointer, length) = (register.as_mut_ptr(), register.len());
    let ([series, set, point], [x, y, h]) = (place, reading);
    // SAFETY: pointer and length of a slice lent for the call.
    unsafe { sys::rtk_correct(pointer, length, book, series, set, point, x, y, h) }
}

/// Withdraws the reading at the filled place (series, set, point).
#[must_use = "the number is all that tells of a refusal"]
pub fn withdraw(register: &mut [u8], book: u64, place: [u64; 3]) -> u64 {
    let [series, set, point] = place;
    // SAFETY: pointer and length of a slice lent for the call.
    unsafe {
        sys::rtk_withdraw(
            register.as_mut_ptr(),
            register.len(),
            book,
            series,
            set,
            point,
        )
    }
}

/// Takes back the latest change not yet taken back.
#[must_use = "the number is all that tells of a refusal"]
pub fn take_back(register: &mut [u8], book: u64) -> u64 {
    // SAFETY: pointer and length of a slice lent for the call.
    unsafe { sys::rtk_take_back(register.as_mut_ptr(), register.len(), book) }
}

/// Reads the place (series, set, point).
pub fn read(register: &[u8], book: u64, place: [u64; 3]) -> sys::Lengths {
    let [series, set, point] = place;
    // SAFETY: pointer and length of a slice lent for the call.
    unsafe { sys::rtk_read(register.as_ptr(), register.len(), book, series, set, point) }
}

/// Fifteen times the residual of the place (series, set, point).
pub fn residual(register: &[u8], book: u64, place: [u64; 3]) -> sys::Lengths {
    let [series, set, point] = place;
    // SAFETY: pointer and length of a slice lent for the call.
    unsafe { sys::rtk_residual(register.as_ptr(), register.len(), book, series, set, point) }
}

/// How many changes can be taken back.
pub fn changes(register: &[u8], book: u64) -> sys::Count {
    // SAFETY: pointer and length of a slice lent for the call.
    unsafe { sys::rtk_changes(register.as_ptr(), register.len(), book) }
}

/// Evaluates a book.
pub fn evaluate(register: &[u8], book: u64) -> sys::Evaluation {
    // SAFETY: pointer and length of a slice lent for the call.
    unsafe { sys::rtk_evaluate(register.as_ptr(), register.len(), book) }
}

/// Compares the first book against the second on axis 1 (xy) or 2 (h).
pub fn compare(register: &[u8], first: u64, second: u64, axis: u64) -> sys::Comparison {
    // SAFETY: pointer and length of a slice lent for the call.
    unsafe { sys::rtk_compare(register.as_ptr(), register.len(), first, second, axis) }
}

/// Writes the numbers of the books that pass from the list's start.
pub fn pass_list(register: &[u8], list: &mut [u8]) -> sys::Count {
    let (pointer, length) = (register.as_ptr(), register.len());
    // SAFETY: pointers and lengths of two slices lent for the call, and of no byte in common.
    unsafe { sys::rtk_pass_list(pointer, length, list.as_mut_ptr(), list.len()) }
}

/// Evaluates a field file; touches no register.
pub fn evaluate_file(file: &[u8]) -> sys::Evaluation {
    // SAFETY: pointer and length of a slice lent for the call.
    unsafe { sys::rtk_evaluate_file(file.as_ptr(), file.len()) }
}
