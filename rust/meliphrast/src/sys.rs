//! The library's own declarations, in plain C types.
//!
//! `include/meliphrast.h` says the same for C. A slice is a pointer and then a length; a record
//! comes back by value. In every record `refusal` is 0 for an accepted call, and beside a
//! refusal every other field is zero, but for series, set and quantity beside SUSPECT (11).
//!
//! [`boundary`](crate::boundary) has the same calls over slices, safe to make.
//!
//! # Safety
//!
//! The library answers any bytes and any numbers. For the slices the caller answers:
//!
//! * The bytes can be read for all of the length, and written where the pointer is `*mut`.
//! * No pointer is null, not even one with a length of 0. It can be at any address: bytes have no
//!   alignment to keep.
//! * Register and list have no byte in common.
//! * During a call nobody else writes to its slices, nor reads those that it may write.
//!
//! The library keeps nothing between calls, no pointer among it: on different registers they can
//! run side by side, and so can calls that only read the same one.

/// x, y and h in units: a reading, or fifteen times a residual.
#[repr(C)]
#[derive(Clone, Copy, Debug, Default, Eq, PartialEq)]
#[must_use = "a refusal is told in it alone"]
pub struct Lengths {
    /// 0, or the number of the refusal
    pub refusal: u64,
    /// on the axis x
    pub x: i64,
    /// on the axis y
    pub y: i64,
    /// on the axis h
    pub h: i64,
}

/// How many changes can be taken back, or how many books are on the list.
#[repr(C)]
#[derive(Clone, Copy, Debug, Default, Eq, PartialEq)]
#[must_use = "a refusal is told in it alone"]
pub struct Count {
    /// 0, or the number of the refusal
    pub refusal: u64,
    /// how many
    pub count: u64,
}

/// The candidate's sheet: four deviations in millimetres.
#[repr(C)]
#[derive(Clone, Copy, Debug, Default, PartialEq)]
pub struct Sheet {
    /// of x
    pub s_x: f64,
    /// of y
    pub s_y: f64,
    /// of x and y together
    pub s_xy: f64,
    /// of h
    pub s_h: f64,
}

/// One verdict, with its two figures in millimetres, which show it and do not decide it.
#[repr(C)]
#[derive(Clone, Copy, Debug, Default, PartialEq)]
pub struct Mark {
    /// 1 within, 0 beyond
    pub within: u64,
    /// the deviation s
    pub deviation: f64,
    /// what s is held against
    pub bound: f64,
}

/// An evaluated book or file.
#[repr(C)]
#[derive(Clone, Copy, Debug, Default, PartialEq)]
#[must_use = "a refusal is told in it alone"]
pub struct Evaluation {
    /// 0, or the number of the refusal
    pub refusal: u64,
    /// the suspect set's series, beside SUSPECT
    pub series: u64,
    /// the suspect set, beside SUSPECT
    pub set: u64,
    /// 1 distance or 2 height, beside SUSPECT
    pub quantity: u64,
    /// the candidate's sheet
    pub sheet: Sheet,
    /// the verdict on xy
    pub xy: Mark,
    /// the verdict on h
    pub h: Mark,
}

/// Two compared books.
#[repr(C)]
#[derive(Clone, Copy, Debug, Default, Eq, PartialEq)]
#[must_use = "a refusal is told in it alone"]
pub struct Comparison {
    /// 0, or the number of the refusal
    pub refusal: u64,
    /// the suspect set's series, beside SUSPECT
    pub series: u64,
    /// the suspect set, beside SUSPECT
    pub set: u64,
    /// 1 distance or 2 height, beside SUSPECT
    pub quantity: u64,
    /// 1 when both can be of the same population, 0 when not
    pub same: u64,
}

extern "C" {
    /// The length of a register in bytes.
    pub fn rtk_length() -> u64;

    /// The form check apart: 0 in form, 1 REGISTER.
    pub fn rtk_check(register: *const u8, length: usize) -> u64;

    /// Closes every book, whatever the bytes held before.
    pub fn rtk_fresh(register: *mut u8, length: usize) -> u64;

    /// Opens a closed book with its twelve terms.
    pub fn rtk_open(
        register: *mut u8,
        length: usize,
        book: u64,
        d: i64,
        h: i64,
        s_xy: i64,
        s_h: i64,
        sigma_xy: i64,
        sigma_h: i64,
        x1: i64,
        y1: i64,
        h1: i64,
        x2: i64,
        y2: i64,
        h2: i64,
    ) -> u64;

    /// Closes an open book; its readings and changes are gone.
    pub fn rtk_strike(register: *mut u8, length: usize, book: u64) -> u64;

    /// Enters a reading at an empty place.
    pub fn rtk_enter(
        register: *mut u8,
        length: usize,
        book: u64,
        series: u64,
        set: u64,
        point: u64,
        x: i64,
        y: i64,
        h: i64,
    ) -> u64;

    /// Corrects the reading at a filled place.
    pub fn rtk_correct(
        register: *mut u8,
        length: usize,
        book: u64,
        series: u64,
        set: u64,
        point: u64,
        x: i64,
        y: i64,
        h: i64,
    ) -> u64;

    /// Withdraws the reading at a filled place.
    pub fn rtk_withdraw(
        register: *mut u8,
        length: usize,
        book: u64,
        series: u64,
        set: u64,
        point: u64,
    ) -> u64;

    /// Takes back the latest change not yet taken back.
    pub fn rtk_take_back(register: *mut u8, length: usize, book: u64) -> u64;

    /// Reads a place.
    pub fn rtk_read(
        register: *const u8,
        length: usize,
        book: u64,
        series: u64,
        set: u64,
        point: u64,
    ) -> Lengths;

    /// Fifteen times the residual of a place.
    pub fn rtk_residual(
        register: *const u8,
        length: usize,
        book: u64,
        series: u64,
        set: u64,
        point: u64,
    ) -> Lengths;

    /// How many changes can be taken back.
    pub fn rtk_changes(register: *const u8, length: usize, book: u64) -> Count;

    /// Evaluates a book.
    pub fn rtk_evaluate(register: *const u8, length: usize, book: u64) -> Evaluation;

    /// Compares the first book against the second on axis 1 (xy) or 2 (h).
    pub fn rtk_compare(
        register: *const u8,
        length: usize,
        first: u64,
        second: u64,
        axis: u64,
    ) -> Comparison;

    /// Writes the numbers of the books that pass from the list's start.
    pub fn rtk_pass_list(
        register: *const u8,
        length: usize,
        list: *mut u8,
        list_length: usize,
    ) -> Count;

    /// Evaluates a field file; touches no register.
    pub fn rtk_evaluate_file(file: *const u8, length: usize) -> Evaluation;
}
