//! The reader of field files, for any bytes.

use crate::alone::Words;
use crate::book::{Book, Coordinates};
use crate::image::{image_of, BOOK_WORDS};
use crate::judgement;
use crate::procedure::{place_of, PLACES, POINTS, SERIES, SETS};
use crate::records::Evaluation;
use crate::refusal::Refusal;
use crate::terms::{Terms, TERMS};

/// A longer file is not of the form.
pub const FILE_AT_MOST: usize = 4_096;

const LINES_OF_A_SERIES_AT_MOST: i64 = (SETS * POINTS) as i64;
const DIGITS_AT_MOST: usize = 12;

/// The book that a file describes; a refused file's book is closed and empty.
pub fn read_file(file: &[u8]) -> (Words, u64) {
    match book_in(file) {
        Ok(book) => (image_of(&Some(book)).map(u64::from_le_bytes), 0),
        Err(refusal) => ([0; BOOK_WORDS], refusal.number()),
    }
}

pub fn evaluate_file(file: &[u8]) -> Evaluation {
    book_in(file)
        .and_then(|book| judgement::evaluate(&book))
        .into()
}

/// FORM is settled for the whole file before TERMS, and TERMS before FAR.
pub(crate) fn book_in(file: &[u8]) -> Result<Book, Refusal> {
    let (terms, readings) = numbers_in(file).ok_or(Refusal::Form)?;
    let mut book = Book::opened(Terms::from_numbers(terms))?;
    for (place, reading) in readings.iter().enumerate() {
        if let Some(reading) = reading {
            book.must_be_near(place, reading)?;
        }
    }
    book.readings = readings;
    Ok(book)
}

type Numbers = ([i64; TERMS], [Option<Coordinates>; PLACES]);

fn numbers_in(file: &[u8]) -> Option<Numbers> {
    if file.len() > FILE_AT_MOST {
        return None;
    }
    let mut rest = file;
    let counts = contents(&mut rest)?;
    let terms = line(&mut rest)?;
    let mut readings = [None; PLACES];
    for (series, count) in (1..).zip(counts) {
        body(&mut rest, series, count, &mut readings)?;
    }
    rest.is_empty().then_some((terms, readings))
}

/// The table of contents: how many lines each series has.
fn contents(rest: &mut &[u8]) -> Option<[i64; SERIES]> {
    text(rest, b"CONTENTS 4\nTERMS 1\n")?;
    let mut counts = [0; SERIES];
    let headings = [b"SERIES1 ", b"SERIES2 ", b"SERIES3 "];
    for (count, heading) in counts.iter_mut().zip(headings) {
        text(rest, heading)?;
        [*count] = line(rest)?;
        if !(0..=LINES_OF_A_SERIES_AT_MOST).contains(count) {
            return None;
        }
    }
    Some(counts)
}

fn body(
    rest: &mut &[u8],
    series: u64,
    count: i64,
    readings: &mut [Option<Coordinates>; PLACES],
) -> Option<()> {
    let mut latest = None;
    for _ in 0..count {
        let [set, point, x, y, h] = line(rest)?;
        let (set, point) = (u64::try_from(set).ok()?, u64::try_from(point).ok()?);
        let place = place_of(series, set, point).ok()?;
        // Strictly rising by set, then point, is strictly rising in sheet order.
        if latest.is_some_and(|latest| place <= latest) {
            return None;
        }
        latest = Some(place);
        readings[place] = Some([x, y, h]);
    }
    Some(())
}

/// Exactly N numbers with one space between, then the LF.
fn line<const N: usize>(rest: &mut &[u8]) -> Option<[i64; N]> {
    let mut numbers = [0; N];
    for (field, slot) in numbers.iter_mut().enumerate() {
        *slot = number(rest)?;
        text(rest, if field + 1 < N { b" " } else { b"\n" })?;
    }
    Some(numbers)
}

/// 1 to 12 digits, a '-' before them if negative, no leading zero and no -0.
fn number(rest: &mut &[u8]) -> Option<i64> {
    let negative = text(rest, b"-").is_some();
    let digits = rest.iter().take_while(|byte| byte.is_ascii_digit()).count();
    if !(1..=DIGITS_AT_MOST).contains(&digits) {
        return None;
    }
    let (digits, after) = rest.split_at(digits);
    if digits[0] == b'0' && (negative || digits.len() > 1) {
        return None;
    }
    *rest = after;
    let next = |number, digit: &u8| number * 10 + i64::from(digit - b'0');
    let value = digits.iter().fold(0, next);
    Some(if negative { -value } else { value })
}

/// Steps over fixed bytes, if they are there.
fn text(rest: &mut &[u8], wanted: &[u8]) -> Option<()> {
    *rest = rest.strip_prefix(wanted)?;
    Some(())
}
