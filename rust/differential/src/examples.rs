//! The field files to try by hand, with the reports that stand beside them.

use crate::call::{Answer, Call, BOUND, DEVIATION, H, XY};
use crate::image::{place, Image, PLACES};
use crate::side_by_side::{Difference, SideBySide};
use meliphrast::LENGTH;
use second::file::read_file;
use std::fs;
use std::path::{Path, PathBuf};

/// A field file and what the program prints for it.
pub struct Example {
    pub file: Vec<u8>,
    pub report: String,
}

/// Every example of the repository, by name.
pub fn examples() -> Vec<Example> {
    let folder = Path::new(env!("CARGO_MANIFEST_DIR")).join("../../examples");
    let entries = fs::read_dir(&folder).expect("the repository has examples");
    let paths = entries.map(|entry| entry.expect("a readable folder").path());
    let is_field = |path: &PathBuf| path.extension().is_some_and(|ending| ending == "field");
    let mut paths: Vec<PathBuf> = paths.filter(is_field).collect();
    paths.sort();
    let read = |path: &PathBuf| Example {
        file: fs::read(path).expect("a field file"),
        report: fs::read_to_string(path.with_extension("expected")).expect("its report"),
    };
    paths.iter().map(read).collect()
}

/// Each example answered alike and as its report says, as a file and, where it can be read,
/// entered in a book.
pub fn run(pair: &mut SideBySide) -> Result<(), Box<Difference>> {
    for example in examples() {
        let call = Call::EvaluateFile(example.file.clone());
        let answer = pair.call(&call)?;
        must_report(pair, &call, &answer, &example)?;
        let (words, refusal) = read_file(&example.file);
        if refusal == 0 {
            let answer = enter(pair, &Image { words })?;
            must_report(pair, &Call::Evaluate(BOOK), &answer, &example)?;
        }
    }
    Ok(())
}

const BOOK: u64 = 9;

/// The evaluation of a book with these terms and readings, made call by call.
fn enter(pair: &mut SideBySide, image: &Image) -> Result<Answer, Box<Difference>> {
    pair.lend(&[0; LENGTH], 0);
    pair.call(&Call::Open(BOOK, image.terms()))?;
    for at in 0..PLACES {
        if let Some(reading) = image.reading(at) {
            pair.call(&Call::Enter(BOOK, place(at), reading))?;
        }
    }
    pair.call(&Call::Evaluate(BOOK))
}

fn must_report(
    pair: &SideBySide,
    call: &Call,
    answer: &Answer,
    example: &Example,
) -> Result<(), Box<Difference>> {
    let given = report(answer);
    if given == example.report {
        return Ok(());
    }
    let what = format!("{given}and not {}", example.report);
    Err(pair.part(call, what))
}

/// What the program prints for such an answer.
pub fn report(answer: &Answer) -> String {
    let [series, set, quantity] = answer.named;
    match answer.refusal {
        0 => {
            let result = if answer.passes() { "PASS" } else { "FAIL" };
            let (xy, h) = (verdict("XY", answer, XY), verdict("H", answer, H));
            format!("{xy}\n{h}\n{result}\n")
        }
        11 => format!("REFUSED 11 {series} {set} {quantity}\n"),
        refusal => format!("REFUSED {refusal}\n"),
    }
}

fn verdict(name: &str, answer: &Answer, axis: usize) -> String {
    let word = if answer.is_within(axis) {
        "WITHIN"
    } else {
        "BEYOND"
    };
    let [m, b] = [DEVIATION, BOUND].map(|at| f64::from_bits(answer.words[axis + at]) * 1_024.0);
    format!("{name} {word} {m} {b}")
}
