//! What the program prints for a file.

use crate::file::book_in;
use crate::judgement::{evaluate, Answer, Judgement};
use crate::refusal::Refusal;

pub fn report(file: &[u8]) -> String {
    match book_in(file).and_then(|book| evaluate(&book)) {
        Ok(judgement) => judged(&judgement),
        Err(refusal) => refused(refusal),
    }
}

fn judged(judgement: &Judgement) -> String {
    let result = if judgement.passed() { "PASS" } else { "FAIL" };
    let (xy, h) = (answer("XY", &judgement.xy()), answer("H", &judgement.h()));
    format!("{xy}\n{h}\n{result}\n")
}

fn answer(axis: &str, answer: &Answer) -> String {
    let verdict = if answer.within { "WITHIN" } else { "BEYOND" };
    format!("{axis} {verdict} {} {}", answer.m, answer.b)
}

fn refused(refusal: Refusal) -> String {
    let number = refusal.number();
    match refusal {
        Refusal::Suspect(named) => {
            let (series, set, quantity) = (named.series, named.set, named.quantity);
            format!("REFUSED {number} {series} {set} {quantity}\n")
        }
        _ => format!("REFUSED {number}\n"),
    }
}
