//! Field files: whole, with something wrong in them, and no files at all.

use crate::call::{Reading, Terms};
use crate::dice::Dice;
use crate::image::{place, PLACES};
use crate::recipe::{self, Recipe};

/// What a file says, absent readings as none.
pub struct Contents {
    pub terms: Terms,
    pub readings: [Option<Reading>; PLACES],
}

impl Contents {
    pub fn drawn(dice: &mut Dice) -> Contents {
        let recipe = Recipe::drawn(dice);
        let mut contents = Contents {
            terms: recipe.terms,
            readings: recipe.readings.map(Some),
        };
        match dice.below(10) {
            0 => contents.readings[dice.index(PLACES)] = None,
            1 => {
                let readings = contents.readings.iter_mut();
                readings.for_each(|reading| *reading = reading.filter(|_| dice.one_in(2)));
            }
            2 => contents.terms = recipe::spoiled(dice, contents.terms),
            3 => {
                let at = dice.index(PLACES);
                contents.readings[at] = Some(recipe::at_the_reach(dice, &contents.terms, at));
            }
            _ => {}
        }
        contents
    }

    pub fn text(&self) -> String {
        let series: Vec<&[Option<Reading>]> = self.readings.chunks(PLACES / 3).collect();
        let mut text = String::from("CONTENTS 4\nTERMS 1\n");
        for (number, readings) in (1..).zip(&series) {
            let lines = readings.iter().flatten().count();
            text += &format!("SERIES{number} {lines}\n");
        }
        text += &line(&self.terms);
        for (at, reading) in self.readings.iter().enumerate() {
            if let Some([x, y, h]) = *reading {
                let [_, set, point] = place(at).map(|number| number as i64);
                text += &line(&[set, point, x, y, h]);
            }
        }
        text
    }
}

fn line(numbers: &[i64]) -> String {
    let fields: Vec<String> = numbers.iter().map(i64::to_string).collect();
    fields.join(" ") + "\n"
}

/// A file, more often than not with something wrong in it.
pub fn drawn(dice: &mut Dice) -> Vec<u8> {
    let text = Contents::drawn(dice).text();
    match dice.below(16) {
        0..=5 => text.into_bytes(),
        6..=8 => with_another_field(dice, &text),
        9..=10 => with_other_lines(dice, &text),
        11..=14 => with_other_bytes(dice, text.into_bytes()),
        _ => no_file(dice, text.into_bytes()),
    }
}

/// At or past the edge of what a number may be, parted by commas; the last is empty.
const FIELDS: &str = "0,1,2,3,4,5,6,9,10,11,-1,-0,00,01,+1,-,--1,1.0,0x1,999999999999,\
    -999999999999,1000000000000,9223372036854775808,18446744073709551617,TERMS,";

/// One field another.
fn with_another_field(dice: &mut Dice, text: &str) -> Vec<u8> {
    let others: Vec<&str> = FIELDS.split(',').collect();
    let fields = text.bytes().filter(|byte| matches!(byte, b' ' | b'\n'));
    let chosen = dice.index(fields.count());
    let field = dice.pick(&others);
    let mut out = String::new();
    for (at, part) in text.split_inclusive([' ', '\n']).enumerate() {
        let (old, end) = part.split_at(part.len() - 1);
        out += if at == chosen { field } else { old };
        out += end;
    }
    out.into_bytes()
}

/// Lines swapped, repeated or left out, with the contents saying so or not.
fn with_other_lines(dice: &mut Dice, text: &str) -> Vec<u8> {
    let mut lines: Vec<String> = text.split_inclusive('\n').map(String::from).collect();
    let at = dice.index(lines.len());
    match dice.below(4) {
        0 => {
            let other = dice.index(lines.len());
            lines.swap(at, other);
        }
        1 => lines.insert(at, lines[at].clone()),
        2 => drop(lines.remove(at)),
        _ => lines.insert(at, String::from("\n")),
    }
    if dice.one_in(2) {
        let series = dice.index(3);
        let lines_there = dice.below(13);
        if let Some(line) = lines.get_mut(2 + series) {
            *line = format!("SERIES{} {lines_there}\n", series + 1);
        }
    }
    lines.concat().into_bytes()
}

/// A byte or a few changed, put in or left out.
fn with_other_bytes(dice: &mut Dice, mut file: Vec<u8>) -> Vec<u8> {
    const BYTES: &[u8] = b"  \n\n\r\t-+0123456789.eE,;ACSTZ\0\x7F\x80\xFF";
    for _ in 0..dice.pick(&[1, 1, 1, 2, 5]) {
        let at = dice.index(file.len());
        let byte = dice.pick(BYTES);
        match dice.below(5) {
            0 => file[at] ^= 1 << dice.below(8),
            1 => file[at] = byte,
            2 => file.insert(at, byte),
            3 => drop(file.remove(at)),
            _ => file.insert(at, file[at]),
        }
    }
    file
}

fn no_file(dice: &mut Dice, mut file: Vec<u8>) -> Vec<u8> {
    match dice.below(7) {
        0 => file.truncate(dice.index(file.len())),
        1 => file.extend_from_within(..),
        2 => file.resize(dice.pick(&[4_096, 4_097, 5_000]), b'\n'),
        3 => file.push(dice.byte()),
        // With its high bits lost the length is that of the file before.
        4 => file.resize(file.len() + (1 << 16), b'\n'),
        5 => {
            let length = dice.index(300);
            file = (0..length).map(|_| dice.byte()).collect();
        }
        _ => {
            file = String::from_utf8_lossy(&file)
                .replace('\n', "\r\n")
                .into_bytes()
        }
    }
    file
}
