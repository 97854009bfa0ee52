//! Wrong readers of field files.

use super::{right, Wrong};
use crate::call::{Answer, Call};
use crate::desk::Desk;

pub fn wrong_programs() -> Vec<Wrong> {
    vec![
        reading("two spaces read as one", |file| replaced(file, b"  ", b" ")),
        reading("-0 read as 0", |file| replaced(file, b" -0", b" 0")),
        reading("leading zeros passed over", without_leading_zeros),
        reading("CR LF read as LF", |file| replaced(file, b"\r\n", b"\n")),
        reading("a space at a line's end passed over", |file| {
            replaced(file, b" \n", b"\n")
        }),
        reading("an empty line passed over", |file| {
            replaced(file, b"\n\n", b"\n")
        }),
        reading("no LF needed at the end", |file| [file, b"\n"].concat()),
        reading("bytes behind the last LF passed over", |file| {
            let last = file.iter().rposition(|byte| *byte == b'\n');
            file[..last.map_or(0, |last| last + 1)].to_vec()
        }),
        reading("the file's length cut to 16 bits", |file| {
            file[..usize::from(file.len() as u16)].to_vec()
        }),
        Wrong::new("FAR before TERMS", far_before_terms),
        Wrong::new("SHORT before FAR", short_before_far),
    ]
}

/// A reader that, where a file is not of the form, looks at it again with something set right.
fn reading(name: &str, set_right: fn(&[u8]) -> Vec<u8>) -> Wrong {
    Wrong::new(name, move |call, desk| {
        let answer = right(call, desk);
        match call {
            Call::EvaluateFile(file) if answer.refusal == 14 => again(set_right(file)),
            _ => answer,
        }
    })
}

fn again(file: Vec<u8>) -> Answer {
    let call = Call::EvaluateFile(file);
    let mut desk = Desk::with(&[], 0);
    desk.lay_out(&call);
    right(&call, &mut desk)
}

fn replaced(file: &[u8], old: &[u8], new: &[u8]) -> Vec<u8> {
    let mut rest = file;
    let mut out = Vec::new();
    while let Some((first, after)) = rest.split_first() {
        match rest.strip_prefix(old) {
            Some(after) => {
                out.extend(new);
                rest = after;
            }
            None => {
                out.push(*first);
                rest = after;
            }
        }
    }
    out
}

fn without_leading_zeros(file: &[u8]) -> Vec<u8> {
    let mut out: Vec<u8> = Vec::new();
    for (at, byte) in file.iter().enumerate() {
        let begins = !out.last().is_some_and(u8::is_ascii_digit);
        let goes_on = file.get(at + 1).is_some_and(u8::is_ascii_digit);
        if *byte != b'0' || !begins || !goes_on {
            out.push(*byte);
        }
    }
    out
}

/// The file's lines, fields apart.
fn lines(call: &Call) -> Option<Vec<Vec<i64>>> {
    let Call::EvaluateFile(file) = call else {
        return None;
    };
    let text = std::str::from_utf8(file).ok()?;
    let numbers = |line: &str| line.split(' ').map(str::parse).collect();
    let lines: Result<_, _> = text.lines().skip(5).map(numbers).collect();
    lines.ok()
}

fn far_before_terms(call: &Call, desk: &mut Desk) -> Answer {
    let answer = right(call, desk);
    match lines(call) {
        Some(lines) if answer.refusal == 4 => {
            let far = lines[1..].iter().any(|line| {
                let point = &lines[0][3 + line[1] as usize * 3..];
                (0..3).any(|axis| line[2 + axis].abs_diff(point[axis]) > 100_000)
            });
            Answer::number(if far { 8 } else { 4 })
        }
        _ => answer,
    }
}

fn short_before_far(call: &Call, desk: &mut Desk) -> Answer {
    let answer = right(call, desk);
    match lines(call) {
        Some(lines) if answer.refusal == 8 && lines.len() < 31 => Answer::number(10),
        _ => answer,
    }
}
