//! Wrong pass lists.

use super::{right, Wrong};
use crate::call::{Answer, Call};
use crate::desk::{Desk, Lent};
use meliphrast::BOOKS;

pub fn wrong_programs() -> Vec<Wrong> {
    vec![
        stale(),
        Wrong::new("no book 16 on the list", without_the_last),
        Wrong::new("the list falling", falling),
        Wrong::new("a list of sixteen, counted so", counted_sixteen),
        Wrong::new("the bytes behind the list cleared", cleared_behind),
        Wrong::new("ROOM for any list under sixteen bytes", room_for_sixteen),
        Wrong::new("a refused list begun", begun),
        Wrong::new("twelve books at most on the list", twelve_at_most),
        Wrong::new("ROOM never met from fifteen bytes on", room_from_fifteen),
        Wrong::new("the list's length cut to 16 bits", length_cut),
    ]
}

/// Remembers the list, and a correction does not make it look again.
fn stale() -> Wrong {
    let mut remembered: Option<Vec<u8>> = None;
    Wrong::new("the list from before a correction", move |call, desk| {
        let answer = right(call, desk);
        match call {
            Call::PassList(_) if answer.is_accepted() => {
                let listed = &mut desk.list.bytes_mut()[..answer.words[0] as usize];
                let old = remembered.get_or_insert_with(|| listed.to_vec());
                if old.len() == listed.len() {
                    listed.copy_from_slice(old);
                    return answer;
                }
                Answer::count(0, old.len() as u64)
            }
            Call::Correct(..) => answer,
            _ => {
                remembered = remembered.take().filter(|_| changes_nothing(call));
                answer
            }
        }
    })
}

fn changes_nothing(call: &Call) -> bool {
    matches!(
        call,
        Call::Read(..) | Call::Residual(..) | Call::Changes(_) | Call::Evaluate(_)
    )
}

/// The books on the list, where there is room for any number of them.
fn listed(desk: &mut Desk) -> Vec<u8> {
    let mut roomy = desk.clone();
    roomy.list = Lent::copy_of(&[0; BOOKS], 0);
    let answer = right(&Call::PassList(BOOKS), &mut roomy);
    roomy.list.bytes()[..answer.words[0] as usize].to_vec()
}

fn without_the_last(call: &Call, desk: &mut Desk) -> Answer {
    match call {
        Call::PassList(_) => {
            let mut books = listed(desk);
            books.retain(|book| *book != 16);
            write(desk, &books, call)
        }
        _ => right(call, desk),
    }
}

/// Writes these books if there is room, on a register in form.
fn write(desk: &mut Desk, books: &[u8], call: &Call) -> Answer {
    let answer = right(call, &mut desk.clone());
    match desk.list.bytes_mut().get_mut(..books.len()) {
        Some(start) if answer.refusal != 1 => {
            start.copy_from_slice(books);
            Answer::count(0, books.len() as u64)
        }
        _ => answer,
    }
}

fn falling(call: &Call, desk: &mut Desk) -> Answer {
    match call {
        Call::PassList(_) => {
            let mut books = listed(desk);
            books.reverse();
            write(desk, &books, call)
        }
        _ => right(call, desk),
    }
}

fn counted_sixteen(call: &Call, desk: &mut Desk) -> Answer {
    let answer = right(call, desk);
    match call {
        Call::PassList(_) if answer.is_accepted() => Answer::count(0, BOOKS as u64),
        _ => answer,
    }
}

fn cleared_behind(call: &Call, desk: &mut Desk) -> Answer {
    let answer = right(call, desk);
    if let (Call::PassList(_), true) = (call, answer.is_accepted()) {
        desk.list.bytes_mut()[answer.words[0] as usize..].fill(0);
    }
    answer
}

fn room_for_sixteen(call: &Call, desk: &mut Desk) -> Answer {
    match call {
        Call::PassList(0..BOOKS) if right(&Call::Check, desk).is_accepted() => Answer::number(13),
        _ => right(call, desk),
    }
}

fn begun(call: &Call, desk: &mut Desk) -> Answer {
    let answer = right(call, desk);
    if let (Call::PassList(room), 13) = (call, answer.refusal) {
        let books = listed(desk);
        desk.list.bytes_mut().copy_from_slice(&books[..*room]);
    }
    answer
}

fn twelve_at_most(call: &Call, desk: &mut Desk) -> Answer {
    match call {
        Call::PassList(_) => {
            let mut books = listed(desk);
            books.truncate(12);
            write(desk, &books, call)
        }
        _ => right(call, desk),
    }
}

fn room_from_fifteen(call: &Call, desk: &mut Desk) -> Answer {
    let answer = right(call, desk);
    match call {
        Call::PassList(room @ 15..) if answer.refusal == 13 => {
            let books = listed(desk);
            desk.list.bytes_mut().copy_from_slice(&books[..*room]);
            Answer::count(0, *room as u64)
        }
        _ => answer,
    }
}

fn length_cut(call: &Call, desk: &mut Desk) -> Answer {
    let answer = right(call, &mut desk.clone());
    match call {
        Call::PassList(room) if answer.words[0] > u64::from(*room as u16) => Answer::number(13),
        _ => right(call, desk),
    }
}
