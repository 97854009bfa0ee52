//! What was tried, counted by call and by outcome.

use crate::call::{Answer, Call, H, KINDS, XY};
use crate::examiner::ROOMS;
use crate::image::Image;
use crate::sums;
use meliphrast::BOOKS;
use second::register::pass_list;
use std::collections::BTreeMap;
use std::fmt;
use std::ops::AddAssign;

const OUTCOMES: usize = 15;

/// The refusals that each call can meet, beside being accepted.
const REFUSALS: [&[usize]; KINDS.len()] = [
    &[],
    &[1],
    &[1],
    &[1, 2, 3, 4],
    &[1, 2, 5],
    &[1, 2, 5, 6, 8],
    &[1, 2, 5, 7, 8],
    &[1, 2, 5, 7],
    &[1, 2, 5, 9],
    &[1, 2, 5, 7],
    &[1, 2, 5, 10],
    &[1, 2, 5],
    &[1, 2, 5, 10, 11],
    &[1, 2, 5, 10, 11, 12],
    &[1, 13],
    &[4, 8, 10, 11, 14],
];

/// What else has to come up in a run that is worth something.
const CASES: [&str; 18] = [
    "xy within, h within",
    "xy within, h beyond",
    "xy beyond, h within",
    "xy beyond, h beyond",
    "xy exactly at its bound",
    "h exactly at its bound",
    "xy beyond with equal figures",
    "h beyond with equal figures",
    "suspect distance",
    "suspect height",
    "same population",
    "not the same",
    "xy exactly at the lower limit",
    "xy exactly at the upper limit",
    "h exactly at the lower limit",
    "h exactly at the upper limit",
    "damaged and in form",
    "damaged and not in form",
];

#[derive(Clone, Debug, Default)]
pub struct Tally {
    outcomes: [[u64; OUTCOMES]; KINDS.len()],
    /// By the number of books on the list, then by its room
    lists: [[u64; ROOMS]; BOOKS + 1],
    cases: BTreeMap<&'static str, u64>,
    pub damaged: u64,
}

impl Tally {
    pub fn calls(&self) -> u64 {
        self.outcomes.iter().flatten().sum()
    }

    pub fn files(&self) -> u64 {
        self.outcomes[KINDS.len() - 1].iter().sum()
    }

    pub fn case(&mut self, name: &'static str) {
        *self.cases.entry(name).or_default() += 1;
    }

    /// Counts a call by what it was answered.
    pub fn count(&mut self, call: &Call, answer: &Answer, register: &[u8]) {
        let outcome = if let Call::Length = call {
            0
        } else {
            answer.refusal as usize
        };
        self.outcomes[call.kind()][outcome.min(OUTCOMES - 1)] += 1;
        match *call {
            Call::PassList(room) if outcome != 1 => self.count_list(register, room),
            Call::Evaluate(_) | Call::EvaluateFile(_) if answer.is_accepted() => {
                self.count_verdicts(answer);
                if let Call::Evaluate(book) = *call {
                    self.count_bounds(answer, register, book);
                }
            }
            Call::Compare(first, second, axis) if answer.is_accepted() => {
                self.case(["not the same", "same population"][answer.words[0] as usize]);
                self.count_limits(register, [first, second], axis);
            }
            _ if outcome == 11 => {
                self.case(["suspect distance", "suspect height"][answer.named[2] as usize - 1])
            }
            _ => {}
        }
    }

    /// A refused list is counted by the books that it had no room for.
    fn count_list(&mut self, register: &[u8], room: usize) {
        let books = pass_list(register, &mut [0; BOOKS]).count;
        if let Some(times) = self.lists[books as usize].get_mut(room) {
            *times += 1;
        }
    }

    fn count_verdicts(&mut self, answer: &Answer) {
        let within = [XY, H].map(|axis| answer.is_within(axis));
        self.case(match within {
            [true, true] => "xy within, h within",
            [true, false] => "xy within, h beyond",
            [false, true] => "xy beyond, h within",
            [false, false] => "xy beyond, h beyond",
        });
        for (axis, case) in [
            (XY, "xy beyond with equal figures"),
            (H, "h beyond with equal figures"),
        ] {
            if answer.shows_equal(axis) && !answer.is_within(axis) {
                self.case(case);
            }
        }
    }

    fn count_bounds(&mut self, answer: &Answer, register: &[u8], book: u64) {
        // Only equal figures can stand for a sum at its bound.
        if !answer.shows_equal(XY) && !answer.shows_equal(H) {
            return;
        }
        let Some((terms, sums)) = Image::of(register, book).and_then(sums::of) else {
            return;
        };
        if sums::xy_over_bound(&terms, &sums) == 0 {
            self.case("xy exactly at its bound");
        }
        if sums::h_over_bound(&terms, &sums) == 0 {
            self.case("h exactly at its bound");
        }
    }

    fn count_limits(&mut self, register: &[u8], books: [u64; 2], axis: u64) {
        let [first, second] = books.map(|book| {
            let (_, sums) = Image::of(register, book).and_then(sums::of).unwrap();
            if axis == 1 {
                sums.xy()
            } else {
                sums.h
            }
        });
        let (limits, names) = match axis {
            1 => (
                [59, 170],
                [
                    "xy exactly at the lower limit",
                    "xy exactly at the upper limit",
                ],
            ),
            _ => (
                [47, 213],
                [
                    "h exactly at the lower limit",
                    "h exactly at the upper limit",
                ],
            ),
        };
        for (limit, name) in limits.into_iter().zip(names) {
            if 100 * first == limit * second {
                self.case(name);
            }
        }
    }

    /// What can come up and did not.
    pub fn missing(&self) -> Vec<String> {
        let mut missing = Vec::new();
        for (kind, refusals) in REFUSALS.iter().enumerate() {
            for outcome in [0].iter().chain(*refusals) {
                if self.outcomes[kind][*outcome] == 0 {
                    missing.push(format!("{} with outcome {outcome}", KINDS[kind]));
                }
            }
        }
        for (books, rooms) in self.lists.iter().enumerate() {
            let never = (0..ROOMS).filter(|room| rooms[*room] == 0);
            missing.extend(never.map(|room| format!("{books} books in a list of {room} bytes")));
        }
        let cases = CASES.iter();
        let absent = cases.filter(|case| !self.cases.contains_key(*case));
        missing.extend(absent.map(|case| case.to_string()));
        missing
    }
}

impl AddAssign for Tally {
    fn add_assign(&mut self, other: Tally) {
        let outcomes = self.outcomes.iter_mut().flatten();
        let others = other.outcomes.iter().flatten();
        let lists = self.lists.iter_mut().flatten();
        let other_lists = other.lists.iter().flatten();
        for (here, there) in outcomes.zip(others).chain(lists.zip(other_lists)) {
            *here += there;
        }
        for (case, times) in other.cases {
            *self.cases.entry(case).or_default() += times;
        }
        self.damaged += other.damaged;
    }
}

impl fmt::Display for Tally {
    fn fmt(&self, f: &mut fmt::Formatter<'_>) -> fmt::Result {
        let (calls, files, damaged) = (self.calls(), self.files(), self.damaged);
        writeln!(
            f,
            "{calls} calls, {files} files, {damaged} damaged registers"
        )?;
        for (name, outcomes) in KINDS.iter().zip(&self.outcomes) {
            write!(f, "  {name:13} accepted {:8}", outcomes[0])?;
            for (refusal, times) in outcomes.iter().enumerate().skip(1) {
                if *times > 0 {
                    write!(f, "  {refusal}: {times}")?;
                }
            }
            writeln!(f)?;
        }
        let by_books = self.lists.map(|rooms| rooms.iter().sum::<u64>());
        writeln!(f, "  lists of 0 to {BOOKS} books: {by_books:?}")?;
        let in_room = |room: usize| self.lists.iter().map(|rooms| rooms[room]).sum();
        let by_room: [u64; ROOMS] = std::array::from_fn(in_room);
        writeln!(f, "  lists of 0 to {} bytes: {by_room:?}", ROOMS - 1)?;
        for (case, times) in &self.cases {
            writeln!(f, "  {case}: {times}")?;
        }
        Ok(())
    }
}
