//! Who makes the calls: an examiner that fills books, corrects, takes back, compares and lists,
//! and now and then asks for something that cannot be had.

use crate::call::{Call, Place, Reading, Terms};
use crate::dice::Dice;
use crate::image::{place, Image, PLACES};
use crate::recipe::{self, Recipe, HIGH_BITS};
use meliphrast::BOOKS;
use std::collections::VecDeque;

/// Every list up to one byte more than there are books.
pub const ROOMS: usize = BOOKS + 2;

pub struct Examiner {
    pub dice: Dice,
    planned: VecDeque<Call>,
}

impl Examiner {
    pub fn new(dice: Dice) -> Examiner {
        Examiner {
            dice,
            planned: VecDeque::new(),
        }
    }

    /// The next call on a register that holds this.
    pub fn next(&mut self, register: &[u8]) -> Call {
        if self.dice.one_in(10) {
            return self.stray(register);
        }
        if self.planned.is_empty() {
            self.plan(register);
        }
        self.planned.pop_front().unwrap_or(Call::Check)
    }

    fn plan(&mut self, register: &[u8]) {
        let book = self.book();
        match Image::of(register, book) {
            Some(image) if !image.is_open() => self.plan_opening(book),
            Some(image) if !image.is_full() => self.plan_completion(book, &image),
            Some(image) => self.plan_work(book, &image),
            None => self.planned.push_back(Call::Fresh),
        }
    }

    /// Opens a book with bad terms, or fills it, or fills two to be compared.
    fn plan_opening(&mut self, book: u64) {
        let recipe = Recipe::drawn(&mut self.dice);
        match self.dice.below(12) {
            0 => {
                let terms = recipe::spoiled(&mut self.dice, recipe.terms);
                self.planned.push_back(Call::Open(book, terms));
            }
            1 => {
                let terms = recipe::at_the_edges(&mut self.dice);
                self.planned.push_back(Call::Open(book, terms));
                self.plan_reach(book, &terms);
            }
            2..=4 => self.plan_pair(book),
            _ => self.plan_filling(book, &recipe),
        }
    }

    fn plan_filling(&mut self, book: u64, recipe: &Recipe) {
        self.planned.push_back(Call::Open(book, recipe.terms));
        let mut order: Vec<usize> = (0..PLACES).collect();
        if self.dice.one_in(2) {
            self.dice.shuffle(&mut order);
        }
        if self.dice.one_in(10) {
            order.pop();
        }
        for at in order {
            let reading = recipe.readings[at];
            self.planned
                .push_back(Call::Enter(book, place(at), reading));
        }
        self.plan_questions(book);
    }

    /// Two books at a limit of the comparison; the other one is struck for it.
    fn plan_pair(&mut self, book: u64) {
        let other = self.book();
        let [first, second] = recipe::compared(&mut self.dice);
        self.planned.push_back(Call::Strike(other));
        self.plan_filling(other, &second);
        self.planned.push_back(Call::Strike(book));
        self.plan_filling(book, &first);
        for axis in [1, 2] {
            self.planned.push_back(Call::Compare(book, other, axis));
            self.planned.push_back(Call::Compare(other, book, axis));
        }
    }

    /// Enters what is missing, or asks too early, or gives the book up.
    fn plan_completion(&mut self, book: u64, image: &Image) {
        self.plan_questions(book);
        let terms = image.terms();
        match self.dice.below(8) {
            0 => self.planned.push_back(Call::Strike(book)),
            1 => self.plan_reach(book, &terms),
            2 => self.plan_taking_back(book),
            _ => {
                for at in (0..PLACES).filter(|at| image.reading(*at).is_none()) {
                    let reading = recipe::point(&terms, at);
                    self.planned
                        .push_back(Call::Enter(book, place(at), reading));
                }
                self.planned.push_back(Call::Evaluate(book));
            }
        }
    }

    /// What is done with a full book.
    fn plan_work(&mut self, book: u64, image: &Image) {
        match self.dice.below(72) {
            0..=2 => self.planned.push_back(Call::Strike(book)),
            3 => self.plan_many_changes(book, image),
            4..=7 => self.plan_reach(book, &image.terms()),
            8..=31 => self.plan_corrections(book, image),
            32..=39 => self.plan_taking_back(book),
            40..=45 => self.plan_withdrawal(book, image),
            46..=61 => {
                let (other, axis) = (self.book(), self.dice.below(2) + 1);
                self.planned.push_back(Call::Compare(book, other, axis));
            }
            _ => self.plan_questions(book),
        }
    }

    /// Small steps away from what stands there, with figures and list asked for in between.
    fn plan_corrections(&mut self, book: u64, image: &Image) {
        for _ in 0..self.dice.between(1, 6) {
            let at = self.dice.index(PLACES);
            let terms = image.terms();
            let stands = image.reading(at);
            let reading = self.moved(&terms, stands.unwrap_or(recipe::point(&terms, at)));
            self.planned
                .push_back(Call::Correct(book, place(at), reading));
            self.planned.push_back(Call::Evaluate(book));
            if self.dice.one_in(3) {
                let room = self.room();
                self.planned.push_back(Call::PassList(room));
            }
        }
    }

    /// The same again, a unit away, or about a stated deviation away.
    fn moved(&mut self, terms: &Terms, reading: Reading) -> Reading {
        let reach = match self.dice.below(4) {
            0 => [0, 0],
            1 => [1, 1],
            _ => [terms[4] * 2, terms[5] * 3],
        };
        let mut moved = reading;
        for (axis, coordinate) in moved.iter_mut().enumerate() {
            let reach = reach[axis / 2];
            if self.dice.one_in(2) {
                *coordinate += self.dice.between(-reach, reach);
            }
        }
        moved
    }

    fn plan_taking_back(&mut self, book: u64) {
        let times = self.dice.pick(&[1, 1, 1, 1, 1, 2, 2, 3, 5, 40]);
        for _ in 0..times {
            self.planned.push_back(Call::TakeBack(book));
            if self.dice.one_in(4) {
                self.plan_questions(book);
            }
        }
    }

    /// A withdrawal, and mostly an entry or a take-back after it.
    fn plan_withdrawal(&mut self, book: u64, image: &Image) {
        let at = self.dice.index(PLACES);
        self.planned.push_back(Call::Withdraw(book, place(at)));
        self.plan_questions(book);
        let again = recipe::point(&image.terms(), at);
        match self.dice.below(3) {
            0 => self.planned.push_back(Call::TakeBack(book)),
            1 => self.planned.push_back(Call::Enter(book, place(at), again)),
            _ => {}
        }
        self.plan_questions(book);
    }

    /// More changes than are kept, then more take-backs than there can be.
    fn plan_many_changes(&mut self, book: u64, image: &Image) {
        let at = self.dice.index(PLACES);
        let reading = image.reading(at).unwrap_or_default();
        for _ in 0..34 {
            self.planned
                .push_back(Call::Correct(book, place(at), reading));
        }
        for _ in 0..34 {
            self.planned.push_back(Call::Changes(book));
            self.planned.push_back(Call::TakeBack(book));
        }
    }

    /// Readings about the edge of what is near.
    fn plan_reach(&mut self, book: u64, terms: &Terms) {
        for _ in 0..self.dice.between(1, 5) {
            let at = self.dice.index(PLACES);
            let reading = recipe::at_the_reach(&mut self.dice, terms, at);
            self.planned
                .push_back(Call::Enter(book, place(at), reading));
            self.planned
                .push_back(Call::Correct(book, place(at), reading));
        }
    }

    fn plan_questions(&mut self, book: u64) {
        for _ in 0..self.dice.between(1, 3) {
            let at = place(self.dice.index(PLACES));
            let room = self.room();
            let question = match self.dice.below(6) {
                0 => Call::Read(book, at),
                1 => Call::Residual(book, at),
                2 => Call::Changes(book),
                3 => Call::PassList(room),
                _ => Call::Evaluate(book),
            };
            self.planned.push_back(question);
        }
    }

    fn book(&mut self) -> u64 {
        self.dice.below(BOOKS as u64) + 1
    }

    fn room(&mut self) -> usize {
        self.dice.index(ROOMS)
    }
}

/// Calls with arguments of every kind, each drawn by itself.
impl Examiner {
    /// Any call, with numbers that may be out of every range.
    pub fn stray(&mut self, register: &[u8]) -> Call {
        let (book, at) = (self.any_book(), self.any_place());
        match self.dice.below(48) {
            0 => Call::Length,
            1..=2 => Call::Check,
            3 => self.seldom(Call::Fresh),
            4..=8 => Call::Open(book, self.any_terms()),
            9 => self.seldom(Call::Strike(book)),
            10 => Call::Strike(self.any_number()),
            11..=14 => Call::Enter(book, at, self.any_reading(register, book)),
            15..=18 => Call::Correct(book, at, self.any_reading(register, book)),
            19..=20 => Call::Withdraw(book, at),
            21..=23 => Call::TakeBack(book),
            24..=26 => Call::Read(book, at),
            27..=29 => Call::Residual(book, at),
            30..=31 => Call::Changes(book),
            32..=35 => Call::Evaluate(book),
            36..=41 => Call::Compare(book, self.any_book(), self.any_axis()),
            // 256 and 65,536 are no room at all if high bits are lost.
            42..=45 => Call::PassList(self.dice.pick(&[0, 1, 15, 16, 17, 300, 1 << 8, 1 << 16])),
            _ => Call::PassList(self.room()),
        }
    }

    /// For a call that undoes the work of many.
    fn seldom(&mut self, call: Call) -> Call {
        if self.dice.one_in(20) {
            call
        } else {
            Call::Check
        }
    }

    fn any_book(&mut self) -> u64 {
        if self.dice.one_in(5) {
            self.any_number()
        } else {
            self.book()
        }
    }

    fn any_axis(&mut self) -> u64 {
        if self.dice.one_in(3) {
            self.any_number()
        } else {
            self.dice.below(2) + 1
        }
    }

    fn any_place(&mut self) -> Place {
        let mut place = place(self.dice.index(PLACES));
        if self.dice.one_in(5) {
            place[self.dice.index(3)] = self.any_number();
        }
        place
    }

    /// Numbers next to the ranges' ends, and those that are in range if high bits are lost.
    fn any_number(&mut self) -> u64 {
        let near = self.dice.below(19);
        let far = self
            .dice
            .pick(&[u64::MAX, 1 << 63, 1 << 32, 1 << 16, 1 << 8]);
        match self.dice.below(4) {
            0 => near,
            1 => self.dice.pick(&[0, 3, 4, 5, 6, 17]),
            2 => far,
            _ => far.wrapping_add(self.dice.pick(&[1, 2, 3, near])),
        }
    }

    fn any_terms(&mut self) -> Terms {
        let mut terms = Recipe::drawn(&mut self.dice).terms;
        match self.dice.below(5) {
            0 => terms = recipe::spoiled(&mut self.dice, terms),
            1 => terms = recipe::at_the_edges(&mut self.dice),
            2 => terms[self.dice.index(12)] = self.any_length(),
            _ => {}
        }
        terms
    }

    /// About the edge of what is near where the book is open, and any lengths otherwise.
    fn any_reading(&mut self, register: &[u8], book: u64) -> Reading {
        let mut reading = match Image::of(register, book) {
            Some(image) if image.is_open() => {
                let place = self.dice.index(PLACES);
                recipe::at_the_reach(&mut self.dice, &image.terms(), place)
            }
            _ => [self.any_length(), self.any_length(), self.any_length()],
        };
        let axis = self.dice.index(3);
        match self.dice.below(8) {
            0..=1 => reading[axis] = self.any_length(),
            2 => reading[axis] = reading[axis].wrapping_add(self.dice.pick(&HIGH_BITS)),
            _ => {}
        }
        reading
    }

    /// Ends of ranges, of twelve digits and of the machine's numbers, next to them, and small
    /// lengths if high bits are lost.
    fn any_length(&mut self) -> i64 {
        const ENDS: [i64; 10] = [
            0,
            1,
            10_000,
            100_000,
            500_000,
            100_000_000_000,
            100_000_100_000,
            999_999_999_999,
            1_000_000_000_000,
            i64::MAX,
        ];
        let end = self.dice.pick(&ENDS) * self.dice.sign();
        match self.dice.below(6) {
            0 => self.dice.word() as i64,
            1 => end,
            2 => end.wrapping_add(1),
            3 => end.wrapping_sub(1),
            4 => self.dice.between(1, 500) + self.dice.pick(&HIGH_BITS),
            _ => end.wrapping_sub(self.dice.between(0, 2_000_000_000_000)),
        }
    }
}
