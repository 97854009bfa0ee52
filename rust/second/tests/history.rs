//! Long runs of changes and take-backs against whole sheets kept aside.

mod common;

use common::{fresh_register, places, Dice, POINTS, TERMS};
use second::register::{changes, correct, enter, in_form, open, read, take_back, withdraw};

type Sheet = Vec<Option<[i64; 3]>>;

/// The sheet as it stands, and the sheets from before each change that can be taken back.
struct Model {
    sheet: Sheet,
    earlier: Vec<Sheet>,
}

impl Model {
    fn change(&mut self, place: usize, reading: Option<[i64; 3]>) {
        self.earlier.push(self.sheet.clone());
        if self.earlier.len() > 32 {
            self.earlier.remove(0);
        }
        self.sheet[place] = reading;
    }
}

/// What a call must answer: the first refusal that applies, or 0.
fn first_of(refusals: &[(bool, u64)]) -> u64 {
    let applying = refusals.iter().find(|(applies, _)| *applies);
    applying.map_or(0, |(_, number)| *number)
}

fn act(register: &mut [u8], model: &mut Model, dice: &mut Dice, book: u64) {
    if dice.roll(5) == 0 {
        let wanted = first_of(&[(model.earlier.is_empty(), 9)]);
        assert_eq!(take_back(register, book), wanted);
        if let Some(sheet) = model.earlier.pop() {
            model.sheet = sheet;
        }
    } else {
        change(register, model, dice, book);
    }
}

fn change(register: &mut [u8], model: &mut Model, dice: &mut Dice, book: u64) {
    let place = dice.roll(6) as usize * 5;
    let [series, set, point] = places().nth(place).unwrap();
    let offset = dice.between(-100_001, 100_001);
    let [x, y, h] = POINTS[place % 2].map(|length| length + offset);
    let far = (offset.abs() > 100_000, 8);
    let filled = model.sheet[place].is_some();
    let (given, wanted, after) = match dice.roll(4) {
        0 => {
            let given = withdraw(register, book, series, set, point);
            (given, first_of(&[(!filled, 7)]), None)
        }
        1 => {
            let given = correct(register, book, series, set, point, x, y, h);
            (given, first_of(&[(!filled, 7), far]), Some([x, y, h]))
        }
        _ => {
            let given = enter(register, book, series, set, point, x, y, h);
            (given, first_of(&[(filled, 6), far]), Some([x, y, h]))
        }
    };
    assert_eq!(given, wanted);
    if given == 0 {
        model.change(place, after);
    }
}

#[test]
fn sixteen_books_keep_their_own_history() {
    let mut dice = Dice::new(4_711);
    let mut register = fresh_register();
    let mut models: Vec<Model> = Vec::new();
    for book in 1..=16 {
        assert_eq!(open(&mut register, book, TERMS), 0);
        let (sheet, earlier) = (vec![None; 30], Vec::new());
        models.push(Model { sheet, earlier });
    }
    for _ in 0..20_000 {
        let book = dice.roll(16) + 1;
        let model = &mut models[book as usize - 1];
        act(&mut register, model, &mut dice, book);
        assert_eq!(changes(&register, book).count, model.earlier.len() as u64);
    }
    assert!(in_form(&register));
    for (book, model) in (1..).zip(&models) {
        for ([series, set, point], reading) in places().zip(&model.sheet) {
            let given = read(&register, book, series, set, point);
            let given = (given.refusal, [given.x, given.y, given.h]);
            assert_eq!(given, reading.map_or((7, [0; 3]), |reading| (0, reading)));
        }
    }
}
