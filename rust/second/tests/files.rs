//! The field file: every example of the repository, the annex data, and single-byte edits.

mod common;

use common::{enter_at, fresh_register, places, Dice};
use second::file::{evaluate_file, read_file};
use second::register::{compare, evaluate, open, residual};
use second::report::report;
use second::screening::distance;
use second::{alone, Evaluation, Words, BOOK_WORDS};
use std::{fs, path::PathBuf};

const BIAS: i64 = 1_000_000_000_000;

/// As many as README tells of.
const EXAMPLES: usize = 58;

fn examples() -> PathBuf {
    PathBuf::from(env!("CARGO_MANIFEST_DIR")).join("../../examples")
}

fn example(name: &str) -> Vec<u8> {
    fs::read(examples().join(format!("{name}.field"))).expect("an example")
}

#[test]
fn every_example_gives_its_expected_report() {
    let mut seen = 0;
    for entry in fs::read_dir(examples()).expect("the examples") {
        let path = entry.expect("an entry").path();
        if path
            .extension()
            .is_some_and(|extension| extension == "field")
        {
            let file = fs::read(&path).expect("a field file");
            let expected = fs::read_to_string(path.with_extension("expected")).expect("a report");
            assert_eq!(report(&file), expected, "{}", path.display());
            seen += 1;
        }
    }
    assert_eq!(seen, EXAMPLES);
}

#[test]
fn a_file_reads_as_an_open_book_with_nothing_to_take_back() {
    let (book, refusal) = read_file(&example("refused_10_short"));
    assert_eq!((book[0], refusal), (1, 0));
    assert!(book[103..].iter().all(|word| *word == 0));
    assert_eq!(alone::evaluate(&book).refusal, 10);
    assert_eq!(alone::take_back(book), (book, 9));
    let (next, refusal) = alone::enter(book, 2, 5, 2, [100_000, 0, 0]);
    assert_eq!((next[103], refusal), (1, 0));
    for name in ["refused_14_form", "refused_4_terms", "refused_8_far"] {
        let (book, refusal) = read_file(&example(name));
        assert_eq!(book, [0; BOOK_WORDS]);
        assert_eq!(refusal, evaluate_file(&example(name)).refusal);
    }
}

#[test]
fn a_suspect_file_names_its_set() {
    let named = Evaluation {
        refusal: 11,
        series: 2,
        set: 3,
        quantity: 1,
        ..Evaluation::default()
    };
    assert_eq!(evaluate_file(&example("refused_11_distance")), named);
}

/// The lengths of a book's image: terms, then readings in sheet order.
fn lengths(book: &Words) -> Vec<i64> {
    book[1..103]
        .iter()
        .map(|word| *word as i64 - BIAS)
        .collect()
}

fn set_deviations(book: &Words, sets: usize) -> Vec<(i64, i64)> {
    let lengths = lengths(book);
    let set = |places: &[i64]| {
        let first = [places[0], places[1], places[2]];
        let second = [places[3], places[4], places[5]];
        let d = distance(&first, &second) - lengths[0];
        (d, second[2] - first[2] - lengths[1])
    };
    lengths[12..].chunks(6).take(sets).map(set).collect()
}

#[test]
fn annex_a_deviations() {
    let (book, refusal) = read_file(&example("annex_a_short"));
    assert_eq!(refusal, 0);
    let expected = [(206, 110), (26, 40), (-16, 100), (-101, 140), (23, 0)];
    assert_eq!(set_deviations(&book, 5), expected);
}

#[test]
fn annex_a_three_times_over() {
    let given = evaluate_file(&example("annex_a_thrice"));
    let sheet = [
        given.sheet.s_x,
        given.sheet.s_y,
        given.sheet.s_xy,
        given.sheet.s_h,
    ];
    assert_eq!(sheet, [5624.0, 4889.0, 7452.0, 6331.0].map(|m| m / 1024.0));
    // The screening's s does not come into the figures: it passes from s_xy 59 on, by d 206.
    assert_eq!(evaluate_file(&example("annex_a_at_limit")), given);
    let named = Evaluation {
        refusal: 11,
        series: 1,
        set: 1,
        quantity: 1,
        ..Evaluation::default()
    };
    assert_eq!(evaluate_file(&example("annex_a_suspect")), named);
}

#[test]
fn annex_b_deviations_agree_with_the_printed_millimetres() {
    let (book, refusal) = read_file(&example("annex_b"));
    assert_eq!(refusal, 0);
    let printed_heights = [-21, 8, -7, -13, -19, -5, 2, -11, -2, 0, 0, -10, -14, -1, 12];
    let printed_distances = [
        20_003, 19_980, 19_987, 19_997, 19_994, 19_997, 19_995, 19_999, 19_998, 19_992, 19_994,
        20_000, 19_996, 20_000, 19_995,
    ];
    let deviations = set_deviations(&book, 15);
    for ((d, h), (distance, height)) in deviations
        .iter()
        .zip(printed_distances.iter().zip(printed_heights))
    {
        assert_eq!(*h, height * 10);
        // Whole units and whole millimetres are both rounded from the same distance.
        assert!((199_940 + d - distance * 10).abs() <= 5);
    }
}

#[test]
fn annex_b_figures_in_a_register() {
    let (book, _) = read_file(&example("annex_b"));
    let lengths = lengths(&book);
    let mut register = fresh_register();
    assert_eq!(open(&mut register, 7, lengths[..12].try_into().unwrap()), 0);
    for (place, reading) in places().zip(lengths[12..].chunks(3)) {
        assert_eq!(
            enter_at(&mut register, 7, place, reading.try_into().unwrap()),
            0
        );
    }
    let given = evaluate(&register, 7);
    assert_eq!(given, evaluate_file(&example("annex_b")));
    let sheet = [
        given.sheet.s_x,
        given.sheet.s_y,
        given.sheet.s_xy,
        given.sheet.s_h,
    ];
    assert_eq!(sheet, [5096.0, 3788.0, 6350.0, 9900.0].map(|m| m / 1024.0));
    // The annex prints 4,99, 3,68, 6,20 and 9,68 from residuals rounded to whole millimetres.
    for (shown, printed) in sheet.iter().zip([4.99, 3.68, 6.20, 9.68]) {
        assert!((shown - printed).abs() < 0.025);
    }
    let own = residual(&register, 7, 1, 1, 1);
    assert_eq!([own.x, own.y, own.h], [-1_200, 540, 230]);
    assert_eq!(compare(&register, 7, 7, 1).same, 1);
    assert_eq!(compare(&register, 7, 7, 2).same, 1);
}

#[test]
fn edits_of_one_byte_never_go_astray() {
    let file = example("annex_b");
    let mut dice = Dice::new(99);
    let mut refused = 0;
    for _ in 0..50_000 {
        let mut edited = file.clone();
        let at = dice.roll(edited.len() as u64) as usize;
        match dice.roll(3) {
            0 => edited[at] = b" -0123456789\n\r\t\0\xFFS"[dice.roll(18) as usize],
            1 => drop(edited.remove(at)),
            _ => edited.insert(at, b"0 -9\n"[dice.roll(5) as usize]),
        }
        let (book, refusal) = read_file(&edited);
        let given = evaluate_file(&edited);
        assert!([0, 4, 8, 14].contains(&refusal));
        if refusal == 0 {
            assert_eq!(alone::evaluate(&book), given);
        } else {
            refused += 1;
            assert_eq!((book, given.refusal), ([0; BOOK_WORDS], refusal));
        }
    }
    assert!(refused > 1_000 && refused < 49_000);
}

#[test]
fn every_beginning_of_a_file_is_refused() {
    let file = example("example");
    for end in 0..file.len() {
        assert_eq!(report(&file[..end]), "REFUSED 14\n");
    }
}
