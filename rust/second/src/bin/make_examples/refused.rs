//! Files that are refused: one for each number, their order, and the edges of the form.

use crate::judged::{annex_a, annex_a_thrice, with_x_and_h};
use crate::sheet::FieldSheet;
use crate::Example;

/// A name, what it shows, and every `from` of document 01's example replaced by `to`.
struct Edit {
    name: &'static str,
    shows: &'static str,
    from: &'static str,
    to: &'static str,
}

const fn edit(
    name: &'static str,
    shows: &'static str,
    from: &'static str,
    to: &'static str,
) -> Edit {
    Edit {
        name,
        shows,
        from,
        to,
    }
}

const SEPARATORS: [Edit; 6] = [
    edit("crlf", "lines ended by CR LF", "\n", "\r\n"),
    edit("tab", "a tab between fields", "1 1 126", "1 1\t126"),
    edit("two_spaces", "two spaces", "1 1 126", "1 1  126"),
    edit("leading_space", "begun by a space", "1 1 126", " 1 1 126"),
    edit("trailing_space", "ended by a space", "133\n", "133 \n"),
    edit("blank_line", "an empty line", "133\n", "133\n\n"),
];

const NUMBERS: [Edit; 5] = [
    edit("leading_zero", "the number 0126", "126", "0126"),
    edit("minus_zero", "the number -0", "126 0 133", "126 -0 133"),
    edit("plus_sign", "the number +126", "126", "+126"),
    edit("lone_minus", "a '-' without digits", "126", "-"),
    edit("thirteen_digits", "13 digits", "126", "1000000000000"),
];

const LINES: [Edit; 8] = [
    edit("set_six", "a set above 5", "5 2 100000", "6 2 100000"),
    edit("point_three", "a point above 2", "1 2 100", "1 3 100"),
    edit("eleven_terms", "a term missing", "100000 0 150", "0 150"),
    edit("thirteen_terms", "a term too many", "0 150", "0 0 150"),
    edit("count_too_low", "SERIES1 says 9, has 10", "ES1 10", "ES1 9"),
    edit("count_eleven", "a count above 10", "ES1 10", "ES1 11"),
    edit("count_negative", "a count below 0", "ES3 10", "ES3 -1"),
    edit("lower_case", "small letters", "TERMS", "terms"),
];

pub fn each_number() -> Vec<Example> {
    let still = FieldSheet::still;
    let terms = still().with_stated(0, 0);
    let far = still().moved(1, 4, 1, [0, 0, 100_001]);
    let short = still().without(2, 5, 2);
    let form = edited("126", "12b");
    vec![
        refused("refused_14_form", "a letter in a number", form, "14"),
        refused("refused_4_terms", "D\\* is 0", terms.file(), "4"),
        refused("refused_8_far", "K10: offset 100,001", far.file(), "8"),
        refused("refused_10_short", "one missing", short.file(), "10"),
        refused("no_readings", "empty bodies", no_readings().file(), "10"),
        refused("annex_a_short", "annex A", annex_a().file(), "10"),
    ]
}

pub fn suspects() -> Vec<Example> {
    let still = FieldSheet::still;
    let distance = still().moved(2, 3, 2, [531, 0, 0]).file();
    let height = still().moved(3, 5, 1, [0, 0, 884]).file();
    let both = still().moved(2, 4, 1, [531, 0, -884]).file();
    let two = still().moved(3, 1, 1, [531, 0, 0]);
    let two = two.moved(2, 5, 1, [0, 0, 884]).file();
    let annex = annex_a_thrice().with_stated(2, 58).file();
    let annex_shows = "annex A three times over, s_xy 58: d 206 (K3)";
    vec![
        refused("refused_11_distance", "K1: d 531", distance, "11 2 3 1"),
        refused("refused_11_height", "K2: d 884", height, "11 3 5 2"),
        refused("refused_11_both", "distance first", both, "11 2 4 1"),
        refused("refused_11_two_sets", "first set first", two, "11 2 5 2"),
        refused("annex_a_suspect", annex_shows, annex, "11 1 1 1"),
    ]
}

pub fn in_order() -> Vec<Example> {
    let suspect = FieldSheet::still().moved(1, 1, 1, [0, 0, 884]);
    let short = suspect.without(3, 5, 2);
    let far = short.clone().moved(3, 5, 1, [0, -100_001, 0]);
    let terms = far.clone().with_stated(3, 10_001);
    let mut form = terms.file();
    form.pop();
    vec![
        refused("order_form", "FORM, TERMS, FAR, SHORT apply", form, "14"),
        refused("order_terms", "TERMS, FAR, SHORT apply", terms.file(), "4"),
        refused("order_far", "FAR, SHORT apply; suspect", far.file(), "8"),
        refused("order_short", "SHORT applies; suspect", short.file(), "10"),
    ]
}

pub fn edges_of_bytes() -> Vec<Example> {
    let mut no_final_lf = example();
    no_final_lf.pop();
    let mut trailing = example();
    trailing.extend(b"END\n");
    let mut too_long = example();
    too_long.resize(4_097, b'\n');
    let mut high_byte = example();
    high_byte[0] = 0xC3;
    let mut nul = example();
    nul.push(0);
    let mut examples = vec![
        refused("empty", "no byte at all", Vec::new(), "14"),
        refused("no_final_lf", "no LF at the end", no_final_lf, "14"),
        refused("trailing_bytes", "a further line", trailing, "14"),
        refused("high_byte", "a byte above 127", high_byte, "14"),
        refused("nul", "a NUL after the last line", nul, "14"),
        refused("too_long", "4,097 bytes", too_long, "14"),
    ];
    examples.extend(SEPARATORS.iter().map(not_of_the_form));
    examples
}

pub fn edges_of_numbers() -> Vec<Example> {
    let twelve_digits = edited("126", "999999999999");
    let mut examples: Vec<_> = NUMBERS.iter().map(not_of_the_form).collect();
    let shows = "12 digits are a number";
    examples.push(refused("twelve_digits", shows, twelve_digits, "8"));
    examples
}

pub fn edges_of_lines() -> Vec<Example> {
    let (first, second) = ("1 1 126 0 133\n", "1 2 100000 0 0\n");
    let both = [first, second].concat();
    // `edited` replaces every match; the two lines stand together in series 1 only.
    let reversed = edited(&both, &[second, first].concat());
    let repeated = edited(&both, &[first, first].concat());
    let missing = FieldSheet::still().without(3, 5, 2).file();
    let too_high = replaced(missing, "SERIES3 9", "SERIES3 10");
    let shows = "SERIES3 says 10, has 9";
    let mut examples = vec![
        refused("out_of_order", "point 2 before point 1", reversed, "14"),
        refused("twice", "a line twice", repeated, "14"),
        refused("count_too_high", shows, too_high, "14"),
    ];
    examples.extend(LINES.iter().map(not_of_the_form));
    examples
}

fn refused(name: &str, shows: &str, file: Vec<u8>, numbers: &str) -> Example {
    Example::new(name, shows, file, &format!("REFUSED {numbers}\n"))
}

fn not_of_the_form(edit: &Edit) -> Example {
    refused(edit.name, edit.shows, edited(edit.from, edit.to), "14")
}

/// The bytes of document 01's example.
fn example() -> Vec<u8> {
    with_x_and_h(126, 133).file()
}

fn edited(from: &str, to: &str) -> Vec<u8> {
    replaced(example(), from, to)
}

fn replaced(file: Vec<u8>, from: &str, to: &str) -> Vec<u8> {
    let text = String::from_utf8(file).expect("ASCII");
    assert!(text.contains(from), "nothing to replace: {from:?}");
    text.replace(from, to).into_bytes()
}

fn no_readings() -> FieldSheet {
    FieldSheet {
        readings: [None; 30],
        ..FieldSheet::still()
    }
}
