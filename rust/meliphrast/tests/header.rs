//! The C header and the Rust declarations say the same, and C reaches the library through it.

use meliphrast::sys::{Comparison, Count, Evaluation, Lengths, Mark, Sheet};
use meliphrast::{Axis, Quantity, Refusal, BOOKS, LENGTH};
use std::any::type_name;
use std::mem::{offset_of, size_of};
use std::path::{Path, PathBuf};
use std::process::Command;

const HEADER: &str = include_str!("../../../include/meliphrast.h");
const DECLARATIONS: &str = include_str!("../src/sys.rs");

macro_rules! record {
    ($name:literal, $record:ty, $($field:ident)*) => {{
        let mut lines = vec![format!("{} {}", $name, size_of::<$record>())];
        $(lines.push(format!(
            "{}.{} {} {}",
            $name,
            stringify!($field),
            type_of(|record: &$record| &record.$field),
            offset_of!($record, $field)
        ));)*
        lines
    }};
}

/// The name of a field's type, without the module that it is from.
fn type_of<R, F>(_: fn(&R) -> &F) -> &'static str {
    let name = type_name::<F>();
    name.rsplit("::").next().unwrap_or(name)
}

fn records() -> Vec<String> {
    [
        record!("rtk_lengths", Lengths, refusal x y h),
        record!("rtk_count", Count, refusal count),
        record!("rtk_sheet", Sheet, s_x s_y s_xy s_h),
        record!("rtk_mark", Mark, within deviation bound),
        record!("rtk_evaluation", Evaluation, refusal series set quantity sheet xy h),
        record!("rtk_comparison", Comparison, refusal series set quantity same),
    ]
    .concat()
}

fn numbers() -> Vec<String> {
    let refusals = (1..=14).filter_map(|number| Refusal::from_numbers(number, [1, 1, 1]));
    let mut lines = vec![
        format!("RTK_LENGTH {LENGTH}"),
        format!("RTK_BOOKS {BOOKS}"),
        format!("RTK_XY {}", Axis::Xy.number()),
        format!("RTK_H {}", Axis::H.number()),
        format!("RTK_DISTANCE {}", Quantity::Distance.number()),
        format!("RTK_HEIGHT {}", Quantity::Height.number()),
    ];
    let number = |refusal: Refusal| format!("RTK_{} {}", refusal.name(), refusal.number());
    lines.extend(refusals.map(number));
    lines
}

/// Document 01's example as book 3, K5's x and a smaller h as book 16.
const CALLS: [&str; 14] = [
    "check 1",
    "fresh 0",
    "XY WITHIN 2355 2361",
    "H WITHIN 2486 2488",
    "sheet 2355 0 2355 2486",
    "residual -1764 0 -1862",
    "compare 1",
    "list 1 3",
    "short 10",
    "changes 32",
    "read 126 0 133",
    "closed 5",
    "file 14",
    "length 29696",
];

/// The C compiler, as strict as it can be made; the header's folder is known to it.
fn strict_cc(standard: &str) -> Command {
    let mut cc = Command::new("cc");
    cc.args([standard, "-Wall", "-Wextra", "-Werror", "-pedantic", "-I"]);
    cc.arg(folder().join("../../include"));
    cc
}

fn folder() -> &'static Path {
    Path::new(env!("CARGO_MANIFEST_DIR"))
}

#[test]
fn c_prints_the_same() {
    let program = Path::new(env!("CARGO_TARGET_TMPDIR")).join("header");
    let mut cc = strict_cc("-std=c11");
    cc.arg(folder().join("tests/header.c"));
    cc.arg(env!("MELIPHRAST_ARCHIVE")).arg("-o").arg(&program);
    assert!(cc.status().expect("cc compiles the program").success());
    let printed = Command::new(&program).output().expect("the program runs");
    let printed = String::from_utf8(printed.stdout).expect("plain text");
    let calls = CALLS.map(str::to_string).to_vec();
    let expected = [records(), numbers(), calls].concat();
    assert_eq!(printed.lines().collect::<Vec<_>>(), expected);
}

/// The test's program is C11; the header asks for less.
#[test]
fn the_header_is_c99() {
    let mut cc = strict_cc("-std=c99");
    cc.args(["-fsyntax-only", "-x", "c"]);
    cc.arg(folder().join("../../include/meliphrast.h"));
    assert!(cc.status().expect("cc compiles the header").success());
}

/// C's types by their Rust names.
const TYPES: [(&str, &str); 12] = [
    ("const uint8_t *", "*const u8 "),
    ("uint8_t *", "*mut u8 "),
    ("uint64_t", "u64"),
    ("int64_t", "i64"),
    ("size_t", "usize"),
    ("double", "f64"),
    ("rtk_lengths", "Lengths"),
    ("rtk_count", "Count"),
    ("rtk_sheet", "Sheet"),
    ("rtk_mark", "Mark"),
    ("rtk_evaluation", "Evaluation"),
    ("rtk_comparison", "Comparison"),
];

/// Each function of the header as `name(parameter: type, ..) -> type`.
fn c_functions() -> Vec<String> {
    let code = HEADER
        .split("/*")
        .filter_map(|part| part.split("*/").last());
    let rust = |code: String, (c, rust): &(&str, &str)| code.replace(c, rust);
    let code = TYPES.iter().fold(code.collect(), rust);
    let declared = code.split(';').filter_map(|declaration| {
        let (head, rest) = declaration.split_once('(')?;
        let (result, name) = head.trim().rsplit_once(' ')?;
        let parameters = rest.split([',', ')']).filter_map(|parameter| {
            let (kind, name) = parameter.trim().rsplit_once(' ')?;
            // `register` is a word of C's own.
            let name = name.trim_end_matches('_');
            Some(format!("{name}: {}", kind.trim()))
        });
        Some(signature(name, parameters, result))
    });
    declared.collect()
}

/// Each function of `sys` in the same way.
fn rust_functions() -> Vec<String> {
    let declared = DECLARATIONS.split("pub fn ").skip(1).filter_map(|part| {
        let (name, rest) = part.split_once('(')?;
        let (parameters, rest) = rest.split_once(") -> ")?;
        let (result, _) = rest.split_once(';')?;
        let parameters = parameters.split(',').map(|parameter| parameter.trim());
        let given = parameters.filter(|parameter| !parameter.is_empty());
        Some(signature(name, given.map(String::from), result))
    });
    declared.collect()
}

fn signature(name: &str, parameters: impl Iterator<Item = String>, result: &str) -> String {
    let parameters: Vec<String> = parameters.collect();
    format!("{name}({}) -> {result}", parameters.join(", "))
}

#[test]
fn every_function_is_declared_alike() {
    let functions = c_functions();
    assert_eq!(functions.len(), 16);
    assert_eq!(functions, rust_functions());
}

/// The archive that is linked, and the library behind it where that is a stand-in.
fn archives() -> Vec<PathBuf> {
    let mut archives = vec![PathBuf::from(env!("MELIPHRAST_ARCHIVE"))];
    if !cfg!(target_arch = "x86_64") {
        archives.push(folder().join("../../target/library/libmeliphrast.a"));
    }
    archives
}

/// What an archive defines for whoever links it, or what it leaves for others to define, in the order of the alphabet.
fn names(archive: &Path, which: &str) -> Vec<String> {
    let mut nm = Command::new("nm");
    let listed = nm.args(["-g", which, "-P"]).arg(archive);
    let listed = listed.output().expect("nm lists the archive");
    assert!(listed.status.success(), "nm {}", archive.display());
    let listed = String::from_utf8(listed.stdout).expect("plain text");
    // `-P` puts the name first; an object's own heading ends in a colon.
    let lines = listed.lines().filter(|line| !line.ends_with(':'));
    let names = lines.filter_map(|line| line.split_once(' '));
    let mut names: Vec<String> = names.map(|(name, _)| name.to_string()).collect();
    names.sort();
    names
}

#[test]
fn the_archive_exports_what_the_header_declares() {
    let functions = c_functions();
    let signatures = functions
        .iter()
        .filter_map(|declared| declared.split_once('('));
    let mut declared: Vec<&str> = signatures.map(|(name, _)| name).collect();
    declared.sort();
    for archive in archives() {
        let exported = names(&archive, "--defined-only");
        assert_eq!(exported, declared, "{}", archive.display());
    }
}

/// As the README says: a program without the C library brings these two.
#[test]
fn the_archive_needs_two_functions_and_no_other() {
    let library = archives().pop().expect("the library is the last");
    assert_eq!(names(&library, "--undefined-only"), ["memcpy", "memset"]);
}

#[test]
fn the_library_has_the_published_length() {
    assert_eq!(meliphrast::boundary::length(), LENGTH as u64);
}
