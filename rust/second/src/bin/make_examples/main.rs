//! Writes the field files of `examples/`, their expected reports, and the table of them.
//!
//! `cargo run --release --bin make_examples -- ../examples`, from the `rust` directory.
//! The reports are stated here, not computed, so that they can catch a wrong program.

mod annex;
mod judged;
mod refused;
mod sheet;

use std::{env, fs, io, path::Path};

pub struct Example {
    name: String,
    shows: String,
    file: Vec<u8>,
    expected: String,
}

impl Example {
    pub fn new(name: &str, shows: &str, file: Vec<u8>, expected: &str) -> Example {
        Example {
            name: name.into(),
            shows: shows.into(),
            file,
            expected: expected.into(),
        }
    }
}

fn main() -> io::Result<()> {
    let directory = env::args().nth(1).expect("the directory to write into");
    let directory = Path::new(&directory);
    let groups = [
        ("Marked examples", judged::marked()),
        ("Measured data", judged::measured()),
        ("At the bounds of the verdicts", judged::at_the_bounds()),
        (
            "At the limits of the screening",
            judged::at_the_screening_limits(),
        ),
        ("One for each refusal", refused::each_number()),
        ("Suspect sets", refused::suspects()),
        ("Where several refusals apply", refused::in_order()),
        ("Edges: bytes and lines' ends", refused::edges_of_bytes()),
        ("Edges: numbers", refused::edges_of_numbers()),
        ("Edges: lines and counts", refused::edges_of_lines()),
    ];
    let files: usize = groups.iter().map(|(_, examples)| examples.len()).sum();
    let mut readme = include_str!("readme_head.md").replace("FILES", &files.to_string());
    for (title, examples) in &groups {
        readme += &format!("\n## {title}\n\n| File | Shows | Output |\n|---|---|---|\n");
        for example in examples {
            fs::write(
                directory.join(format!("{}.field", example.name)),
                &example.file,
            )?;
            fs::write(
                directory.join(format!("{}.expected", example.name)),
                &example.expected,
            )?;
            let output = example.expected.trim_end().replace('\n', "`, `");
            readme += &format!("| `{}` | {} | `{output}` |\n", example.name, example.shows);
        }
    }
    fs::write(directory.join("README.md"), readme)
}
