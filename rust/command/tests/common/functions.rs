//! The functions of `examples/functions`, and what the model says of programs and circuits.

use std::fs;
use std::path::{Path, PathBuf};

use model::circuit::Circuit;
use model::program::Program;
use model::Refusal;

use super::names_in;

/// The most work lines that can be granted.
pub const MOST_WORK: u64 = 1_024;

const MOST_NODES: usize = 4_096;
const MOST_BYTES: usize = 64_028;

/// Where a file of the repository is.
pub fn repository(name: &str) -> PathBuf {
    Path::new(concat!(env!("CARGO_MANIFEST_DIR"), "/../..")).join(name)
}

/// The file of an example, by its name and extension.
pub fn path(name: &str, extension: &str) -> String {
    let path = repository(&format!("examples/functions/{name}.{extension}"));
    path.to_str().expect("a name in letters").to_string()
}

/// What it holds, where it is there.
pub fn found(name: &str, extension: &str) -> Option<Vec<u8>> {
    fs::read(path(name, extension)).ok()
}

pub fn file(name: &str, extension: &str) -> Vec<u8> {
    found(name, extension).unwrap_or_else(|| panic!("{name}.{extension} is not there"))
}

/// The names of the examples.
pub fn names() -> Vec<String> {
    let files = names_in(&repository("examples/functions"));
    let names: Vec<String> =
        files.iter().filter_map(|file| file.strip_suffix(".program")).map(str::to_string).collect();
    assert!(names.len() >= 11, "the examples are not there: {names:?}");
    names
}

/// The program file of a table.
pub fn of_table(text: &str) -> Vec<u8> {
    table::read(text.as_bytes()).expect("a good table").program_file()
}

/// The program file of a formula.
pub fn of_formula(text: &str, inputs: u64) -> Vec<u8> {
    let mut area = vec![0; MOST_BYTES];
    let length = model::parse::parse(text.as_bytes(), inputs, &mut area).expect("a good formula");
    area[..length].to_vec()
}

pub fn program(file: &[u8]) -> Program {
    model::program::read(file).expect("a good program file")
}

pub fn circuit(file: &[u8]) -> Circuit {
    model::circuit::read(file).expect("a good circuit file")
}

/// The circuit file of a program file.
pub fn compiled(file: &[u8], grant: u64) -> Result<Vec<u8>, Refusal> {
    let mut area = vec![0; MOST_BYTES];
    let length = model::compile::compile(file, grant, &mut [0; MOST_NODES], &mut area)?;
    Ok(area[..length].to_vec())
}

/// The circuit file that undoes a circuit file except on these lines.
pub fn undone(file: &[u8], kept: &[usize]) -> Vec<u8> {
    let mut choices = vec![0; circuit(file).lines()];
    for line in kept {
        choices[*line] = 1;
    }
    let mut area = vec![0; file.len()];
    let length = model::undo::undo(file, &choices, &mut area).expect("it is undone");
    area[..length].to_vec()
}

/// The bits of every output of a program file.
pub fn outputs(file: &[u8], inputs: &[u8]) -> Vec<u8> {
    let output = |k: usize| {
        let bit = model::evaluate::evaluate(file, &mut [0; MOST_NODES], inputs, k as u64);
        u8::from(bit.expect("it is evaluated"))
    };
    (0..program(file).outputs.len()).map(output).collect()
}

/// The lines after a circuit file has run.
pub fn after(file: &[u8], start: &[u8]) -> Vec<u8> {
    let mut lines = start.to_vec();
    model::run::forwards(file, &mut lines).expect("it runs");
    lines
}

/// The lowest bits of a number, as many as these.
pub fn bits(number: u64, count: usize) -> Vec<u8> {
    (0..count).map(|at| (number >> at & 1) as u8).collect()
}

/// Bits as digits.
pub fn digits(bits: &[u8]) -> String {
    bits.iter().map(|bit| if *bit == 1 { '1' } else { '0' }).collect()
}
