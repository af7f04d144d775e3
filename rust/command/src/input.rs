//! What is given to a verb: read, and told apart by its content.

use std::ffi::OsStr;
use std::fs::File;
use std::io::{self, Read};
use std::os::fd::AsFd;
use std::os::unix::ffi::OsStrExt;
use std::path::Path;

use crate::failure::{Failure, Result};

/// No file that the library takes is nearly as long, and a table has room for comments.
const MOST_BYTES: u64 = 16 << 20;

/// The bytes of which formulas are made, and a blank, which is refused with a caret below it.
const OF_FORMULAS: &[u8] = b"x0123456789^&!() ";

/// Those that stand in no usual name of a file.
const OPERATORS: &[u8] = b"^&!()";

#[derive(Debug, Clone, Copy, PartialEq, Eq)]
pub enum Kind {
    Program,
    Circuit,
    Table,
    Formula,
    /// Nothing, or bytes that are no text.
    Unknown,
}

impl Kind {
    pub fn name(self) -> &'static str {
        match self {
            Kind::Program => "program file",
            Kind::Circuit => "circuit file",
            Kind::Table => "table",
            Kind::Formula => "formula",
            Kind::Unknown => "file",
        }
    }

    /// What the content of a file is. The two formats start with the number of their entries, which
    /// no text does.
    fn of(content: &[u8]) -> Kind {
        match content {
            [3, 0, ..] => Kind::Program,
            [2, 0, ..] => Kind::Circuit,
            [] => Kind::Unknown,
            _ if !content.iter().all(|byte| may_stand_in_text(*byte)) => Kind::Unknown,
            _ if content.split(|byte| *byte == b'\n').any(is_of_table) => Kind::Table,
            _ => Kind::Formula,
        }
    }
}

pub struct Input {
    pub kind: Kind,
    pub bytes: Vec<u8>,
}

impl Input {
    /// The formula that the argument is, or what stands in the file that it names.
    pub fn read(argument: &OsStr) -> Result<Input> {
        if is_formula(argument) {
            return Ok(Input { kind: Kind::Formula, bytes: argument.as_bytes().to_vec() });
        }
        let mut bytes = content(argument, MOST_BYTES)?;
        let kind = Kind::of(&bytes);
        if kind == Kind::Formula {
            without_newline(&mut bytes);
        }
        Ok(Input { kind, bytes })
    }
}

/// What a file, or standard input for `-`, has in it, if that is not too much.
pub fn content(name: &OsStr, most: u64) -> Result<Vec<u8>> {
    let (shown, file) = match name.to_string_lossy() {
        dash if dash == "-" => ("standard input".into(), standard_input()),
        path => (path, File::open(name)),
    };
    let read = file.and_then(|file| limited(file, most));
    let bytes = read.map_err(|error| Failure::unreadable(&shown, &error))?;
    if bytes.len() as u64 > most {
        return Err(Failure::File(format!("cannot read {shown}: it has over {} MiB", most >> 20)));
    }
    Ok(bytes)
}

/// Standard input as a file: Rust's own handle takes an input that cannot be read for an empty one.
fn standard_input() -> io::Result<File> {
    io::stdin().as_fd().try_clone_to_owned().map(File::from)
}

/// One byte more than the most, at most.
fn limited(file: File, most: u64) -> io::Result<Vec<u8>> {
    let mut bytes = Vec::new();
    file.take(most + 1).read_to_end(&mut bytes)?;
    Ok(bytes)
}

/// Whether the argument is meant as a formula, and not as the name of a file.
fn is_formula(argument: &OsStr) -> bool {
    let bytes = argument.as_bytes();
    let of_formulas = bytes.iter().all(|byte| OF_FORMULAS.contains(byte));
    let has_operator = bytes.iter().any(|byte| OPERATORS.contains(byte));
    of_formulas || (has_operator && matches!(Path::new(argument).try_exists(), Ok(false)))
}

fn may_stand_in_text(byte: u8) -> bool {
    !byte.is_ascii_control() || matches!(byte, b'\t' | b'\n' | b'\r')
}

/// Whether a line is one that tables have and formulas have not.
fn is_of_table(line: &[u8]) -> bool {
    let mut words = line.split(u8::is_ascii_whitespace).filter(|word| !word.is_empty());
    match (words.next(), words.next()) {
        (_, Some(b"=")) | (Some(b"inputs" | b"output"), _) => true,
        (Some(first), _) => first.starts_with(b"#"),
        _ => false,
    }
}

/// A newline behind a formula is the file's and not the formula's.
fn without_newline(formula: &mut Vec<u8>) {
    if formula.last() == Some(&b'\n') {
        formula.pop();
        if formula.last() == Some(&b'\r') {
            formula.pop();
        }
    }
}

#[cfg(test)]
mod tests {
    use super::*;

    #[test]
    fn content_is_told_apart() {
        for (content, kind) in [
            (&b"\x03\0"[..], Kind::Program),
            (b"\x02\0", Kind::Circuit),
            (b"", Kind::Unknown),
            (b"\x03", Kind::Unknown),
            (b"\x01\0", Kind::Unknown),
            (b"x0\0", Kind::Unknown),
            (b"x0\x1b", Kind::Unknown),
            (b"x0\x7f", Kind::Unknown),
            (b"x0", Kind::Formula),
            (b"x0&\tx1\r\n", Kind::Formula),
            (b"\n", Kind::Formula),
            (b"x0 outputs 1", Kind::Formula),
            (b"x0=x1", Kind::Formula),
            (b"\xc3\xa4", Kind::Formula),
            (b"# x0", Kind::Table),
            (b"\n  #\n", Kind::Table),
            (b"inputs", Kind::Table),
            (b"x\n output 3", Kind::Table),
            (b"0 = ONE", Kind::Table),
            (b"0\t=\r\n", Kind::Table),
            (b"inputs 1 \xff", Kind::Table),
        ] {
            assert_eq!(Kind::of(content), kind, "{}", content.escape_ascii());
        }
    }

    #[test]
    fn arguments_are_told_apart() {
        let is_formula = |argument: &str| super::is_formula(OsStr::new(argument));
        for formula in ["x0", "", "10", "x0 & x1", "a&b", "x0&y", "!", "(x0^x1)&1"] {
            assert!(is_formula(formula), "{formula}");
        }
        for name in ["./x0", "and.program", "-", "x0|x1", "X0", "src"] {
            assert!(!is_formula(name), "{name}");
        }
    }

    #[test]
    fn one_newline_is_not_the_formulas() {
        for (content, formula) in [
            ("x0\n", "x0"),
            ("x0\r\n", "x0"),
            ("x0", "x0"),
            ("x0\n\n", "x0\n"),
            ("x0\r", "x0\r"),
            ("\n", ""),
        ] {
            let mut bytes = content.as_bytes().to_vec();
            without_newline(&mut bytes);
            assert_eq!(bytes, formula.as_bytes(), "{content:?}");
        }
    }
}
