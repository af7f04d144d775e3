//! The program file or the circuit file of what was given, made and checked by the library.

use std::ffi::OsStr;

use oracle::{
    cause, CircuitHead, ProgramHead, Refusal, LONGEST_CIRCUIT, LONGEST_PARSED, MOST_INPUTS,
    MOST_NODES, MOST_WORK_LINES,
};

use crate::arguments::Arguments;
use crate::failure::{Failure, Result};
use crate::input::{Input, Kind};
use crate::words;

/// A program file that the library accepts.
pub struct Program {
    pub head: ProgramHead,
    pub file: Vec<u8>,
}

/// A circuit file that the library accepts.
pub struct Circuit {
    pub head: CircuitHead,
    pub file: Vec<u8>,
}

impl Program {
    /// That of what a verb for functions was given.
    pub fn read(arguments: &Arguments, argument: &OsStr) -> Result<Program> {
        Program::of(arguments, Input::read(argument)?)
    }

    pub fn of(arguments: &Arguments, input: Input) -> Result<Program> {
        let inputs = arguments.number("--inputs")?;
        if inputs.is_some() && input.kind != Kind::Formula {
            return Err(arguments.wrong("--inputs is for a formula"));
        }
        let file = match input.kind {
            Kind::Formula => parsed(&input.bytes, inputs)?,
            Kind::Table => tabled(&input.bytes)?,
            Kind::Program | Kind::Circuit | Kind::Unknown => input.bytes,
        };
        match oracle::read_program(&file) {
            Ok(head) => Ok(Program { head, file }),
            Err(refusal) => Err(words::no_program(refusal, input.kind, &file)),
        }
    }
}

impl Circuit {
    /// That of what a verb for circuits was given. A function is compiled.
    pub fn read(arguments: &Arguments, argument: &OsStr) -> Result<Circuit> {
        Circuit::of(arguments, Input::read(argument)?)
    }

    pub fn of(arguments: &Arguments, input: Input) -> Result<Circuit> {
        let kind = input.kind;
        let file = match kind {
            Kind::Circuit => {
                for_function(arguments, "--grant")?;
                for_function(arguments, "--inputs")?;
                input.bytes
            }
            Kind::Unknown => input.bytes,
            _ => compiled(arguments, &Program::of(arguments, input)?)?,
        };
        match oracle::read_circuit(&file) {
            Ok(head) => Ok(Circuit { head, file }),
            Err(refusal) => Err(words::damaged(refusal, kind, &file)),
        }
    }

    /// The circuit of a program, by what is granted.
    pub fn compiled(arguments: &Arguments, program: &Program) -> Result<Circuit> {
        let file = compiled(arguments, program)?;
        Ok(Circuit { head: oracle::read_circuit(&file)?, file })
    }

    /// The numbers of its head, as they are shown.
    pub fn numbers(&self) -> String {
        let CircuitHead { inputs, outputs, work, gates } = self.head;
        format!("inputs {inputs}, outputs {outputs}, work lines {work}, gates {gates}")
    }
}

/// An option that says something of a function, where a circuit file was given.
fn for_function(arguments: &Arguments, option: &str) -> Result<()> {
    match arguments.given(option) {
        true => Err(arguments.wrong(&format!("{option} is for functions, not for circuits"))),
        false => Ok(()),
    }
}

/// The program file of a formula, over so many inputs, or over as many as it names.
fn parsed(formula: &[u8], inputs: Option<u64>) -> Result<Vec<u8>> {
    let named = named_inputs(formula);
    let inputs = inputs.unwrap_or(named.min(MOST_INPUTS));
    parse(formula, inputs).map_err(|refusal| {
        let at = match refusal.number {
            cause::NODE => refused_input(formula, inputs),
            _ => usize::try_from(refusal.place).unwrap_or(formula.len()),
        };
        words::formula(refusal, formula, at.min(formula.len()), named)
    })
}

/// The byte at which an input is refused, whose place is its node: the last one of the shortest
/// beginning that is refused for it too.
fn refused_input(formula: &[u8], inputs: u64) -> usize {
    let lengths: Vec<usize> = (1..=formula.len()).collect();
    lengths.partition_point(|length| {
        !matches!(parse(&formula[..*length], inputs), Err(Refusal { number: cause::NODE, .. }))
    })
}

fn parse(formula: &[u8], inputs: u64) -> std::result::Result<Vec<u8>, Refusal> {
    let mut area = vec![0; LONGEST_PARSED];
    let length = oracle::parse(formula, inputs, &mut area)?;
    area.truncate(length);
    Ok(area)
}

/// The highest input that the text of a formula names, and one.
fn named_inputs(formula: &[u8]) -> u64 {
    let numbers = formula.split(|byte| *byte == b'x').skip(1).filter_map(|behind| {
        let digits = behind.iter().take_while(|byte| byte.is_ascii_digit()).take(2);
        let digits: String = digits.map(|digit| char::from(*digit)).collect();
        digits.parse::<u64>().ok()
    });
    numbers.max().map_or(0, |highest| highest + 1)
}

fn tabled(text: &[u8]) -> Result<Vec<u8>> {
    match table::read(text) {
        Ok(table) => Ok(table.program_file()),
        Err(fault) => Err(Failure::Refused(format!("refused: {fault}"))),
    }
}

fn compiled(arguments: &Arguments, program: &Program) -> Result<Vec<u8>> {
    let grant = arguments.number("--grant")?.unwrap_or(MOST_WORK_LINES);
    let (mut sizes, mut area) = (vec![0; MOST_NODES], vec![0; LONGEST_CIRCUIT]);
    match oracle::compile(&program.file, grant, &mut sizes, &mut area) {
        Ok(length) => {
            area.truncate(length);
            Ok(area)
        }
        Err(refusal) => Err(words::compiling(refusal, grant)),
    }
}

#[cfg(test)]
mod tests {
    use super::*;

    #[test]
    fn the_inputs_that_a_formula_names() {
        for (formula, inputs) in [
            ("", 0),
            ("1", 0),
            ("x", 0),
            ("x0", 1),
            ("x1&x12^x9", 13),
            ("x63", 64),
            ("x99", 100),
            ("x123", 13),
            ("x00", 1),
            ("xx7", 8),
            ("x5x", 6),
        ] {
            assert_eq!(named_inputs(formula.as_bytes()), inputs, "{formula}");
        }
    }
}
