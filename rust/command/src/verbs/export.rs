//! `oracle export`: a circuit in a format that other tools read.

use super::{Opt, Verb, GRANT, INPUTS};
use crate::arguments::Arguments;
use crate::export::{blif, qasm, real};
use crate::failure::Result;
use crate::files::{Circuit, Program};
use crate::input::{Input, Kind};
use crate::output::Output;

pub const VERB: Verb = Verb {
    name: "export",
    takes: "INPUT --to FORMAT",
    about: "writes a circuit as OpenQASM, RevLib .real or BLIF",
    more: "\
FORMAT is qasm2 or qasm3 (OpenQASM 2 and 3), real (RevLib's .real) or blif (for ABC). A function is compiled
first, but for blif: there its nodes are written, to be held against the circuit. In the BLIF of a circuit
the targets and the work lines start at 0.
",
    options: &[
        Opt { name: "--to", value: "FORMAT", about: "qasm2, qasm3, real or blif" },
        GRANT,
        INPUTS,
    ],
    act,
};

fn act(arguments: &Arguments) -> Result<Output> {
    let [argument] = arguments.plain(["INPUT"])?;
    let Some(format) = arguments.value("--to") else {
        return Err(arguments.wrong("--to FORMAT is missing: qasm2, qasm3, real or blif"));
    };
    let format = format.to_string_lossy();
    let write = match &*format {
        "qasm2" => qasm::two,
        "qasm3" => qasm::three,
        "real" => real::write,
        "blif" => return blif(arguments, Input::read(argument)?),
        _ => return Err(arguments.wrong(&format!("there is no format `{format}`"))),
    };
    let circuit = Circuit::read(arguments, argument)?;
    Ok(Output::Text(write(&circuit)?))
}

fn blif(arguments: &Arguments, input: Input) -> Result<Output> {
    let text = match input.kind {
        Kind::Circuit | Kind::Unknown => blif::circuit(&Circuit::of(arguments, input)?)?,
        _ if arguments.given("--grant") => {
            return Err(
                arguments.wrong("--grant is for circuits, and blif writes a function's nodes")
            )
        }
        _ => blif::program(&Program::of(arguments, input)?)?,
    };
    Ok(Output::Text(text))
}
