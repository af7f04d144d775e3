//! `oracle list`: the circuit of a function as text.

use std::fmt::Write;

use oracle::{CircuitHead, Gate};

use super::{Verb, GRANT, INPUTS};
use crate::arguments::Arguments;
use crate::failure::Result;
use crate::files::{Circuit, Program};
use crate::output::Output;

pub const VERB: Verb = Verb {
    name: "list",
    takes: "INPUT",
    about: "lists the circuit of a function, a gate a line",
    more: "\
The first line has the numbers of inputs, outputs, work lines and gates. Then each gate has a line: N for
NOT, C for CNOT or T for Toffoli, its controls and its target. Lines are numbered from 0: the inputs, then
a target for each output, then the work lines.
",
    options: &[GRANT, INPUTS],
    act,
};

fn act(arguments: &Arguments) -> Result<Output> {
    let [argument] = arguments.plain(["INPUT"])?;
    let program = Program::read(arguments, argument)?;
    let circuit = Circuit::compiled(arguments, &program)?;
    Ok(Output::Text(listing(&circuit)?))
}

fn listing(Circuit { head, file }: &Circuit) -> Result<String> {
    let CircuitHead { inputs, outputs, work, gates } = head;
    let mut text = format!("lines {inputs} {outputs} {work} gates {gates}\n");
    for gate in oracle::gates(file)? {
        let _ = match gate {
            Gate::Not { target } => writeln!(text, "N {target}"),
            Gate::Cnot { control, target } => writeln!(text, "C {control} {target}"),
            Gate::Toffoli { controls: [a, b], target } => writeln!(text, "T {a} {b} {target}"),
        };
    }
    Ok(text)
}
