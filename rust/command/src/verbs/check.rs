//! `oracle check`: what a file is, and its numbers.

use oracle::{Gate, Node};

use super::{Verb, INPUTS};
use crate::arguments::Arguments;
use crate::failure::Result;
use crate::files::{Circuit, Program};
use crate::input::{Input, Kind};
use crate::output::Output;

pub const VERB: Verb = Verb {
    name: "check",
    takes: "INPUT",
    about: "says what a file is, and its numbers",
    more: "The whole file is read and checked. Nothing is compiled: quote says what a function takes.\n",
    options: &[INPUTS],
    act,
};

fn act(arguments: &Arguments) -> Result<Output> {
    let [argument] = arguments.plain(["INPUT"])?;
    let input = Input::read(argument)?;
    let kind = input.kind;
    let numbers = match kind {
        Kind::Circuit => circuit_numbers(&Circuit::of(arguments, input)?)?,
        _ => program_numbers(&Program::of(arguments, input)?)?,
    };
    Ok(Output::Text(format!("{}: {numbers}\n", kind.name())))
}

fn program_numbers(Program { head, file }: &Program) -> Result<String> {
    let (nodes, _) = oracle::nodes(file)?;
    let marked = nodes.filter(|node| matches!(node, Node::And { marked: true, .. })).count();
    let (inputs, outputs, nodes) = (head.inputs, head.outputs, head.nodes);
    Ok(format!("inputs {inputs}, outputs {outputs}, nodes {nodes}, marked {marked}"))
}

fn circuit_numbers(circuit: &Circuit) -> Result<String> {
    let gates = oracle::gates(&circuit.file)?;
    let toffolis = gates.filter(|gate| matches!(gate, Gate::Toffoli { .. })).count();
    Ok(format!("{}, Toffolis {toffolis}", circuit.numbers()))
}
