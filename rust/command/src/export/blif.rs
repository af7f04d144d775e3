//! BLIF, the format of networks that ABC reads: of a circuit, and of a program's nodes. Both have the
//! same inputs and outputs, so that one can be held against the other.

use std::fmt::Write;

use oracle::{Gate, Node};

use super::Line;
use crate::failure::Result;
use crate::files::{Circuit, Program};

/// The rows of a signal's cover: where each row's inputs are so, it is 1.
const ONE: &[&str] = &["1"];
const SAME: &[&str] = &["1 1"];
const NOT: &[&str] = &["0 1"];
const XOR: &[&str] = &["10 1", "01 1"];
const AND: &[&str] = &["11 1"];
/// The XOR of the third input with the AND of the first two.
const XOR_OF_AND: &[&str] = &["110 1", "0-1 1", "-01 1"];

/// A network as far as it is written.
struct Network(String);

impl Network {
    fn new(name: &str, numbers: &str, inputs: usize, outputs: usize) -> Network {
        let names = |name: &str, count: usize| {
            (0..count).map(|index| format!(" {name}_{index}")).collect::<String>()
        };
        Network(format!(
            "# {numbers}\n.model {name}\n.inputs{}\n.outputs{}\n",
            names("input", inputs),
            names("target", outputs)
        ))
    }

    /// A signal, made of others. Without a row it is 0.
    fn signal(&mut self, from: &[String], name: &str, cover: &[&str]) {
        let from: String = from.iter().map(|signal| format!("{signal} ")).collect();
        let _ = writeln!(self.0, ".names {from}{name}");
        cover.iter().for_each(|row| {
            let _ = writeln!(self.0, "{row}");
        });
    }

    fn finish(mut self) -> String {
        self.0.push_str(".end\n");
        self.0
    }
}

/// A circuit run from targets and work lines at 0: each gate makes a new signal of its target.
pub fn circuit(circuit: &Circuit) -> Result<String> {
    let head = circuit.head;
    let mut network = Network::new("circuit", &circuit.numbers(), head.inputs, head.outputs);
    // How many gates have had each line as their target.
    let mut changes = vec![0; head.lines()];
    for line in head.inputs..head.lines() {
        network.signal(&[], &signal(Line::of(head, line), 0), &[]);
    }
    for gate in oracle::gates(&circuit.file)? {
        let now = |line: usize| signal(Line::of(head, line), changes[line]);
        let (controls, target, cover) = match gate {
            Gate::Not { target } => (vec![], target, NOT),
            Gate::Cnot { control, target } => (vec![control], target, XOR),
            Gate::Toffoli { controls, target } => (controls.to_vec(), target, XOR_OF_AND),
        };
        let from: Vec<String> = controls.into_iter().chain([target]).map(now).collect();
        changes[target] += 1;
        network.signal(&from, &signal(Line::of(head, target), changes[target]), cover);
    }
    for (line, count) in changes.into_iter().enumerate().skip(head.inputs).take(head.outputs) {
        let target = Line::of(head, line);
        network.signal(&[signal(target, count)], &target.name(), SAME);
    }
    Ok(network.finish())
}

/// A line behind so many gates on it. An input that no gate has changed is an input of the network.
fn signal(line: Line, changes: usize) -> String {
    match (line, changes) {
        (Line::Input(_), 0) => line.name(),
        _ => format!("{}_{changes}", line.name()),
    }
}

/// A signal for each node.
pub fn program(Program { head, file }: &Program) -> Result<String> {
    let numbers = format!("inputs {}, outputs {}, nodes {}", head.inputs, head.outputs, head.nodes);
    let mut network = Network::new("program", &numbers, head.inputs, head.outputs);
    let (nodes, outputs) = oracle::nodes(file)?;
    for (index, node) in nodes.enumerate() {
        let (from, cover) = match node {
            Node::Zero => (vec![], &[][..]),
            Node::One => (vec![], ONE),
            Node::Input(j) => (vec![Line::Input(j).name()], SAME),
            Node::Not(a) => (vec![name(a)], NOT),
            Node::Xor(operands) => (operands.map(name).to_vec(), XOR),
            Node::And { operands, .. } => (operands.map(name).to_vec(), AND),
        };
        network.signal(&from, &name(index), cover);
    }
    for (k, node) in outputs.enumerate() {
        network.signal(&[name(node)], &Line::Target(k).name(), SAME);
    }
    Ok(network.finish())
}

fn name(node: usize) -> String {
    format!("node_{node}")
}
