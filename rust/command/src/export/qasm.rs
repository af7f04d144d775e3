//! OpenQASM 2 and 3. Inputs, targets and work lines are a register each, if there are any.

use std::fmt::Write;

use oracle::{CircuitHead, Gate};

use super::Line;
use crate::failure::Result;
use crate::files::Circuit;

pub fn two(circuit: &Circuit) -> Result<String> {
    let register = |name: &str, length: usize| format!("qreg {name}[{length}];\n");
    written(circuit, "OPENQASM 2.0;\ninclude \"qelib1.inc\";\n", register)
}

pub fn three(circuit: &Circuit) -> Result<String> {
    let register = |name: &str, length: usize| format!("qubit[{length}] {name};\n");
    written(circuit, "OPENQASM 3.0;\ninclude \"stdgates.inc\";\n", register)
}

fn written(circuit: &Circuit, front: &str, register: fn(&str, usize) -> String) -> Result<String> {
    let Circuit { head, file } = circuit;
    let CircuitHead { inputs, outputs, work, .. } = *head;
    let mut text = format!("{front}// {}\n", circuit.numbers());
    for (name, length) in [("inputs", inputs), ("targets", outputs), ("work", work)] {
        if length > 0 {
            text.push_str(&register(name, length));
        }
    }
    for gate in oracle::gates(file)? {
        let _ = match gate {
            Gate::Not { target } => writeln!(text, "x {};", bit(*head, target)),
            Gate::Cnot { control, target } => {
                writeln!(text, "cx {},{};", bit(*head, control), bit(*head, target))
            }
            Gate::Toffoli { controls, target } => {
                let [a, b, target] =
                    [controls[0], controls[1], target].map(|line| bit(*head, line));
                writeln!(text, "ccx {a},{b},{target};")
            }
        };
    }
    Ok(text)
}

/// A line as a bit of its register.
fn bit(head: CircuitHead, line: usize) -> String {
    match Line::of(head, line) {
        Line::Input(j) => format!("inputs[{j}]"),
        Line::Target(k) => format!("targets[{k}]"),
        Line::Work(i) => format!("work[{i}]"),
    }
}
