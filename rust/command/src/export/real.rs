//! RevLib's format .real. Work lines are constants, and no line is garbage: those of a compiled circuit
//! that are no targets end as they started.

use std::fmt::Write;

use oracle::Gate;

use super::Line;
use crate::failure::Result;
use crate::files::Circuit;

pub fn write(circuit: &Circuit) -> Result<String> {
    let Circuit { head, file } = circuit;
    let names: Vec<String> = (0..head.lines()).map(|line| Line::of(*head, line).name()).collect();
    let constants = "-".repeat(head.inputs + head.outputs) + &"0".repeat(head.work);
    let (lines, names_joined) = (head.lines(), names.join(" "));
    let mut text = format!(
        "# {}\n.version 2.0\n.numvars {lines}\n.variables {names_joined}\n.inputs {names_joined}\n\
         .outputs {names_joined}\n.constants {constants}\n.garbage {}\n.begin\n",
        circuit.numbers(),
        "-".repeat(lines)
    );
    for gate in oracle::gates(file)? {
        let lines = match gate {
            Gate::Not { target } => vec![target],
            Gate::Cnot { control, target } => vec![control, target],
            Gate::Toffoli { controls: [a, b], target } => vec![a, b, target],
        };
        let lines: Vec<&str> = lines.into_iter().map(|line| names[line].as_str()).collect();
        let _ = writeln!(text, "t{} {}", lines.len(), lines.join(" "));
    }
    text.push_str(".end\n");
    Ok(text)
}
